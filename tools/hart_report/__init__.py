"""`hart-report`: reads what `hart explain --json` writes, and makes one page of it."""
