"""What `make mistakes` is made of: wrong bodies, the functions that they change, and what the prover says of them."""
