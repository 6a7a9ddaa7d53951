"""What the test of `hart-report` needs: an example capture, an independent count of its lines, and a reader of pages."""
