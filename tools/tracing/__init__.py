"""What `tools/trace` is made of."""
