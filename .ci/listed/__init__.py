"""What `.ci/statements` is made of."""
