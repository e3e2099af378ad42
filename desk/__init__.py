"""What `./kj` is made of: a bench written in TOML is packed, stepped by the proved program and shown. Nothing here decides a step."""
