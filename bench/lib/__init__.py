"""What several of the scripts that time programs share: see bench/README.md."""
