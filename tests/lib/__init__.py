"""What several tests that are run by hand share: see tests/README.md."""
