"""What the scripts in tests/ share."""
