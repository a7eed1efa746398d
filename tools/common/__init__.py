"""What the scripts of tools/ and logs/tools share."""
