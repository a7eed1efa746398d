"""The server of `tools/page/live`: a log that is edited in a browser, and played by the program."""
