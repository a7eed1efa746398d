"""Plays a suite of logs and compares what the program prints with their transcripts.

`tools/install/cave-suite` and `logs/run` are the two doors of this package. It needs
Python 3.10 or later, and nothing else.
"""
