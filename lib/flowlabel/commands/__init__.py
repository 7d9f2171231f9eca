"""A module for each command, with its PARSER, and with `main`, which takes its words and returns its exit status."""
