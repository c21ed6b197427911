"""One module for each command: adding a command is adding a file here."""
