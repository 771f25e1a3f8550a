"""Installs the programs and the library, and generates what is installed with them: manual, completion, packages."""
