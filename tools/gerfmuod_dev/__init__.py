"""What `tools/dev` does: a module for each subcommand, with `arguments(parser)` and `run(options)`, which returns the exit status."""
