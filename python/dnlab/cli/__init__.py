"""The commands of the package. Each module has a `main` that takes the arguments and returns the exit
status."""
