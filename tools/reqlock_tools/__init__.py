"""The tools beside reqlock: they make its index and environment, and read its locks. Each command is a module with a `main`."""
