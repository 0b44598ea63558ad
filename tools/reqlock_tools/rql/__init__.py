"""rql, what a person types: it keeps the index fresh, and then calls the program, which decides every version."""

from reqlock_tools.rql.run import main

__all__ = ["main"]
