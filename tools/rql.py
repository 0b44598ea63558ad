#!/usr/bin/env python3
"""Runs a tool of this checkout: python3 tools/rql.py --help tells what it does."""

import sys

from reqlock_tools.commands import rql

if __name__ == "__main__":
    sys.exit(rql())
