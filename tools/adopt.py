#!/usr/bin/env python3
"""Runs a tool of this checkout: python3 tools/adopt.py --help tells what it does."""

import sys

from reqlock_tools.commands import adopt

if __name__ == "__main__":
    sys.exit(adopt())
