#!/usr/bin/env python3
"""Runs a tool of this checkout: python3 tools/merge.py --help tells what it does."""

import sys

from reqlock_tools.commands import merge

if __name__ == "__main__":
    sys.exit(merge())
