#!/usr/bin/env python3
"""Runs a tool of this checkout: python3 tools/check_refutation.py --help tells what it does."""

import sys

from reqlock_tools.commands import check_refutation

if __name__ == "__main__":
    sys.exit(check_refutation())
