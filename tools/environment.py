#!/usr/bin/env python3
"""Runs a tool of this checkout: python3 tools/environment.py --help tells what it does. Python 3.6 is enough for it."""

import sys

from reqlock_tools.environment import main

if __name__ == "__main__":
    sys.exit(main())
