"""The tests of tools/. Where a test is named from the top of the checkout, `support` is found by this."""

import sys
from pathlib import Path

sys.path.insert(0, str(Path(__file__).resolve().parent))
