"""Runs all tests of this folder, and tells at the end which were skipped and why."""

from __future__ import annotations

import sys
import unittest
from pathlib import Path


def main() -> int:
    """The status is 0 where no test failed."""
    here = Path(__file__).resolve().parent
    suite = unittest.defaultTestLoader.discover(str(here), top_level_dir=str(here.parent))
    result = unittest.TextTestRunner(verbosity=0).run(suite)
    for test, reason in result.skipped:
        print(f"planners: skipped {test.id()}: {reason}", file=sys.stderr)
    return 0 if result.wasSuccessful() else 1


if __name__ == "__main__":
    sys.exit(main())
