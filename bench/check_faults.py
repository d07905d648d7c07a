#!/usr/bin/env python3
"""Makes some calls of the built programs fail, and cuts some inputs, as faults.py --quick does.

    bench/check_faults.py [PROGRAM]

PROGRAM is the built program, crates/pct_run/out/pct_run where none is named, and beside it crates/pct_inspect/out/pct_inspect is tried
(./pct build makes both). The last line is `N passed, M failed`, and the status is 1 if M is not 0 or N is 0.
"""
import pathlib
import sys

import faults
import program


def main():
    if len(sys.argv) > 2 or sys.argv[1:] and sys.argv[1].startswith("-"):
        sys.exit(__doc__)
    paths = [str(pathlib.Path(sys.argv[1] if sys.argv[1:] else program.BUILT).resolve()), str(program.INSPECT)]
    passed, failed = faults.try_all(paths, True, program.processors(0), faults.QUICK_CUTS)
    print(f"{passed} passed, {failed} failed")
    sys.exit(1 if failed or not passed else 0)


if __name__ == "__main__":
    main()
