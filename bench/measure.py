"""Compares two programs, counts their instructions, and ends with how much passed.

    measure.py SETTLE BASELINE FOLDER
"""

import sys

import compare
import count


def main():
    settle, baseline, folder = sys.argv[1:]
    passed, failed, outcomes = compare.compare(settle, baseline, folder)
    checks = compare.spread(outcomes) + compare.frugal(settle, baseline)
    try:
        checks += count.check(settle, baseline, folder)
    except count.NotCounted as fault:
        print(fault)
        checks.append(False)
    passed += checks.count(True)
    failed += checks.count(False)
    print(f"{passed} passed, {failed} failed")
    return 0 if failed == 0 else 1


if __name__ == "__main__":
    sys.exit(main())
