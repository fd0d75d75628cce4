"""Runs every function named test_... of the test files, and ends with a line that counts.  Assumes nothing."""

import importlib
import os
import sys
import time
import traceback

ROOT = os.path.dirname(os.path.dirname(os.path.dirname(os.path.abspath(__file__))))
sys.path[:0] = [ROOT, os.path.join(ROOT, "tests"), os.path.join(ROOT, "data")]

FILES = ("test_numbers", "test_brackets", "test_plain", "test_terms", "test_text", "test_convert", "test_verdicts",
         "test_kinds", "test_lent", "test_virial", "test_both_sides", "test_cover", "test_table5", "test_table4",
         "test_proposals", "test_compare")


def tests():
    for file in FILES:
        module = importlib.import_module("second.tests." + file)
        for name in sorted(vars(module)):
            if name.startswith("test_"):
                yield file + "." + name, getattr(module, name)


def passes(test):
    try:
        test()
        return True
    except Exception:  # a broken assert or anything worse: shown, and counted as failed
        traceback.print_exc(file=sys.stdout)
        return False


def main():
    passed = failed = 0
    for name, test in tests():
        start = time.time()
        good = passes(test)
        passed, failed = passed + good, failed + (not good)
        print("%-6s %6.2f s  %s" % ("ok" if good else "FAILED", time.time() - start, name), flush=True)
    print("%d passed, %d failed" % (passed, failed))
    return 1 if failed or not passed else 0


if __name__ == "__main__":
    sys.exit(main())
