"""Runs all tests. Some wait for the clock of a machine that may stand still for a second: those that fail, if they are few, run once more
when all others have ended, and count if they fail again."""
import sys
import unittest

# More failures than these are no accident.
FEW = 5


def failures(result):
    """The names of the tests that failed, each once."""
    return sorted({getattr(test, "test_case", test).id() for test, _text in result.failures + result.errors})


def main():
    result = unittest.TextTestRunner().run(unittest.defaultTestLoader.discover("."))
    failed = failures(result)
    if 0 < len(failed) <= FEW:
        print("once more, with nothing beside:", *failed, file=sys.stderr)
        result = unittest.TextTestRunner().run(unittest.defaultTestLoader.loadTestsFromNames(failed))
    sys.exit(not result.wasSuccessful())


main()
