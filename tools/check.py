#!/usr/bin/env python3
"""The tests of the tools and the examples: `check.py [NAME ..]` runs all, or those whose name has one of the words.

One line a test; the last line is `N passed, M failed`, and the status is 0 where none failed. What wants the built program
or a browser is skipped where there is none, and says so. PATHSERVE names another program, CHROMIUM another browser.
"""
import os
import sys
import unittest

TESTS = os.path.join(os.path.dirname(os.path.abspath(__file__)), "tests")


def cases(suite):
    for it in suite:
        yield from cases(it) if isinstance(it, unittest.TestSuite) else [it]


class Lines(unittest.TestResult):
    """Tells of each test in a line as it ends. What fails for a whole class, as its set-up, is a failure too."""

    def __init__(self):
        super().__init__()
        self.passed, self.failed = 0, set()

    def tell(self, kind, test, more=""):
        print(f"{kind} {name_of(test)}{more}", flush=True)

    def addSuccess(self, test):
        self.passed += 1
        self.tell("ok", test)

    def addSkip(self, test, reason):
        self.tell("skipped", test, f": {reason}")

    def addError(self, test, error):
        super().addError(test, error)
        self.told_fault(test, self.errors[-1][1])

    def addFailure(self, test, error):
        super().addFailure(test, error)
        self.told_fault(test, self.failures[-1][1])

    def addSubTest(self, test, part, error):
        super().addSubTest(test, part, error)
        if error:
            self.told_fault(test, (self.failures if issubclass(error[0], test.failureException) else self.errors)[-1][1])

    def told_fault(self, test, text):
        if test.id() not in self.failed:
            self.failed.add(test.id())
            self.tell("FAILED", test, f"\n{text}")


def name_of(test):
    return ".".join(test.id().split(".")[-3:])


def main(words):
    sys.dont_write_bytecode = True
    sys.path[:0] = [TESTS, os.path.dirname(TESTS)]
    found = cases(unittest.defaultTestLoader.discover(TESTS))
    result = Lines()
    unittest.TestSuite(it for it in found if not words or any(word in name_of(it) for word in words)).run(result)
    print(f"{result.passed} passed, {len(result.failed)} failed")
    return 1 if result.failed else 0


if __name__ == "__main__":
    sys.exit(main(sys.argv[1:]))
