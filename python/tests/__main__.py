"""Runs all tests and the examples of the documentation over the package that is installed. The last line is 'N passed, M failed'.

usage: python3 python/tests [NAME..]       pytest python/tests runs the same tests, without the examples

NAME is a module of tests, or a class or a test in one, as test_shards.Arrays; with names the examples are left out.
"""
import doctest
import importlib
import os
import pkgutil
import sys
import unittest

import noddychest


class Counted(unittest.TextTestResult):
    passed = 0

    def addSuccess(self, test):
        super().addSuccess(test)
        self.passed += 1


def suite(folder, names):
    if names:
        return unittest.defaultTestLoader.loadTestsFromNames(names)
    tests = unittest.TestSuite([unittest.defaultTestLoader.discover(folder)])
    modules = [importlib.import_module(f"noddychest.{it.name}") for it in pkgutil.iter_modules(noddychest.__path__)]
    for module in [noddychest, *modules]:
        if getattr(module, "__file__", "").endswith(".py"):
            tests.addTests(doctest.DocTestSuite(module, optionflags=doctest.IGNORE_EXCEPTION_DETAIL))
    return tests


def main():
    folder = os.path.dirname(os.path.abspath(__file__))
    sys.path.insert(0, folder)
    result = unittest.TextTestRunner(sys.stdout, resultclass=Counted).run(suite(folder, sys.argv[1:]))
    for test, why in result.skipped:
        print(f"left out: {test}: {why}")
    failed = len({getattr(test, "test_case", test).id() for test, _ in [*result.failures, *result.errors]})
    print(f"{result.passed} passed, {failed} failed")
    return 1 if failed else 0


if __name__ == "__main__":
    sys.exit(main())
