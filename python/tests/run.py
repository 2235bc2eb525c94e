#!/usr/bin/env python3
"""Runs the tests of the package: by pytest where it is there, else by itself. With words, only tests in whose names one of them stands.

Prints a line for each test and `N passed, M failed` last; status 1 where one failed.
"""

import importlib
import sys
import traceback
import unittest
from pathlib import Path

sys.dont_write_bytecode = True
from support import HERE, IS_LIBRARY, missing  # noqa: E402

try:
    import pytest

    hook = pytest.hookimpl
except ImportError:
    pytest = None

    def hook(**_):
        return lambda function: function


class Tally:
    """Counts and tells what became of each test."""

    def __init__(self):
        self.passed = self.failed = 0

    def tell(self, name, outcome, told=""):
        if outcome == "failed":
            self.failed += 1
            print(told, flush=True)
        self.passed += outcome == "ok"
        what = name.rpartition("::")[2].removeprefix("test_").replace("_", " ")
        says = {"ok": "ok", "failed": "FAILED"}.get(outcome) or f"skipped: {told}"
        print(f"python: {what}: {says}", flush=True)


class Lines:
    """A plugin of pytest that tells each test by a line."""

    def __init__(self, tally):
        self.tally = tally

    @hook(trylast=True)
    def pytest_configure(self, config):
        config.pluginmanager.unregister(name="terminalreporter")

    def pytest_runtest_logreport(self, report):
        if report.skipped:
            self.tally.tell(report.nodeid, "skipped", report.longrepr[2].removeprefix("Skipped: "))
        elif report.failed:
            self.tally.tell(report.nodeid, "failed", report.longreprtext)
        elif report.when == "call":
            self.tally.tell(report.nodeid, "ok")

    def pytest_collectreport(self, report):
        if report.failed:
            self.tally.tell(report.nodeid, "failed", report.longreprtext)


def run_with_pytest(tally, words):
    options = ["-p", "no:cacheprovider", "--rootdir", str(HERE)]
    chosen = ["-k", " or ".join(words)] if words else []
    pytest.main([*options, *chosen, str(HERE)], plugins=[Lines(tally)])


def run_alone(tally, words):
    for path in sorted(HERE.glob("test_*.py")):
        for name, test in tests_of(tally, path.stem):
            if not words or any(word in name for word in words):
                run_one(tally, name, test)


def tests_of(tally, name):
    """The tests of a module, or none where it is skipped or cannot be taken up."""
    try:
        module = importlib.import_module(name)
    except unittest.SkipTest as reason:
        tally.tell(name, "skipped", str(reason))
        return []
    except Exception:
        tally.tell(name, "failed", traceback.format_exc())
        return []
    return [(name, test) for name, test in vars(module).items() if name.startswith("test_") and callable(test)]


def run_one(tally, name, test):
    try:
        test()
    except unittest.SkipTest as reason:
        tally.tell(name, "skipped", str(reason))
    except Exception:
        tally.tell(name, "failed", traceback.format_exc())
    else:
        tally.tell(name, "ok")


def main():
    why = missing()
    if why:
        print(f"python: skipped: {why}")
        print("0 passed, 0 failed")
        return 0
    print(f"python: answers by {'the library' if IS_LIBRARY else 'programs'}", flush=True)
    tally = Tally()
    (run_with_pytest if pytest else run_alone)(tally, sys.argv[1:])
    print(f"{tally.passed} passed, {tally.failed} failed")
    return 1 if tally.failed or not tally.passed else 0


if __name__ == "__main__":
    sys.exit(main())
