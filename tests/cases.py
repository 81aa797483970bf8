"""The tests of these files under `unittest`: they are found, named, chosen by their names, and run by several processes."""

import fnmatch
import multiprocessing
import os
import time
import traceback
import unittest
from collections import namedtuple
from concurrent.futures import ProcessPoolExecutor

from gate import Differs

HERE = os.path.dirname(os.path.abspath(__file__))

# what became of a test: its name and its sentence, what failed, why it was not tried, and how long it took
Done = namedtuple("Done", "name about faults untried seconds")


class Case(unittest.TestCase):
    """A function `test_*`, which gets the program under test. Its name is FILE.FUNCTION."""

    gate = None

    def __init__(self, test):
        super().__init__()
        self.test = test
        self.is_long = getattr(test, "is_long", False)

    def id(self):
        return "%s.%s" % (self.test.__module__, self.test.__name__)

    def shortDescription(self):
        return (self.test.__doc__ or "").strip()

    def runTest(self):
        self.test(self.gate)


class Loader(unittest.TestLoader):
    """Finds the functions `test_*` of a file, in their order there."""

    def loadTestsFromModule(self, module, *_, **__):
        own = [it for name, it in vars(module).items() if name.startswith("test_") and it.__module__ == module.__name__]
        return self.suiteClass(map(Case, own))


class Result(unittest.TestResult):
    """What failed in one test, in a few lines each."""

    def __init__(self):
        super().__init__()
        self.faults = []

    def addError(self, test, err):
        found = err[1]
        self.faults.append(str(found) if isinstance(found, Differs) else "".join(traceback.format_exception(*err)[-3:]))

    addFailure = addError


def each(suite):
    """The tests of a suite, one by one."""
    for it in suite:
        if isinstance(it, unittest.TestSuite):
            yield from each(it)
        else:
            yield it


def all_tests(folder=HERE, pattern="*.py"):
    """The tests of all files of a folder. A file that can't be read is a test that fails."""
    return list(each(Loader().discover(folder, pattern=pattern, top_level_dir=folder)))


def named(tests, name):
    """The tests of this name: a test's, a file's or a function's; else those that have it in their names, where * is any text."""
    exact = [it for it in tests if name in (it.id(), *it.id().split(".", 1))]
    return exact or [it for it in tests if fnmatch.fnmatchcase(it.id(), "*%s*" % name)]


def done(test):
    result, begun = Result(), time.monotonic()
    test.run(result)
    return Done(test.id(), test.shortDescription() or "", result.faults, [reason for _, reason in result.skipped], time.monotonic() - begun)


class Runs:
    """Runs tests, by several processes at once; what became of each is given in the order of the tests."""

    tests = []

    @classmethod
    def done_at(cls, place):
        return done(cls.tests[place])

    @classmethod
    def of(cls, tests, jobs):
        cls.tests = tests
        with ProcessPoolExecutor(jobs, mp_context=multiprocessing.get_context("fork")) as pool:
            yield from pool.map(cls.done_at, range(len(tests)))
