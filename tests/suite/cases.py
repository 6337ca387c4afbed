"""Python cases: modules in tests/cases whose functions `test_NAME(run)` raise AssertionError if something isn't as owed."""
import functools
import importlib.util
import os
import shutil
import tempfile
import traceback

from suite.program import TESTS

FOLDER = os.path.join(TESTS, "cases")


class Run:
    """What a test is given. Its folder is the working folder, and empty at first."""

    def __init__(self, program, folder):
        self.program, self.folder = program, folder

    def luks(self, *words, given=None, **settings):
        """Runs the program under the shim, with its settings (see tests/shim.c) in small letters: what program.Ran has."""
        return self.program.run(words, given, **settings)

    def plain(self, *words, given=b"", **more):
        """Runs it without the shim: what subprocess.run gives back."""
        return self.program.plain(words, given, **more)


@functools.cache
def module(path):
    spec = importlib.util.spec_from_file_location("case_" + os.path.basename(path).removesuffix(".py"), path)
    made = importlib.util.module_from_spec(spec)
    spec.loader.exec_module(made)
    return made


def tests(path):
    """The names of the tests of a case."""
    return [name for name in vars(module(path)) if name.startswith("test_")]


def weight(path, name):
    """About how many runs of the program a test takes: `takes` of the function, in runs, where it is set."""
    return getattr(getattr(module(path), name), "takes", 20)


def run_test(program, path, name, place):
    """Runs a test: how many passed, how many failed, and what is said of the failure."""
    folder, before = tempfile.mkdtemp(dir=place, prefix="case-"), os.getcwd()
    os.chdir(folder)
    try:
        getattr(module(path), name)(Run(program, folder))
        return 1, 0, []
    except Exception as error:
        where = traceback.extract_tb(error.__traceback__)[-1]
        return 0, 1, [f"  {os.path.basename(where.filename)}:{where.lineno}: {where.line}", f"    {type(error).__name__}: {str(error)[:2000]}"]
    finally:
        program.end()
        os.chdir(before)
        shutil.rmtree(folder, ignore_errors=True)
