"""What the tests of this folder are written in. A test is a function of no words, which raises where it fails."""
import inspect
import sys
import time
import traceback


class Skipped(Exception):
    """This can't be tested here, and why."""


def raises(kinds, call):
    """The fault that this call raises, which is one of these."""
    try:
        answer = call()
    except kinds as fault:
        return fault
    raise AssertionError(f"no {kinds}, but {answer!r}")


def tests_of(module):
    """The functions of a module without words, in their order, whose names are sentences."""
    return [it for name, it in module.items() if inspect.isfunction(it) and it.__module__ == "__main__" and name.count("_") >= 2
            and not inspect.isgeneratorfunction(it)
            and not inspect.signature(it).parameters]


def run(test):
    """What is to be said of it, or nothing where it passed."""
    begun = time.monotonic()
    try:
        test()
    except Skipped:
        raise
    except Exception:
        return f"FAILED: {test.__name__}\n{traceback.format_exc()}"
    finally:
        print(f"    {test.__name__}: {time.monotonic() - begun:.1f} s", file=sys.stderr)
    return ""


def main(module, names):
    """Runs these tests, or all. The last line is 'N passed, N failed', and the one before says what was skipped and why."""
    passed, failed, skipped = 0, 0, []
    for test in tests_of(module):
        if names and test.__name__ not in names:
            continue
        try:
            told = run(test)
        except Skipped as why:
            skipped.append(str(why))
            continue
        passed, failed = passed + (not told), failed + bool(told)
        print(told, end="", flush=True)
    if skipped:
        print(f"{len(skipped)} skipped: {'; '.join(skipped)}")
    print(f"{passed} passed, {failed} failed")
    sys.exit(failed > 0)
