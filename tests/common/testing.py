"""What the tests in Python share: comparing, running, counting."""
import os
import signal
import sys
import traceback

ROOT = os.path.dirname(os.path.dirname(os.path.dirname(os.path.abspath(__file__))))
EXAMPLES = os.path.join(ROOT, "examples")
NAMES = sorted(name[:-4] for name in os.listdir(EXAMPLES) if name.endswith(".job"))
# The seconds that a test may take, and one that may have to prove and build a program first.
LONGEST, WITH_PROOFS = 120, 3600


def path(name, ending):
    return os.path.join(EXAMPLES, name + ending)


def contents(name, ending):
    with open(path(name, ending), encoding="ascii", newline="") as file:
        return file.read()


def same(got, wanted):
    assert got == wanted, f"got    {got!r}\nwanted {wanted!r}"


def named(functions):
    return [(function.__name__.replace("_", " "), function) for function in functions]


def builds(test):
    """Marks a test that may have to prove and build a program."""
    test.longest = WITH_PROOFS
    return test


def main(tests):
    """Runs tests, pairs of a name and a function; ends with the line 'N passed, M failed'."""
    def late(*_):
        raise TimeoutError(f"still running after {longest} s")

    signal.signal(signal.SIGALRM, late)
    # where the gate runs in the background they are ignored, and so they would be by what is tested
    signal.signal(signal.SIGINT, signal.default_int_handler)
    signal.signal(signal.SIGTERM, lambda *_: sys.exit(128 + signal.SIGTERM))
    passed = failed = 0
    for name, test in tests:
        longest = getattr(test, "longest", LONGEST)
        signal.alarm(longest)
        try:
            test()
            passed += 1
        except Exception:
            failed += 1
            print(f"failed: {name}")
            traceback.print_exc(limit=-2, file=sys.stdout)
        signal.alarm(0)
    print(f"{passed} passed, {failed} failed")
    return int(failed > 0)
