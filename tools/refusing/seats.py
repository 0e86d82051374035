"""Tests of pced_tests that pass whichever allocation is refused: each call of a seat is made again if memory was refused to it, and
a snapshot that was given is given again without memory."""
import subprocess

from harness import cases

TESTS = {
    "tests::shared::a_call_is_made_again": "Each call of a seat is made again where it was refused.",
    "tests::copies::a_snapshot_is_given_again": "A snapshot is given again without memory.",
}
MOST, SECONDS = 5000, 60
# the status of a test that fails by itself
FAILED = 101


def ran(program, test, refusals, place, all_from_here=False):
    """How the test ends."""
    refusals.order(place, all_from_here)
    end = subprocess.run([program, test], capture_output=True, timeout=SECONDS, env=refusals.environment)
    return end.returncode, end.stdout, end.stderr[-300:]


def refuse_each(program, test, refusals, with_all_after):
    """Runs the test with each allocation refused in turn, until it meets none: how many there are. With all behind it refused
    too, the test fails, as it says itself."""
    passed = ran(program, test, refusals, -1)
    if passed[0] != 0:
        raise ValueError(f"without refusals the test ends so: {passed}")
    for place in range(MOST):
        end = ran(program, test, refusals, place)
        if end != passed:
            raise ValueError(f"allocation {place + 1}: {end}")
        if refusals.met() == 0:
            return place
        if with_all_after and (end := ran(program, test, refusals, place, True))[0] not in (0, FAILED):
            raise ValueError(f"allocation {place + 1}, and all behind it: {end}")
    raise ValueError(f"more than {MOST} allocations")


def case_of(test, claim, refusals, with_all_after):
    """A case of a test under refusals, of the program of tests."""
    def looks(program):
        print(f"      {refuse_each(program, test, refusals, with_all_after)} refusals were borne", flush=True)
    return cases.Case(test.rpartition(":")[2], claim, looks)


def cases_of(refusals, with_all_after):
    return [case_of(test, claim, refusals, with_all_after) for test, claim in TESTS.items()]
