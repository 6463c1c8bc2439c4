"""What a check counts: what was right, what wasn't, and what can't be tried where it runs."""
import os
import sys

passed = failed = 0
skipped = []
# Whether the first thing that isn't right ends the check: checks/mutants.py asks for no more.
IS_ENDED_BY_FIRST = "FERRY_FIRST" in os.environ


def judge(is_right, what):
    """Counts one thing that was looked at; where it isn't right, it is told at once."""
    global passed, failed
    if is_right:
        passed += 1
    else:
        failed += 1
        print(f"FAIL {what}", flush=True)
        if IS_ENDED_BY_FIRST:
            finish()


def skip(what):
    """Notes what can't be tried here. It is told at the end."""
    skipped.append(what)


def finish():
    """Tells what was skipped and the three counts; the status is 1 where something failed, or nothing was looked at or skipped."""
    for what in skipped:
        print(f"skipped: {what}")
    print(f"{passed} passed, {failed} failed, {len(skipped)} skipped")
    sys.exit(failed > 0 or passed + len(skipped) == 0)
