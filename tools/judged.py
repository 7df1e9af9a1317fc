"""Runs of programs that have to go well: each has a line and is counted, and the last line has the counts."""
import os
import subprocess

COUNTS = {"passed": 0, "failed": 0, "skipped": 0}


def tell(what, wrong=None):
    """Counts one run, and says what was wrong with it."""
    COUNTS["failed" if wrong else "passed"] += 1
    print(f"WRONG: {what}: {wrong}" if wrong else f"ok: {what}", flush=True)


def skip(what, why):
    COUNTS["skipped"] += 1
    print(f"SKIPPED: {what}: {why}", flush=True)


def run(words, cwd=None, given=None, **env):
    """Runs a command with what it is given at its standard input: what it printed, with its errors, and its status."""
    how = {"stdin": subprocess.DEVNULL} if given is None else {"input": given}
    how.update({"stdout": subprocess.PIPE, "stderr": subprocess.STDOUT, "errors": "replace", "cwd": cwd})
    return subprocess.run(words, text=True, check=False, env={**os.environ, **env}, **how)


def judged(what, words, **more):
    """Runs a command that has to end with status 0, and tells of it: whether it did."""
    ran = run(words, **more)
    tell(what, f"status {ran.returncode}: {ran.stdout[-2000:]}" if ran.returncode else None)
    return ran.returncode == 0


def printed(what, ran, wanted):
    """Tells of a run that has to have printed this."""
    is_right = not ran.returncode and ran.stdout == wanted
    tell(what, None if is_right else f"status {ran.returncode}: {ran.stdout[-500:]!r} and not {wanted!r}")


def end():
    """Prints the counts, and gives the status."""
    print("{passed} passed, {failed} failed, {skipped} skipped".format(**COUNTS))
    return 1 if COUNTS["failed"] else 0
