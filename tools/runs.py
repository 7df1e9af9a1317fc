"""What the tools share that run a built program: runs, preloaded libraries, and counts of what came of them."""
import os
import shutil
import signal
import subprocess
import tempfile
import threading
import time
from concurrent.futures import ThreadPoolExecutor
from dataclasses import dataclass
from pathlib import Path

TOOLS = Path(__file__).resolve().parent
SCRIPTS = TOOLS / "scripts"
WAYS = [(), ("--unplanned",), ("--show-plan",), ("--show-plan", "--unplanned")]
LONGEST_RUN = 60
SHOWN_WRONGS = 5


@dataclass(frozen=True)
class Ended:
    """How a run ended: its status (less than 0: the signal that stopped it) and what it wrote."""

    status: int
    out: bytes
    err: bytes

    def __str__(self):
        return f"status {self.status}, {shortened(self.out)}, {shortened(self.err)}"


def shortened(text):
    return repr(text) if len(text) <= 120 else f"{text[:120]!r}.. ({len(text)} bytes)"


class Runner:
    """Runs programs, in this process's directory, and stops those that run too long."""

    def __init__(self, longest=LONGEST_RUN):
        self.longest = longest
        self.directory = tempfile.TemporaryDirectory()
        self.begun = {}
        self.room = threading.local()
        threading.Thread(target=self.watch, daemon=True).start()

    def watch(self):
        while True:
            time.sleep(1)
            for pid, begin in list(self.begun.items()):
                if time.monotonic() - begin > self.longest:
                    os.kill(pid, signal.SIGKILL)

    def files(self):
        """The two files of this thread for what a run writes."""
        if not hasattr(self.room, "files"):
            made = tempfile.mkdtemp(dir=self.directory.name)
            self.room.files = [f"{made}/out", f"{made}/err"]
        return self.room.files

    def run(self, words, **more):
        """Runs a program by its words, with more in its environment."""
        files = self.files()
        flags = os.O_WRONLY | os.O_CREAT | os.O_TRUNC
        actions = [(os.POSIX_SPAWN_OPEN, number + 1, path, flags, 0o644) for number, path in enumerate(files)]
        environment = {**os.environ, **{key: str(it) for key, it in more.items()}}
        pid = os.posix_spawn(words[0], words, environment, file_actions=actions, setsigdef=[signal.SIGPIPE])
        self.begun[pid] = time.monotonic()
        _, status = os.waitpid(pid, 0)
        del self.begun[pid]
        out, err = (Path(path).read_bytes() for path in files)
        return Ended(os.waitstatus_to_exitcode(status), out, err)


class Tally:
    """Counts checks. Each has a line; one that failed has its first wrong answers too."""

    def __init__(self):
        self.passed = self.failed = self.skipped = 0

    def check(self, what, wrongs=()):
        for wrong in wrongs[:SHOWN_WRONGS]:
            print(f"  {wrong}")
        print(f"{'WRONG' if wrongs else 'ok'}: {what}", flush=True)
        self.failed += bool(wrongs)
        self.passed += not wrongs

    def skip(self, what, why):
        print(f"SKIPPED: {what}: {why}", flush=True)
        self.skipped += 1

    def end(self):
        """Prints the counts; the status of the tool."""
        print(f"{self.passed} passed, {self.failed} failed, {self.skipped} skipped")
        return 1 if self.failed else 0


def runs_to(out):
    """How a script ends that runs to its end: the status, what it writes, and the errors."""
    return 0, out, b""


def refused(line, text):
    """How a script ends that has a syntax error."""
    return 2, b"", f"cordsh: line {line}: {text}\n".encode()


def faults(line, text, out=b""):
    """How a script ends that meets a run-time error."""
    return 1, out, f"cordsh: line {line}: {text}\n".encode()


def processors():
    return len(os.sched_getaffinity(0))


def side_by_side(call, given):
    """What a call gives for each of these, as many at once as there are processors."""
    with ThreadPoolExecutor(processors()) as pool:
        return list(pool.map(call, given))


def preloaded(source, directory):
    """A library, built of a file of tools, that is to be preloaded; None where there is no C compiler."""
    if not shutil.which("cc"):
        return None
    made = Path(directory) / f"{source}.so"
    subprocess.run(["cc", "-shared", "-fPIC", "-O2", "-o", made, TOOLS / f"{source}.c", "-ldl"], check=True)
    return str(made)


def words_in(path):
    """The words of a file that a preloaded library wrote, which goes; none where it wrote no file."""
    if not os.path.isfile(path):
        return []
    words = Path(path).read_text(encoding="ascii").split()
    os.remove(path)
    return words


def number_in(path):
    """The number in a file that a preloaded library wrote; 0 where it wrote no file."""
    return int((words_in(path) or ["0"])[0])


def sample(count, most, seed):
    """Numbers from 1 to count, at most so many, evenly apart, from a place that the seed tells."""
    step = max(1, -(-count // most))
    return range(1 + seed % step, count + 1, step)


def scripts_or(given):
    """The scripts that are given, or those of tools/scripts."""
    return [Path(it).resolve() for it in given] or sorted(SCRIPTS.glob("*.cord"))
