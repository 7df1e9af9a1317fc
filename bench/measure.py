"""What the benchmarks share that run built programs: the processor and the clock of a run."""
import os
import subprocess
import sys
import time


def run(program, script, directory, out=subprocess.DEVNULL):
    """Runs a script in a directory: the seconds of a processor, and those on the clock. Ends the benchmark where it fails."""
    began = time.perf_counter()
    process = subprocess.Popen([program, script], cwd=directory, stdout=out)
    _, status, used = os.wait4(process.pid, 0)
    taken = time.perf_counter() - began
    process.returncode = status
    if status != 0:
        sys.exit(f"{program} ended with {status}")
    return used.ru_utime + used.ru_stime, taken
