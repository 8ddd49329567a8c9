"""Runs of the built program and of bench/flat.c, how long they take and how much memory.

Times are processor time, user and system, the least of several runs.
"""
import atexit
import os
import shutil
import subprocess
import sys
import tempfile
import time
from typing import NamedTuple

HERE = os.path.dirname(os.path.abspath(__file__))
BUILT = os.path.join(os.path.dirname(HERE), "crates", "amr_program", "out", "amr_program")
PROGRAM = os.path.abspath(os.environ.get("AMR_PROGRAM", BUILT))
RUNS = 7
# No script is longer.
MOST_BYTES = 2 ** 20


class Ran(NamedTuple):
    """What a run took and answered."""
    seconds: float
    kilobytes: int
    status: int
    printed: bytes


def run(words, given=b""):
    """One run of a program, with what it is given on standard input."""
    child = subprocess.Popen(words, stdin=subprocess.PIPE, stdout=subprocess.PIPE)
    printed = feed(child, given)
    _, state, used = os.wait4(child.pid, 0)
    child.returncode = os.waitstatus_to_exitcode(state)
    return Ran(used.ru_utime + used.ru_stime, used.ru_maxrss, child.returncode, printed)


def feed(child, given):
    """Hands the input over. The program reads all of it before it prints, so nothing can wait on both sides."""
    try:
        child.stdin.write(given)
    except BrokenPipeError:
        pass
    child.stdin.close()
    printed = child.stdout.read()
    child.stdout.close()
    return printed


def answer(script, status=0):
    """One run of the built program on a script, which has to end with this exit number."""
    assert len(script) <= MOST_BYTES
    ran = run([PROGRAM], script.encode())
    if ran.status != status:
        sys.exit(f"measure: exit number {ran.status}, not {status}: {ran.printed[-200:]!r}")
    return ran


def scripted(script, status=0):
    """A thing to time: one run of the built program on a script."""
    return lambda: answer(script, status).seconds


def least_each(things):
    """The least times of things that are run in turn, so that what else the machine does is the same for all."""
    return [min(times) for times in zip(*([thing() for thing in things] for _ in range(RUNS)))]


def least(script, status=0):
    """The least time of the runs of a script."""
    return least_each([scripted(script, status)])[0]


def stages(script):
    """The processor time that a run has used each time it prints a line."""
    child = subprocess.Popen([PROGRAM], stdin=subprocess.PIPE, stdout=subprocess.PIPE)
    child.stdin.write(script.encode())
    child.stdin.close()
    # Linux names the clock of another process's processor time so.
    clock = (~child.pid << 3) | 2
    times = [time.clock_gettime(clock) for _ in iter(child.stdout.readline, b"")]
    child.stdout.close()
    if child.wait() != 0:
        sys.exit(f"measure: exit number {child.returncode}")
    return times


def compiled_flat():
    """The flat loop by the C compiler, or none where there is no compiler."""
    if shutil.which("cc") is None:
        return None
    folder = tempfile.mkdtemp()
    atexit.register(shutil.rmtree, folder)
    made = os.path.join(folder, "flat")
    subprocess.run(["cc", "-O3", "-o", made, os.path.join(HERE, "flat.c")], check=True)
    return made


FLAT = compiled_flat()


def flat_runs(what, sizes, times):
    """Things to time: what the flat loop does, so often and not at all. Their difference is the time of doing it."""
    return [lambda count=count: run([FLAT, what, *map(str, sizes), str(count)]).seconds for count in (times, 0)]
