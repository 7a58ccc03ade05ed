"""What the scripts beside this one have alike: a process is run, and its times, its peak of memory, its exit status and what it wrote are told."""
import os
import subprocess
import sys
import tempfile

MIB = 1 << 20

# A process begins with the peak memory of the one that it is made by, so that a small one makes those that are measured. What
# is below its own, some 8 MiB, can't be told.
SPAWN = """
import os, signal, sys, time
report, out = sys.argv[1:3]
actions = []
if out == "full":
    actions = [(os.POSIX_SPAWN_OPEN, 1, "/dev/full", os.O_WRONLY, 0)]
elif out == "closed":
    actions = [(os.POSIX_SPAWN_CLOSE, 1)]
elif out == "pipe":
    read, write = os.pipe()
    os.close(read)
    actions = [(os.POSIX_SPAWN_DUP2, write, 1)]
started = time.perf_counter()
process = os.posix_spawn(sys.argv[3], sys.argv[3:], os.environ, file_actions=actions, setsigdef=[signal.SIGPIPE])
_, status, usage = os.wait4(process, 0)
seconds = time.perf_counter() - started
with open(report, "w") as file:
    file.write(f"{seconds} {usage.ru_utime + usage.ru_stime} {usage.ru_maxrss} {os.waitstatus_to_exitcode(status)}")
"""


class Ran:
    """Seconds of the clock and of the processor, the peak of memory in MiB, the exit status, and the bytes of both streams."""

    def __init__(self, seconds, processor, peak, status, out, err):
        self.seconds, self.processor, self.peak, self.status, self.out, self.err = seconds, processor, peak, status, out, err


def run(words, folder, given=os.devnull, out=""):
    """Runs a process in a folder with a file as its standard input. Its output is read, or it is `full`, `closed` or a `pipe` that nobody reads."""
    with tempfile.NamedTemporaryFile("r") as report, open(given, "rb") as source:
        done = subprocess.run([sys.executable, "-I", "-S", "-c", SPAWN, report.name, out, *words], cwd=folder, stdin=source, capture_output=True, check=True)
        seconds, processor, peak, status = report.read().split()
    return Ran(float(seconds), float(processor), int(peak) * (1 if sys.platform == "darwin" else 1024) / MIB, int(status), done.stdout, done.stderr)
