#!/usr/bin/env python3
"""Answers a command by the toolchain's `rt try`, which builds the program without its proofs.

    scripts/unproved.py COMMAND ..

The build checks each step: an index out of bounds or an overflow ends it, and no answer is given.
It runs in a folder of its own, so each file that a word names is handed over, and of `run`, `query`
and `correlate` the standard input up to its end. What the program writes, and its exit status, are
passed on as they are. The first line on standard error says that this build isn't proved, and its
limits.
"""
import contextlib
import os
import re
import secrets
import shutil
import signal
import subprocess
import sys
import tempfile
import time

TOP = os.path.dirname(os.path.dirname(os.path.abspath(__file__)))
CRATE = f"{TOP}/crates/sigma_app"
# What rt try takes of standard input, and what is taken here of a file that is no plain one.
LIMIT = 64 << 20
NOTE = "sigma: this build isn't proved; its limits: a minute, 1 MiB of output, 64 MiB of input"
READS_EVENTS = ("run", "query", "correlate")
OPTIONS = ("--schema", "--pipeline")
# Names that rt try keeps for itself in the program's folder, and those that lead out of it.
NOT_NAMED = ("", "..", "program", "stdin", "stdout", "stderr")
# What rt try says after the program's own lines on standard error, where it came to an end.
ENDED = re.compile(
    rb"(?:interpreter: [^\n]*\n)?checked: ended status=(\d+)[^\n]*\n(?:races: [^\n]*\n)?"
    rb"run=ended status=\1 [^\n]*proved=no\n\Z"
)


def stop(why):
    print(f"sigma: {why}", file=sys.stderr)
    sys.exit(125)


def is_nameable(name):
    """Whether a file of the program's folder can have this name, by which a word gives it."""
    first = os.path.normpath(name).split("/")[0]
    return first not in NOT_NAMED and ".." not in name.split("/") and "=" not in name


class Handed:
    """The files that words name, by the names that they get in the program's folder, and the words
    that name them there. A name that can't stand there has another in its place."""

    def __init__(self, room):
        self.room, self.files, self.others, self.copies = room, {}, {}, 0

    def words_for(self, words):
        """The words that the program gets for those that were given."""
        given, has_ended = [], False
        for word in words:
            option, found, file = word.partition("=")
            if found and option in OPTIONS and not has_ended and not os.path.exists(word):
                given.append(f"{option}={self.name_for(file)}")
            else:
                given.append(self.name_for(word))
            has_ended = has_ended or word == "--"
        return given

    def name_for(self, word):
        """The word by which the program finds the file that this one names, if it names one."""
        path = self.readable(word)
        if path is None and not os.path.isfile(f"{CRATE}/{os.path.normpath(word)}"):
            return word
        # (rt try would hand over a file of the crate's own folder that has this name)
        name = os.path.normpath(word)
        if path is None or not is_nameable(word):
            name = f"sigma-{secrets.token_hex(8)}"
            self.others[name.encode()] = word.encode()
        if path is not None:
            self.files[name] = path
        return word if name == os.path.normpath(word) else name

    def readable(self, word):
        """A plain file with the content of the one that a word names, or None where none is."""
        with contextlib.suppress(OSError, ValueError):
            with open(word, "rb") as it:
                path = os.path.abspath(word)
                if os.path.isfile(path) and path.isprintable():
                    return path
                self.copies += 1
                path = f"{self.room}/{self.copies}"
                with open(path, "wb") as to:
                    to.write(it.read(LIMIT))
                return path
        return None

    def told(self, text):
        """What the program wrote, with the names that were given."""
        for name, word in self.others.items():
            form = rb"(?m)^(sigma: cannot read )?" + name + rb"(?=:|$)"
            text = re.sub(form, lambda it, word=word: (it[1] or b"") + word, text)
        return text


def spooled(command, room):
    """The file that is the program's standard input."""
    if command not in READS_EVENTS or sys.stdin is None:
        return os.devnull
    path, left = f"{room}/events", LIMIT
    with open(path, "wb") as to:
        while more := os.read(0, 1 << 20):
            left -= len(more)
            if left < 0:
                stop("the unproved build takes at most 64 MiB of standard input")
            to.write(more)
    return path


def wait_for(tool):
    """Waits until the toolchain ends, and shows on a terminal for how long."""
    start, is_shown = time.monotonic(), sys.stderr.isatty()
    while tool.poll() is None:
        if is_shown:
            took = int(time.monotonic() - start)
            print(f"\rsigma: building without proofs, {took} seconds ", end="", file=sys.stderr)
            sys.stderr.flush()
        with contextlib.suppress(subprocess.TimeoutExpired):
            tool.wait(1)
    if is_shown:
        print(file=sys.stderr)


def tried(words, handed, given):
    """Runs rt try, and gives what it wrote on each stream."""
    data = [it for name, path in handed.files.items() for it in ("--data", f"{name}={path}")]
    rt = ["rt", "try", "--seconds", "60", *data, "--", *words]
    with tempfile.TemporaryFile() as out, tempfile.TemporaryFile() as err, open(given, "rb") as it:
        tool = subprocess.Popen(rt, cwd=CRATE, stdin=it, stdout=out, stderr=err)
        try:
            wait_for(tool)
        finally:
            if tool.poll() is None:
                tool.terminate()
                tool.wait()
        out.seek(0)
        err.seek(0)
        return out.read(), err.read()


def interrupted(*_):
    sys.exit(130)


def main(words):
    for it in (signal.SIGINT, signal.SIGTERM, signal.SIGHUP):
        signal.signal(it, interrupted)
    if shutil.which("rt") is None:
        print("sigma: the toolchain's command rt is not on the PATH", file=sys.stderr)
        return 127
    if not words:
        print("usage: unproved.py COMMAND ..", file=sys.stderr)
        return 2
    if not all(map(is_text, words)):
        stop("a word that isn't UTF-8 can't be handed to the unproved build")
    print(NOTE, file=sys.stderr, flush=True)
    with tempfile.TemporaryDirectory(prefix="sigma-unproved-") as room:
        handed = Handed(room)
        given = handed.words_for(words)
        out, err = tried(given, handed, spooled(words[0], room))
    ended = ENDED.search(err)
    if ended is None:
        sys.stderr.buffer.write(handed.told(err))
        stop("the build that isn't proved gave no answer")
    try:
        for stream, text in ((sys.stderr, err[: ended.start()]), (sys.stdout, out)):
            is_named = stream is sys.stderr or words[0] == "check"
            stream.buffer.write(handed.told(text) if is_named else text)
            stream.flush()
    except OSError:
        # as the program itself ends where a stream can't be written
        os.dup2(os.open(os.devnull, os.O_WRONLY), sys.stdout.fileno())
        return 4
    return int(ended[1])


def is_text(word):
    try:
        word.encode()
    except UnicodeEncodeError:
        return False
    return True


if __name__ == "__main__":
    sys.exit(main(sys.argv[1:]))
