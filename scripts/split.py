#!/usr/bin/env python3
"""Writes each rule's query into a file that is named after the rule, by `convert` of one rule each.

    scripts/split.py --backend sqlite [--schema F] [--pipeline F] OUT RULE..

For rules/a/x.yml and rules/b/y.yml it writes OUT/a/x.sql and OUT/b/y.sql, or .lucene; of a file
with several documents x.1.sql, x.2.sql and so on, by the document's place. Several calls go side by
side. What is refused has its line on standard error, as of one call, and its file of an earlier
query is removed. A file whose query is the same isn't touched, so it keeps its time. The exit
status is 0 where each rule has its query, 1 where some are refused, and else that of the call that
failed.
"""
import argparse
import concurrent.futures
import os
import re
import subprocess
import sys
import tempfile
from pathlib import Path
from typing import NamedTuple, Optional

TOP = Path(__file__).resolve().parent.parent
ENDINGS = {"sqlite": "sql", "lucene": "lucene"}
# The program's limits of a file: it's refused as a whole past them, so it isn't parted.
MOST_BYTES, MOST_DOCUMENTS = 1_048_576, 4_096
PARTING = re.compile(r"---(?:[ \t]+(?:#.*)?)?\r?")
EMPTY = re.compile(r"[ \t]*(?:#.*)?\r?")


class Task(NamedTuple):
    """A call: the file that is given, the name that its lines get, and where its query goes."""

    given: str
    name: str
    to: Path


class Answer(NamedTuple):
    status: int
    said: str
    has_query: bool
    is_changed: bool


def documents(text):
    """The documents with content, each as the text in which the lines before it are empty, so that
    its lines keep their numbers."""
    lines = text.removeprefix("\ufeff").split("\n")
    ends = [at for at, line in enumerate(lines) if PARTING.fullmatch(line)] + [len(lines)]
    start, found = 0, []
    for end in ends:
        inside = lines[start:end]
        if not all(EMPTY.fullmatch(it) for it in inside):
            found.append("\n" * start + "\n".join(inside) + "\n")
        start = end + 1
    return found


def parts_of(file):
    """A file's documents where it has several and isn't refused as a whole, else nothing."""
    try:
        content = Path(file).read_bytes()
        text = content.decode("utf-8")
    except (OSError, UnicodeDecodeError):
        return []
    found = documents(text) if len(content) <= MOST_BYTES else []
    return found if 1 < len(found) <= MOST_DOCUMENTS else []


def tasks_for(files, out, ending, room):
    """The calls for these files, in their order."""
    files = list(dict.fromkeys(files))
    paths = [os.path.abspath(it) for it in files]
    base = os.path.commonpath([os.path.dirname(it) for it in paths])
    for at, (file, path) in enumerate(zip(files, paths)):
        stem = os.path.splitext(os.path.relpath(path, base))[0]
        parts = parts_of(file)
        for number, text in enumerate(parts, 1):
            given = Path(room, f"{at}.{number}.yml")
            given.write_bytes(text.encode())
            yield Task(str(given), file, Path(out, f"{stem}.{number}.{ending}"))
        if not parts:
            yield Task(file, file, Path(out, f"{stem}.{ending}"))


def put(to, query):
    """Writes a query, whole or not at all, and says whether the file has changed."""
    if to.exists() and to.read_bytes() == query:
        return False
    to.parent.mkdir(parents=True, exist_ok=True)
    part = to.with_name(f"{to.name}.part")
    part.write_bytes(query)
    part.replace(to)
    return True


def answered(command, task):
    """Calls the program for one rule, and keeps its query."""
    how = {"stdin": subprocess.DEVNULL, "capture_output": True}
    done = subprocess.run([*command, "--", task.given], **how)
    said = done.stderr.decode("utf-8", "surrogateescape")
    if task.given != task.name:
        said = re.sub(rf"(?m)^{re.escape(task.given)}(?=:)", lambda _: task.name, said)
    status = done.returncode if done.returncode >= 0 else 128 - done.returncode
    if status == 0 and done.stdout:
        return Answer(status, said, True, put(task.to, done.stdout))
    # where the call failed otherwise, nothing is known of the rule
    is_gone = status <= 1 and task.to.exists()
    if is_gone:
        task.to.unlink()
    return Answer(status, said, False, is_gone)


def answers_of(command, tasks, jobs):
    """The answers in the tasks' order. The first call goes alone, in which a launcher may build."""
    first = answered(command, tasks[0])
    yield first
    if first.status == 2 or first.status >= 125:
        return
    with concurrent.futures.ThreadPoolExecutor(jobs) as pool:
        yield from pool.map(lambda it: answered(command, it), tasks[1:])


def clash_of(tasks):
    """Two rules' names whose queries would go into one file, if there are such."""
    met = {}
    for it in tasks:
        other: Optional[str] = met.setdefault(it.to, it.name)
        if other != it.name:
            return f"{other} and {it.name} would both have their query in {it.to}"
    return None


def arguments(words):
    parser = argparse.ArgumentParser(description="writes each rule's query into a file of its own")
    parser.add_argument("--backend", required=True, choices=ENDINGS)
    parser.add_argument("--schema", help="the fields of events, as JSON")
    parser.add_argument("--pipeline", help="processing pipelines, as YAML")
    parser.add_argument("--jobs", type=int, default=os.cpu_count(), help="calls side by side")
    parser.add_argument("--program", default=f"{TOP}/sigma", help="in place of the launcher")
    parser.add_argument("out", help="the folder of the queries")
    parser.add_argument("rules", nargs="+", help="files of rules")
    return parser.parse_args(words)


def main(words):
    given = arguments(words)
    command = [given.program, "convert", "--backend", given.backend]
    for option in ("schema", "pipeline"):
        if getattr(given, option) is not None:
            command += [f"--{option}", getattr(given, option)]
    sys.stderr.reconfigure(encoding="utf-8", errors="surrogateescape")
    with tempfile.TemporaryDirectory(prefix="sigma-split-") as room:
        tasks = list(tasks_for(given.rules, given.out, ENDINGS[given.backend], room))
        clash = clash_of(tasks)
        if clash:
            print(f"split.py: {clash}", file=sys.stderr)
            return 2
        answers = []
        for it in answers_of(command, tasks, given.jobs):
            sys.stderr.write(it.said)
            answers.append(it)
    count = sum(it.has_query for it in answers)
    changed = sum(it.is_changed for it in answers)
    print(f"{count} queries in {given.out}, {changed} files changed, {len(tasks) - count} without")
    return max(it.status for it in answers)


if __name__ == "__main__":
    sys.exit(main(sys.argv[1:]))
