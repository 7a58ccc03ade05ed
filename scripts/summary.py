#!/usr/bin/env python3
"""Counts what the program answered: a row for each answer or code, with how many rules and files.

    sigma check -- rules/*.yml 2>&1 | scripts/summary.py
    sigma convert --backend sqlite rules/*.yml 2>&1 | scripts/summary.py

Each document has one line, so the rows' first numbers are those of rules; under `run` and `query`
they are lines of events. A line of `convert` that is no diagnostic is a query, and names no file.
On a terminal what a code says is cut at its width.
"""
import shutil
import sys

from diagnostics import refusal, taken
from explain import codes

# Rows that come first: what was taken.
FIRST = ["ok", "query"]


def answer_of(line, table):
    """The answer that a line gives, and the file that it's about, if it names one."""
    said = refusal(line, table)
    if said is not None:
        return said.code, said.file
    file = taken(line)
    if file is not None:
        return "ok", file
    if line.startswith("sigma: cannot read "):
        return "cannot read", line.removeprefix("sigma: cannot read ")
    return ("the program", None) if line.startswith("sigma: ") else ("query", None)


def counted(lines, table):
    """The rows: for each answer how many lines it has, and which files."""
    rows = {}
    for line in filter(None, lines):
        answer, file = answer_of(line, table)
        count, files = rows.setdefault(answer, [0, set()])
        rows[answer][0] = count + 1
        files.update([file] if file else [])
    return rows


def order(row):
    """Answers first, then codes by how often they come, then what isn't of a rule."""
    answer, (count, _) = row
    if answer in FIRST:
        return 0, FIRST.index(answer), ""
    return (1, -count, answer) if isinstance(answer, int) else (2, 0, answer)


def is_of_rules(answer):
    return answer in FIRST or isinstance(answer, int)


def said_of(answer, table):
    if isinstance(answer, int):
        return f"{answer:>3} {table[answer].name:<19} {table[answer].says()}"
    return answer


def shown(rows, table, width):
    """The table, cut at a width where there is one."""
    lines, every, all_files = ["rules  files  answer"], 0, set()
    for answer, (count, files) in sorted(rows.items(), key=order):
        is_counted = is_of_rules(answer)
        every += count if is_counted else 0
        all_files |= files
        rules, named = count if is_counted else "-", len(files) or "-"
        lines.append(f"{rules:>5}  {named:>5}  {said_of(answer, table)}")
    lines.append(f"{every:>5}  {len(all_files) or '-':>5}  all")
    return "".join(f"{line[:width]}\n" for line in lines)


def main(words):
    if words:
        print("usage: summary.py < LINES", file=sys.stderr)
        return 2
    sys.stdin.reconfigure(encoding="utf-8", errors="surrogateescape")
    table = codes()
    width = shutil.get_terminal_size().columns if sys.stdout.isatty() else None
    print(shown(counted(sys.stdin.read().split("\n"), table), table, width), end="")
    return 0


if __name__ == "__main__":
    sys.exit(main(sys.argv[1:]))
