#!/usr/bin/env python3
"""Tries scripts/sqlite_table.py beside `run`: rules of odd values, each with events of its own.

    python3 bench/table_trial.py PROGRAM [--count N] [--events K] [--seed S]

PROGRAM is the built program, as crates/sigma_app/out/sigma_app; Python 3 needs its `sqlite3`. The
script makes N rules with each test but those of fields that may have several values, and K lines
of events for each; before them come rules whose tables were once wrong. Each rule is tried without
a schema and under one. The program converts rules, 100 in a call, so that their queries have to
be found by their tokens. scripts/sqlite_table.py makes a table of the events, the query runs in
Python's SQLite, and the program runs the rule over the same lines.

Under a schema both have to select the same lines, and to refuse the same with the same codes.
Without one the table goes by the query alone, which doesn't say each name and kind of the rule:
what it leaves out has to be refused by the program, and of the lines that the program takes the
same have to be selected. The lines that it selects and the program refuses, by what the rule alone
says of a field, are counted. For one rule in 50 the script is called as a command, too: it has to write
what `run` writes, and its --check has to find nothing wrong with the database that it made.

Each rule that differs is printed with its query and lines, and the numbers stand last. The exit
status is 1 where one differs.
"""
import argparse
import itertools
import json
import os
import random
import re
import sqlite3
import subprocess
import sys
import tempfile

from table_rules import FIELDS, HEAD, some_event, some_rule

TOP = os.path.dirname(os.path.dirname(os.path.abspath(__file__)))
sys.path.insert(0, os.path.join(TOP, "scripts"))
from sql_tokens import queries_in  # noqa: E402
from sqlite_table import Table, schema_of  # noqa: E402

IN_A_CALL, CALLED = 100, 50
# rules' items, and lines of events
ONCE_WRONG = [
    ("    a: x\n    b|gt: 5\n    c: y\n",
     ['{"a":"x","b":10,"c":"y"}', '{"a":"x","b":"10","c":"Y"}', '{"a":"x","b":5,"c":"y"}',
      '{"a":"x","b":"z","c":"y"}']),
    ("    a: 'say \"b\" > 5'\n    b: x\n",
     ['{"a":"say \\"b\\" > 5","b":"X"}', '{"a":"SAY \\"b\\" > 5","b":"x"}']),
    ("    a: |\n      x\n      y\n", ['{"a":"x\\ny\\n"}', '{"a":"X\\nY\\n"}', '{"a":"x\\ny"}']),
    ("    A: x\n",
     ['{"A":"x","a":"y"}', '{"a":"x","A":"y"}', '{"a":"x"}', '{"A":"\\ud800"}', '{"A":"X"}']),
    ("    a|re: '^x$'\n", ['{"a":"x"}', '{"a":"x\\n"}', '{"a":null}', "{}"]),
    ("    a.b: x\n", ['{"a.b":"x"}', '{"a":{"b":"x"}}']),
    ("    f: 5\n", ['{"f":5}', '{"f":"5"}', '{"f":true}', '{"f":5.0}', '{"f":"05"}']),
    ("    f: 'true'\n", ['{"f":true}', '{"f":"TRUE"}', '{"f":null}', '{"f":["true"]}']),
    ("    n|cased: '1*'\n    n|lt: 30\n", ['{"n":10}', '{"n":"1x"}', '{"n":"1"}', '{"n":100}']),
]

# ---- what the program says


def called(program, folder, words, given=b""):
    ran = subprocess.run([program, *words], cwd=folder, input=given, capture_output=True)
    return ran.stdout, ran.stderr.decode("utf-8", "replace")


def converted(program, folder, names, schema):
    """The query of each rule, or its refusal. Queries are told apart by their tokens."""
    out, lines = called(program, folder, ["convert", "--backend", "sqlite", *schema, *names])
    refused = {line.split(":")[0]: line for line in lines.splitlines()}
    queries = queries_in(out.decode())
    taken = [name for name in names if name not in refused]
    if len(queries) == len(taken):
        return {**dict(zip(taken, queries)), **refused}
    if len(names) == 1:
        return {names[0]: f"{len(queries)} queries: {out.decode()}"}
    found = {}
    for name in names:
        found.update(converted(program, folder, [name], schema))
    return found


def run(program, folder, name, schema, events):
    """What `run` writes of events, and the code of each line that it refuses; or None and why."""
    out, lines = called(program, folder, ["run", *schema, name], events)
    told = [re.fullmatch(r"events:(\d+): (\d+) \w+", line) for line in lines.splitlines()]
    if not all(told):
        return None, lines
    return out, {int(line[1]): int(line[2]) for line in told}


# ---- what the table says


class Kept:
    """A report that keeps the code of each line that is left out, and what else is wrong."""

    def __init__(self):
        self.codes, self.faults = {}, []

    def note(self, line):
        pass

    def fault(self, line):
        self.faults.append(line)

    def refuse(self, number, why):
        self.codes[number] = why.code


def selected(query, events, schema):
    """The lines that a query selects in the table, the codes of those left out, and faults."""
    report = Kept()
    try:
        table = Table(events, [query], schema, None, report)
        faults = report.faults + table.faults(query)
        return ([] if faults else table.selected(query)), report.codes, faults
    except (sqlite3.Error, sqlite3.Warning, ValueError) as why:
        return [], report.codes, [repr(why)]


def called_script(folder, query, events, schema):
    """What the script writes when it's called, and what its check says of the database then."""
    database = os.path.join(folder, "events.db")
    for name, data in {"events": events, "query.sql": query.text.encode() + b"\n"}.items():
        with open(os.path.join(folder, name), "wb") as file:
            file.write(data)
    script = [os.path.join(TOP, "scripts", "sqlite_table.py")]
    words = [*script, "events", "query.sql", *schema, "--database", database]
    out, _ = called(sys.executable, folder, words)
    words = [*script, "--check", database, "query.sql", *schema]
    wrong, lines = called(sys.executable, folder, words)
    os.remove(database)
    return out, wrong.decode() + lines


# ---- the trial


class Trial:
    """A program that is tried in a folder, and how it went."""

    def __init__(self, program, folder):
        self.program, self.folder = program, folder
        names = ["same", "other", "refused", "lines", "selected", "left", "ruled"]
        self.counts = dict.fromkeys(names, 0)

    def difference(self, name, query, events, schema, is_called):
        """How the table and `run` differ on a rule, or None."""
        out, codes = run(self.program, self.folder, name, schema, events)
        if out is None:
            return f"run: {codes}"
        lines = events.split(b"\n")
        given = schema_of(os.path.join(self.folder, "schema.json")) if schema else None
        found, left, faults = selected(query, events, given)
        if faults:
            return "; ".join(faults)
        is_refused = left == codes if schema else left.keys() <= codes.keys()
        written = b"".join(lines[line - 1] + b"\n" for line in found if schema or line not in codes)
        if not is_refused or written != out:
            return f"run writes {out!r} and refuses {codes}, the table has {written!r} and {left}"
        ruled = sum(line in codes for line in found)  # none under a schema
        for what, more in zip(("lines", "selected", "left"), (lines, found, left)):
            self.counts[what] += len(more)
        self.counts["ruled"] += ruled
        return self.called_difference(query, events, schema, out) if is_called else None

    def called_difference(self, query, events, schema, out):
        """How the script, when it's called, differs from `run`."""
        told, wrong = called_script(self.folder, query, events, schema)
        kept = out.split(b"\n")
        told = b"".join(line + b"\n" for line in told.split(b"\n")[:-1] if schema or line in kept)
        if told != out or wrong:
            return f"the script writes {told!r}, run {out!r}; its check says {wrong!r}"
        return None

    def rule(self, name, text, query, events, schema):
        """Tries one rule, of which `convert` has written this query, or the line of a refusal."""
        if isinstance(query, str) and query.startswith(f"{name}:"):
            self.counts["refused"] += 1
            return
        why, written = query, query
        if not isinstance(query, str):
            is_called = (self.counts["same"] + self.counts["other"]) % CALLED == 0
            why, written = self.difference(name, query, events, schema, is_called), query.text
        self.counts["other" if why else "same"] += 1
        if why:
            how = " ".join(schema) or "no schema"
            print(f"{how}\n{text}{written}\n{events!r}\n{why}\n", flush=True)

    def rules(self, rules):
        """Tries some rules without a schema and under one."""
        names = [f"{number}.yml" for number in range(len(rules))]
        for name, (text, _) in zip(names, rules):
            path = os.path.join(self.folder, name)
            with open(path, "w", encoding="utf-8", newline="") as file:
                file.write(text)
        for schema in [], ["--schema", "schema.json"]:
            queries = converted(self.program, self.folder, names, schema)
            for name, (text, events) in zip(names, rules):
                self.rule(name, text, queries[name], events, schema)


def rules_of(rng, count, events):
    """Rules with their events: those that were once wrong, and others."""
    for items, lines in ONCE_WRONG:
        yield f"{HEAD}  s:\n{items}  condition: s\n", "\n".join(lines).encode()
    for _ in range(count):
        text, items = some_rule(rng)
        lines = [some_event(rng, items) for _ in range(events)]
        yield text, b"\n".join(lines) + b"\n" * rng.randrange(2)


def main():
    how = {"description": __doc__, "formatter_class": argparse.RawDescriptionHelpFormatter}
    parser = argparse.ArgumentParser(**how)
    parser.add_argument("program", help="the built program")
    parser.add_argument("--count", type=int, default=10000, help="how many rules (10,000)")
    parser.add_argument("--events", type=int, default=16, help="how many lines for each (16)")
    parser.add_argument("--seed", type=int, default=1, help="the seed of what is made (1)")
    told = parser.parse_args()
    rules = rules_of(random.Random(told.seed), told.count, told.events)
    with tempfile.TemporaryDirectory() as folder:
        with open(os.path.join(folder, "schema.json"), "w", encoding="utf-8") as file:
            json.dump({"fields": FIELDS}, file)
        trial = Trial(os.path.abspath(told.program), folder)
        for some in iter(lambda: list(itertools.islice(rules, IN_A_CALL)), []):
            trial.rules(some)
    counts = trial.counts
    print(f"{counts['same']} the same, {counts['other']} not the same, {counts['refused']} without"
          f" a query; of {counts['lines']} lines {counts['selected']} selected and"
          f" {counts['left']} left out; {counts['ruled']} selected, without a schema, that only the"
          f" rule refuses (SQLite {sqlite3.sqlite_version})")
    return 1 if counts["other"] else 0


if __name__ == "__main__":
    sys.exit(main())
