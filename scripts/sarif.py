#!/usr/bin/env python3
"""Writes the program's diagnostics as SARIF 2.1.0, which services that host code show at the lines.

    sigma check -- rules/*.yml 2>&1 >/dev/null | scripts/sarif.py > sigma.sarif
    sigma run x.yml < x.jsonl 2>&1 >/dev/null | scripts/sarif.py --events x.jsonl > sigma.sarif

Each code that comes is a rule of the log, with its name and what docs/CODES.md says of it. Lines
`FILE:LINE:COLUMN: ok` are passed over, and lines of the program or its launcher without a place, as
`sigma: cannot read FILE`, become notifications. A line that is none of these is told on standard
error, and the exit status is 1 then.
"""
import argparse
import json
import os
import sys
from urllib.parse import quote

from diagnostics import refusal, taken
from explain import codes

SCHEMA = "https://json.schemastore.org/sarif-2.1.0.json"


def location(file):
    """Where a file lies: below the root of the sources, or by its whole path."""
    path = os.path.normpath(file)
    if os.path.isabs(path):
        return {"uri": f"file://{quote(os.fsencode(path))}"}
    return {"uri": quote(os.fsencode(path)), "uriBaseId": "%SRCROOT%"}


def rule(code):
    return {
        "id": str(code.number),
        "name": code.name,
        "shortDescription": {"text": code.says()},
        "help": {"text": code.text.strip(), "markdown": code.text.strip()},
        "defaultConfiguration": {"level": "error"},
    }


def result(said, table, at, events):
    """One refusal; `at` is the place of its code among the log's rules."""
    region = {"startLine": said.line}
    if said.column is not None:
        region["startColumn"] = said.column
    file = said.file if said.column is not None else events
    detail = f" {said.detail}" if said.detail else ""
    place = {"artifactLocation": location(file), "region": region}
    return {
        "ruleId": str(said.code),
        "ruleIndex": at,
        "level": "error",
        "message": {"text": f"{said.name}{detail}: {table[said.code].says()}"},
        "locations": [{"physicalLocation": place}],
    }


def log_of(lines, table, events):
    """The log of these lines, and those that are no diagnostics."""
    refusals, notes, others = [], [], []
    for line in lines:
        said = refusal(line, table)
        if said is not None:
            refusals.append(said)
        elif line.startswith("sigma: "):
            notes.append({"level": "error", "message": {"text": line}})
        elif line and taken(line) is None:
            others.append(line)
    met = sorted({it.code for it in refusals})
    invocation = {"executionSuccessful": not notes, "toolExecutionNotifications": notes}
    run = {
        "tool": {"driver": {"name": "sigma", "rules": [rule(table[it]) for it in met]}},
        "columnKind": "unicodeCodePoints",
        "invocations": [invocation],
        "results": [result(it, table, met.index(it.code), events) for it in refusals],
    }
    return {"$schema": SCHEMA, "version": "2.1.0", "runs": [run]}, others


def main(words):
    parser = argparse.ArgumentParser(description="writes the program's diagnostics as SARIF 2.1.0")
    parser.add_argument("--events", default="events", help="the file that was the standard input")
    given = parser.parse_args(words)
    sys.stdin.reconfigure(encoding="utf-8", errors="surrogateescape")
    lines = sys.stdin.read().split("\n")
    log, others = log_of(lines, codes(), given.events)
    json.dump(log, sys.stdout, indent=2)
    print()
    for line in others:
        print(f"sarif.py: no diagnostic: {line!a}", file=sys.stderr)
    return 1 if others else 0


if __name__ == "__main__":
    sys.exit(main(sys.argv[1:]))
