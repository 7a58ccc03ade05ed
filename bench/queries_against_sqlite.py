#!/usr/bin/env python3
"""Asks random queries of random events, by the program and by a real SQLite. Run by hand; it needs Python 3 with its `sqlite3` and a built program.

    python3 bench/queries_against_sqlite.py PROGRAM [--queries N] [--events K] [--seed S]

PROGRAM is the built program, as crates/sigma_app/out/sigma_app. The script makes N queries of the forms that the program reads, with each
test, operator and collation, patterns with every escape, chains and NOT that nest, in words of either case with blanks of every
kind; it asks each of K events as JSON lines by `sigma query --backend sqlite` and of a table with the same events, with a TEXT column
for each text field and an INTEGER column for each field of whole numbers, no index. Both have to select the same
events. REGEXP goes by Python's `re` in SQLite, over expressions that mean the same to both. Each query that differs is printed with
what was selected, and the numbers last; the exit status is 1 where one differs or is refused.
"""
import argparse
import json
import os
import random
import re
import sqlite3
import subprocess
import sys
import tempfile

TEXTS, WHOLES = ["Image", "User", "a b", 'q"t'], ["n", "Code"]
SIGNS = list("aAbBkK*?\\%_[]-/'\" .éÉ1")
BLANKS = [" ", " ", " ", "  ", "\t", "\n", "\r\n", "\f"]
EXPRESSIONS = ["a", "^a", "b$", "[ab]", "a.b", "(?i)a", "^$", "a|b", "a*b", "[^a]", "(?i)k", "^.$", "1+"]

# ---- what is made


def some_text(rng):
    return "".join(rng.choice(SIGNS) for _ in range(rng.randrange(5)))


def some_number(rng):
    return rng.choice([rng.randrange(-5, 5), rng.randrange(-5, 5), rng.randrange(-20, 20), 10 ** rng.randrange(18), 2 ** 63 - 1, 1 - 2 ** 63])


def some_event(rng):
    event = {}
    for field in TEXTS:
        event[field] = rng.choice([None, "", some_text(rng), some_text(rng), str(some_number(rng)), rng.choice(["a", "A", "ab", "AB", "aB"])])
    for field in WHOLES:
        event[field] = rng.choice([None, some_number(rng), some_number(rng)])
    return event


# ---- how it is written


def word(rng, text):
    return "".join(rng.choice([c.lower(), c.upper()]) for c in text)


def name(rng, field):
    """A field's name; SQL tells no letters of A to Z from a to z."""
    field = "".join(rng.choice([c.lower(), c.upper()]) if "a" <= c.lower() <= "z" else c for c in field) if rng.randrange(3) == 0 else field
    return '"' + field.replace('"', '""') + '"'


def text(value):
    return "'" + value.replace("'", "''") + "'"


def collation(rng, often=3):
    return [] if rng.randrange(often) else [word(rng, "COLLATE"), word(rng, rng.choice(["NOCASE", "BINARY"]))]


def maybe_not(rng):
    return [word(rng, "NOT")] if rng.randrange(3) == 0 else []


def some_like(rng):
    """A pattern of LIKE, and its escape character, if it has one."""
    escape = rng.choice([None, "\\", "!", "%", "_", "a", "é", "'"])
    pattern = "".join(rng.choice(["%", "_", *SIGNS]) for _ in range(rng.randrange(5)))
    if escape is None:
        return [text(pattern)]
    pattern = "".join(escape + rng.choice(["%", "_", escape]) if c == escape else c for c in pattern)
    return [text(pattern), word(rng, "ESCAPE"), text(escape)]


def some_glob(rng):
    """A pattern of GLOB: `[` stands in the three classes of one sign alone."""
    return text("".join(rng.choice(["*", "?", "[*]", "[?]", "[[]", *(c for c in SIGNS if c != "[")]) for _ in range(rng.randrange(5))))


def listed(values):
    tokens = ["(", values[0]]
    for value in values[1:]:
        tokens += [",", value]
    return tokens + [")"]


def on_texts(rng):
    field = name(rng, rng.choice(TEXTS))
    operator = rng.choice(["=", "==", "<>", "!="])
    kind = rng.randrange(7)
    if kind == 0:
        return [field, *maybe_not(rng), word(rng, "LIKE"), *some_like(rng)]
    if kind == 1:
        return [field, *maybe_not(rng), word(rng, "GLOB"), some_glob(rng)]
    if kind == 2:
        return [field, *maybe_not(rng), word(rng, "REGEXP"), text(rng.choice(EXPRESSIONS))]
    if kind == 3:
        return [field, *collation(rng), *maybe_not(rng), word(rng, "IN"), *listed([text(some_text(rng)) for _ in range(rng.randrange(1, 4))])]
    if kind == 4:
        return [field, *collation(rng), operator, name(rng, rng.choice(TEXTS)), *collation(rng)]
    return [field, *collation(rng), operator, text(rng.choice([some_text(rng), "a", "A", "ab", "Ab", ""])), *collation(rng)]


def on_wholes(rng):
    field = name(rng, rng.choice(WHOLES))
    operator = rng.choice(["=", "==", "<>", "!=", "<", "<=", ">", ">="])
    kind = rng.randrange(6)
    if kind == 0:
        return [field, *maybe_not(rng), word(rng, "LIKE"), *some_like(rng)]
    if kind == 1:
        return [field, *maybe_not(rng), word(rng, "GLOB"), some_glob(rng)]
    if kind == 2:
        return [field, *maybe_not(rng), word(rng, "IN"), *listed([str(some_number(rng)) for _ in range(rng.randrange(1, 4))])]
    if kind == 3:
        low, high = some_number(rng), some_number(rng)
        return [field, *maybe_not(rng), word(rng, "BETWEEN"), str(low), word(rng, "AND"), str(high)]
    if kind == 4:
        return [field, operator, name(rng, rng.choice(WHOLES))]
    return [field, operator, str(some_number(rng))]


def some_test(rng):
    kind = rng.randrange(12)
    if kind == 0:
        return [rng.choice(["0", "1"])]
    if kind == 1:
        return [name(rng, rng.choice(TEXTS + WHOLES)), word(rng, "IS"), *maybe_not(rng), word(rng, "NULL")]
    return on_texts(rng) if kind < 8 else on_wholes(rng)


def some_part(rng, depth):
    tokens = []
    while rng.randrange(3) == 0:
        tokens.append(word(rng, "NOT"))
    if depth and rng.randrange(3) == 0:
        return tokens + ["(", *some_expression(rng, depth - 1), ")"]
    return tokens + some_test(rng)


def some_expression(rng, depth):
    tokens = some_part(rng, depth)
    while rng.randrange(2):
        tokens += [word(rng, rng.choice(["AND", "OR"])), *some_part(rng, depth)]
    return tokens


def some_query(rng):
    tokens = [word(rng, "SELECT"), "*", word(rng, "FROM"), '"events"', word(rng, "WHERE"), *some_expression(rng, 3)]
    if rng.randrange(4) == 0:
        tokens.append(";")
    return "".join(token + rng.choice(BLANKS) for token in tokens)


# ---- the trial


def by_program(program, folder, query, events):
    """The numbers of the events whose lines the program writes, and its diagnostics."""
    with open(os.path.join(folder, "q"), "w", encoding="utf-8", newline="") as file:
        file.write(query)
    lines = [json.dumps({"number": number, **{field: value for field, value in event.items() if value is not None}}) for number, event in enumerate(events)]
    ran = subprocess.run([program, "query", "--backend", "sqlite", "--schema", "schema.json", "q"], cwd=folder, capture_output=True, input="\n".join(lines).encode())
    written = ran.stdout.decode().splitlines()
    return {json.loads(line)["number"] for line in written}, ran.stderr.decode()


def by_sqlite(database, events, query):
    database.execute("delete from events")
    database.executemany(f"insert into events values ({', '.join('?' * (len(TEXTS) + len(WHOLES) + 1))})",
                         [(number, *event.values()) for number, event in enumerate(events)])
    return {row[0] for row in database.execute(query)}


def table():
    database = sqlite3.connect(":memory:")
    columns = [f"{name(random.Random(3), field)} text" for field in TEXTS] + [f'"{field}" integer' for field in WHOLES]
    database.execute(f"create table events (number integer, {', '.join(columns)})")
    database.create_function("regexp", 2, lambda pattern, value: None if value is None else re.search(pattern.replace("$", r"\Z"), str(value)) is not None)
    return database


def main():
    parser = argparse.ArgumentParser(description=__doc__, formatter_class=argparse.RawDescriptionHelpFormatter)
    parser.add_argument("program", help="the built program")
    parser.add_argument("--queries", type=int, default=10000, help="how many queries (10,000)")
    parser.add_argument("--events", type=int, default=10, help="how many events for each (10)")
    parser.add_argument("--seed", type=int, default=1, help="the seed of what is made (1)")
    told = parser.parse_args()
    rng, program, database = random.Random(told.seed), os.path.abspath(told.program), table()
    counts, picked = {"same": 0, "refused": 0, "other": 0}, 0
    with tempfile.TemporaryDirectory() as folder:
        fields = [{"name": field, "kind": "text"} for field in TEXTS] + [{"name": field, "kind": "whole"} for field in WHOLES]
        with open(os.path.join(folder, "schema.json"), "w", encoding="utf-8") as file:
            json.dump({"fields": fields}, file)
        for _ in range(told.queries):
            query, events = some_query(rng), [some_event(rng) for _ in range(told.events)]
            found, line = by_program(program, folder, query, events)
            wanted = by_sqlite(database, events, query)
            verdict = "refused" if line else "same" if found == wanted else "other"
            counts[verdict] += 1
            picked += len(wanted)
            if verdict != "same":
                print(f"{query!r}\n  {line or [events[number] for number in sorted(found ^ wanted)]}\n")
    print(f"{counts['same']} the same, {counts['refused']} refused, {counts['other']} not the same; {picked} events selected (SQLite {sqlite3.sqlite_version})")
    sys.exit(1 if counts["refused"] + counts["other"] else 0)


if __name__ == "__main__":
    main()
