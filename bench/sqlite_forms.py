#!/usr/bin/env python3
"""Shows in a real SQLite what docs/SQL.md says of tables on which queries select other rows. Run by hand; it needs Python 3 with its `sqlite3` and a built program.

    python3 bench/sqlite_forms.py PROGRAM

PROGRAM is the built program, as crates/sigma_app/out/sigma_app. For each form of a table it prints the query that the program writes for a rule, the rows that SQLite selects there and those
that the rule matches; and at last how deep rules may nest until SQLite's parser refuses the query. Where SQLite does otherwise than the page says the row has `OTHERWISE`, and the exit status is then 1.
"""
import json
import os
import sqlite3
import subprocess
import sys
import tempfile

TEXTS = 'create table "events" ("f" text, "g" text, "n" text)'
LIST = "    f: [x, y]\n"
SECOND = "    g: null\n    f: [x, y]\n"
ROWS = [("X", None, None), ("y", None, None), ("Y", "g", None), ("x", "g", None)]
NUMBERS = [("a", None, "05"), ("b", None, "5"), ("c", None, "10"), ("d", None, "6")]
# a name, what makes the table, the rule's items, the rows, and which of them are selected and which are meant
FORMS = [
    ("no index", [TEXTS], LIST, ROWS, [0, 1, 2, 3], [0, 1, 2, 3]),
    ("an ordinary index", [TEXTS, 'create index i on "events" ("f")'], LIST, ROWS, [1, 3], [0, 1, 2, 3]),
    ("an index COLLATE NOCASE", [TEXTS, 'create index i on "events" ("f" collate nocase)'], LIST, ROWS, [0, 1, 2, 3], [0, 1, 2, 3]),
    ("UNIQUE", [TEXTS.replace('"f" text', '"f" text unique')], LIST, ROWS, [1, 3], [0, 1, 2, 3]),
    ("PRIMARY KEY", [TEXTS.replace('"f" text', '"f" text primary key')], LIST, ROWS, [1, 3], [0, 1, 2, 3]),
    ("an index in which the column comes second", [TEXTS, 'create index i on "events" ("g", "f")'], SECOND, ROWS, [1], [0, 1]),
    ("one of which only the first column is COLLATE NOCASE", [TEXTS, 'create index i on "events" ("g" collate nocase, "f")'], SECOND, ROWS, [1], [0, 1]),
    ("both COLLATE NOCASE", [TEXTS, 'create index i on "events" ("g" collate nocase, "f" collate nocase)'], SECOND, ROWS, [0, 1], [0, 1]),
    ("a column declared NOCASE, a cased test", [TEXTS.replace('"f" text', '"f" text collate nocase')], "    f|cased: x\n", ROWS, [0, 3], [3]),
    ("the same with a wildcard", [TEXTS.replace('"f" text', '"f" text collate nocase')], "    f|cased: 'x*'\n", ROWS, [3], [3]),
    ("numbers in a TEXT column, an order", [TEXTS], "    n|gt: 5\n", NUMBERS, [3], [2, 3]),
    ("numbers in an INTEGER column, an order", [TEXTS.replace('"n" text', '"n" integer')], "    n|gt: 5\n", NUMBERS, [2, 3], [2, 3]),
    ("numbers in an INTEGER column, a text", [TEXTS.replace('"n" text', '"n" integer')], "    n: '05'\n", NUMBERS, [0, 1], [0]),
    ("numbers in a TEXT column, a text", [TEXTS], "    n: '05'\n", NUMBERS, [0], [0]),
    ("a name that is no column", [TEXTS], "    h: h\n", ROWS, [0, 1, 2, 3], []),
]
# how rules nest, and at how many levels the parser refuses the query
NESTS = [
    ("`not (.. and ..)`", lambda n: "not (a and " * n + "a" + ")" * n, 23),
    ("`not` in a row", lambda n: "not " * n + "a", 87),
    ("`and` and `or` in turn", lambda n: "".join("a and (" if k % 2 else "a or (" for k in range(n)) + "a" + ")" * n, 37),
]


def query_of(program, folder, items, condition="a"):
    with open(os.path.join(folder, "r.yml"), "w", encoding="utf-8") as file:
        file.write(f"title: T\nlogsource:\n  product: w\ndetection:\n  a:\n{items}  condition: {condition}\n")
    done = subprocess.run([program, "convert", "--backend", "sqlite", "r.yml"], cwd=folder, capture_output=True, check=False)
    return done.stdout.decode().rstrip("\n") or sys.exit(done.stderr.decode())


def selected(made, rows, query):
    """The numbers of the rows that a query selects in a table."""
    database = sqlite3.connect(":memory:")
    for statement in made:
        database.execute(statement)
    for number, row in enumerate(rows):
        database.execute('insert into "events" (rowid, "f", "g", "n") values (?, ?, ?, ?)', (number + 1, *row))
    return [row[0] - 1 for row in database.execute(query.replace("SELECT *", "SELECT rowid", 1) + " ORDER BY rowid")]


def is_refused(query):
    database = sqlite3.connect(":memory:")
    database.execute(TEXTS)
    try:
        database.execute(query)
    except sqlite3.OperationalError as error:
        return str(error) == "parser stack overflow"
    return False


def main():
    if len(sys.argv) != 2:
        sys.exit("sqlite_forms.py PROGRAM")
    program = os.path.abspath(sys.argv[1])
    otherwise = 0
    with tempfile.TemporaryDirectory() as folder:
        for name, made, items, rows, wanted, meant in FORMS:
            query = query_of(program, folder, items)
            found = selected(made, rows, query)
            otherwise += found != wanted
            print(f"{name}: rows {json.dumps(found)}, meant {json.dumps(meant)}: {query}" + ("" if found == wanted else "   OTHERWISE"))
        for name, nested, wanted in NESTS:
            least = next((n for n in range(1, 129) if is_refused(query_of(program, folder, "    f: x\n", nested(n)))), None)
            otherwise += least != wanted
            print(f"{name}: refused by the parser from {least} on" + ("" if least == wanted else "   OTHERWISE"))
    print(f"SQLite {sqlite3.sqlite_version}: {otherwise} otherwise")
    return 1 if otherwise else 0


if __name__ == "__main__":
    sys.exit(main())
