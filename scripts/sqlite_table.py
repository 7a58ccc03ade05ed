#!/usr/bin/env python3
"""Makes a SQLite table of events as queries need it, runs queries on it, and checks a table.

    sqlite_table.py EVENTS.jsonl QUERIES.sql [--schema SCHEMA.json] [--database FILE] [--count]
    sqlite_table.py --check FILE [QUERIES.sql] [--schema SCHEMA.json] [--table NAME]

EVENTS.jsonl has a JSON object on each line, QUERIES.sql the queries that `sigma convert` writes,
each of one line or several; `-` is the standard input. For each query the events that it selects
are printed, each as its line of EVENTS.jsonl, or with --count their number. The table is made in
memory, or in FILE, which must not be there yet. It has no index.

With --schema the table has the schema's name and a column for each of its fields, INTEGER for
`whole` and else TEXT with the collation BINARY. Without one it is `events`, and each name that a
query tests is a column: INTEGER where a test compares it with a number, and else TEXT. It has the
value of the event's key of exactly that name: dots are part of a name, and a key that differs in
case is another one. Further keys of events are columns too, unless their name in some case is
there; what isn't a single value is left out of them.

Values are read as `sigma run` reads them. A number in a TEXT column is its text, a text such as
"5" in an INTEGER one a number, a truth value `true` or `false`, null no value, and of a field that
is `many` the column has the first value. A line that `sigma run` refuses under the same schema is
reported with its number and code, and left out. Without a schema it is left out of the queries
that name the column which doesn't take its value, or of all where the table is made in FILE; and
that a field is one of addresses, so that it takes no `10.evil`, only a schema says.

For queries with REGEXP there is a function `regexp` here. It searches by Python's `re`, with `$`
for the end of the text alone, and `\\z` and `(?<name>` taken as the crate `regex` takes them. Else
the two differ as docs/SQL.md says. A query with an expression that `re` doesn't read isn't run.

--check names what is wrong with a table (`events`, the schema's, or that of --table), so that a
query could select too little or too much. It looks at the schema's fields and the columns that
queries name, or without both at all columns: which the table lacks, those of another type than
TEXT, or INTEGER for whole numbers, of another collation than BINARY, and with values that no
event gives; at indexes with a column that isn't COLLATE NOCASE; and for `PRAGMA
case_sensitive_like`, among the queries or in how this SQLite was built. It finds nothing in a
table that this script made with the same queries or schema.

The exit status is 1 where something is named, a line is left out, or a query fails. It needs
Python 3.8 or later with its `sqlite3` alone.
"""
import argparse
import functools
import json
import os
import re
import sqlite3
import sys
import warnings

from event_rows import MOST_BYTES, Field, events_of, lines_of, rows_of, value_at
from sql_tokens import columns_in, expressions_in, folded, names_in, queries_in, quoted
from table_faults import faults_of

# older versions of SQLite bind 999 values in a statement
MOST_COLUMNS = 998


class Unread(Exception):
    """A file that can't be read, or a table that can't be made."""


class Report:
    """What is reported on standard error, and whether that was no more than notes."""

    def __init__(self):
        self.is_good = True

    def note(self, line):
        print(f"note: {line}", file=sys.stderr)

    def fault(self, line):
        self.is_good = False
        print(line, file=sys.stderr)

    def refuse(self, number, why):
        self.fault(f"line {number}: {why}")


# ---- what is read


def read(path, most=-1):
    if path == "-":
        return sys.stdin.buffer.read(most)
    with open(path, "rb") as file:
        return file.read(most)


def queries_of(path):
    try:
        return queries_in(read(path).decode("utf-8"))
    except UnicodeDecodeError as why:
        raise Unread(f"{path}: the queries aren't UTF-8 ({why})") from None


def field_of(field):
    name, kind, keys = field["name"], field["kind"], field.get("at", [field["name"]])
    if kind not in ("text", "whole", "address"):
        raise TypeError("a kind")
    if not all(isinstance(key, str) for key in [name, *keys]):
        raise TypeError("a name")
    return Field(name, keys, kind, field.get("many", False) is True)


def schema_of(path):
    """The table's name and the fields."""
    try:
        schema = json.loads(read(path).decode("utf-8"))
        return schema.get("table", "events"), [field_of(field) for field in schema["fields"]]
    except (ValueError, KeyError, TypeError, AttributeError, RecursionError):
        raise Unread(f"{path}: it is no schema; `sigma convert` says what is wrong") from None


# ---- the table that is made


def named_fields(queries, report):
    """A field for each name that queries test."""
    columns = columns_in(queries)
    for fault in columns.faults:
        report.fault(fault)
    kinds = {key: "whole" if key in columns.numbers else "text" for key in columns.names}
    return [Field(name, [name], kinds[key], False) for key, name in columns.names.items()]


def is_legal(name):
    return 1 <= len(name) <= 128 and not re.search(r"[\x00-\x1f\x7f|]", name)


def further_keys(events, named):
    """The keys of events that are no name of a query in any case; and the names that no event has
    as a key, though some have them inside an object."""
    taken, keys, seen, nested = {folded(name) for name in named}, {}, set(), set()
    dotted = [name for name in named if "." in name]
    for _, event in events:
        seen.update(name for name in dotted if name in event)
        nested.update(name for name in dotted if value_at(event, name.split(".")) is not None)
        for key in event:
            if key not in keys and is_legal(key) and folded(key) not in taken:
                taken.add(folded(key))
                keys[key] = None
    return list(keys), sorted(nested - seen)


def fields_without_schema(lines, queries, report):
    """The fields of the names of queries, and of the further keys of events."""
    fields = named_fields(queries, report)
    events = events_of(lines, False, lambda number, why: None)
    keys, nested = further_keys(events, [field.name for field in fields])
    room = max(MOST_COLUMNS - len(fields), 0)
    for name in nested:
        report.note(f"column {quoted(name)}: no event has this key, and some have it inside an"
                    " object, which a schema says by `at`")
    if keys[room:]:
        report.note(f"{len(keys[room:])} further keys of events have no column")
    fields += [Field(key, [key], "other", False) for key in keys[:room]]
    return fields or [Field("event", [], "other", False)]


def filled(database, table, fields, rows):
    """Makes the table, with the number of its line as each row's rowid; the rowid's name."""
    taken = {folded(field.name) for field in fields}
    free = [name for name in ("rowid", "_rowid_", "oid") if name not in taken]
    if not free:
        raise Unread("the columns rowid, _rowid_ and oid leave a row's number without a name")
    kinds = ["INTEGER" if field.kind == "whole" else "TEXT COLLATE BINARY" for field in fields]
    names = [quoted(field.name) for field in fields]
    columns = ", ".join(f"{name} {kind}" for name, kind in zip(names, kinds))
    database.execute(f"CREATE TABLE {quoted(table)} ({columns})")
    into, values = ", ".join([free[0], *names]), ", ".join("?" * (len(names) + 1))
    database.executemany(f"INSERT INTO {quoted(table)} ({into}) VALUES ({values})", rows)
    database.commit()
    return free[0]


class Table:
    """A table of events, in a database with a function `regexp` and SQLite's own LIKE."""

    def __init__(self, data, queries, schema, path, report):
        self.lines, is_over = lines_of(data)
        self.name, self.fields = schema or (
            "events", fields_without_schema(self.lines, queries, report))
        self.database = sqlite3.connect(path or ":memory:")
        self.database.execute("PRAGMA case_sensitive_like = OFF")
        self.database.create_function("regexp", 2, is_found, deterministic=True)
        # the names of columns that don't take what a line has; a file's table can't say that
        self.lacking = None if schema or path else {}
        events = events_of(self.lines, is_over, report.refuse)
        rows = rows_of(events, self.fields, report.refuse, self.lacking)
        self.number_of_row = filled(self.database, self.name, self.fields, rows)

    def faults(self, query):
        """Why a query can't be run here, before SQLite is asked."""
        if query.table() is None:
            return ['it is no query that begins SELECT * FROM "table" WHERE']
        columns = {folded(field.name) for field in self.fields}
        lacking = dict.fromkeys(name for name in names_in(query) if folded(name) not in columns)
        faults = [f"the table has no column {quoted(name)}" for name in lacking]
        return faults + [fault for fault in map(unread, expressions_in(query)) if fault]

    def selected(self, query):
        """The numbers of the lines that a query selects, in order."""
        found = sorted(row[0] for row in self.database.execute(query.selecting(self.number_of_row)))
        names, lacking = set(map(folded, names_in(query))), self.lacking or {}
        return [line for line in found if names.isdisjoint(map(folded, lacking.get(line, ())))]


def run_queries(table, queries, count, report):
    for number, query in enumerate(queries, 1):
        where = f"query {number} (line {query.line})"
        faults, found = table.faults(query), []
        try:
            found = found if faults else table.selected(query)
        except (sqlite3.Error, sqlite3.Warning, ValueError) as error:
            faults = [str(error)]
        for fault in faults:
            report.fault(f"{where}: {fault}")
        if not faults:
            lines = [table.lines[line - 1] for line in found]
            written = [str(len(found)).encode()] if count else lines
            sys.stdout.buffer.write(b"".join(line + b"\n" for line in written))
    sys.stdout.buffer.flush()


# ---- regular expressions

PIECE = re.compile(r"\\.|\[\^?\]?(?:\\.|[^\]\\])*\]|\(\?<(?![=!])|.", re.DOTALL)
WRITTEN = {r"\z": r"\Z", "(?<": "(?P<", "$": r"\Z"}


@functools.lru_cache(maxsize=4096)
def searched(expression):
    """Python's pattern for an expression. Under the flag `m` its `$` is a line's end in both."""
    has_lines = re.search(r"\(\?[a-z]*m", expression)
    written = {**WRITTEN, "$": "$"} if has_lines else WRITTEN
    with warnings.catch_warnings():
        # sets within sets, which Python reads otherwise
        warnings.simplefilter("error", FutureWarning)
        return re.compile("".join(written.get(it, it) for it in PIECE.findall(expression)))


def unread(expression):
    """Why Python doesn't read an expression, or None."""
    try:
        searched(expression)
    except (re.error, OverflowError, RecursionError, FutureWarning) as why:
        return f"Python's re doesn't read {expression!r} as the program does: {why}"
    return None


def is_found(expression, value):
    if expression is None or value is None:
        return None
    return searched(expression).search(str(value)) is not None


# ---- the command


def arguments():
    how = {"description": __doc__, "formatter_class": argparse.RawDescriptionHelpFormatter}
    parser = argparse.ArgumentParser(**how)
    parser.add_argument("files", nargs="*", metavar="FILE",
                        help="EVENTS.jsonl and QUERIES.sql, or with --check QUERIES.sql alone")
    parser.add_argument("--check", metavar="FILE", help="a database that is there")
    parser.add_argument("--table", help="its table (the schema's, or events)")
    parser.add_argument("--schema", metavar="FILE", help="the schema that the queries were made by")
    parser.add_argument("--database", metavar="FILE", help="where the table is made")
    parser.add_argument("--count", action="store_true", help="print how many events are selected")
    told = parser.parse_args()
    if len(told.files) not in ((0, 1) if told.check else (2,)):
        parser.error("other files are wanted")
    return told


def checked(told, queries, schema):
    """Prints what is wrong with a table; whether nothing is."""
    table, fields = schema or ("events", [])
    faults = list(faults_of(told.check, told.table or table, queries, fields))
    for fault in faults:
        print(fault)
    return not faults


def made(told, queries, schema):
    """Makes a table and runs the queries on it; whether nothing was refused."""
    if told.database and os.path.exists(told.database):
        raise Unread(f"{told.database} is there already")
    report = Report()
    if any(expressions_in(query) for query in queries):
        report.note("REGEXP is searched by Python's re here, which reads some expressions otherwise"
                    " than `sigma run` (docs/SQL.md)")
    data = read(told.files[0], MOST_BYTES + 1)
    table = Table(data, queries, schema, told.database, report)
    run_queries(table, queries, told.count, report)
    return report.is_good


def main():
    told = arguments()
    for stream in (sys.stdout, sys.stderr):
        stream.reconfigure(errors="backslashreplace")
    try:
        queries = queries_of(told.files[-1]) if told.files else []
        schema = schema_of(told.schema) if told.schema else None
        is_good = checked(told, queries, schema) if told.check else made(told, queries, schema)
    except BrokenPipeError:
        os.dup2(os.open(os.devnull, os.O_WRONLY), sys.stdout.fileno())
        return 1
    except (Unread, OSError, sqlite3.Error, UnicodeError) as why:
        return f"sqlite_table.py: {why}"
    except KeyboardInterrupt:
        return 130
    return 0 if is_good else 1


if __name__ == "__main__":
    sys.exit(main())
