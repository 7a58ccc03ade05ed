"""What is wrong with a table of a database, so that queries could select too little or too much."""
import os
import re
import sqlite3

from event_rows import ADDRESS, BEGUN
from sql_tokens import columns_in, folded, quoted

# what this SQLite answers where no pragma, option or extension has changed a test
MEANT = [("LIKE regards case (PRAGMA case_sensitive_like)", "'a' LIKE 'A'", 1),
         ("LIKE folds more letters than A to Z", "'é' LIKE 'É'", 0),
         ("GLOB ignores case", "'a' GLOB 'A'", 0)]


class Unsure(Exception):
    """The collations of a table can't be told."""


def opened(path):
    """A database, to be read alone."""
    name = os.path.abspath(path).replace("%", "%25").replace("?", "%3f").replace("#", "%23")
    database = sqlite3.connect(f"file:{name}?mode=ro", uri=True)
    database.text_factory = lambda data: data.decode("utf-8", "surrogateescape")
    return database


def number_of(database, table, test):
    return database.execute(f"SELECT count(*) FROM {quoted(table)} WHERE {test}").fetchone()[0]


# ---- what has nothing to do with the table


def library_faults(database):
    for what, test, meant in MEANT:
        if database.execute(f"SELECT {test}").fetchone()[0] != meant:
            yield f"this SQLite: {what}"


def query_faults(queries):
    for number, query in enumerate(queries, 1):
        if query.table() is None:
            word = query.tokens[0].text
            more = ", which changes what queries mean" if word == "PRAGMA" else ""
            where = f"query {number} (line {query.line})"
            yield f"{where}: it begins with {word}{more}, and not SELECT * FROM \"table\" WHERE"


# ---- columns


def collations(sql, table, columns):
    """The collation of each column, by an index on it in an empty table of the same form."""
    copy, found = sqlite3.connect(":memory:"), []
    try:
        copy.execute(sql)
        for place, name in enumerate(columns):
            index = quoted(f"of column {place}")
            copy.execute(f"CREATE INDEX {index} ON {quoted(table)} ({quoted(name)})")
            found.append(copy.execute(f"PRAGMA index_xinfo({index})").fetchall()[0][4])
    except sqlite3.Error as why:
        raise Unsure(f"table {quoted(table)}: its collations can't be told ({why})") from None
    return found


def type_fault(name, kind, is_whole):
    """What is wrong with a column's type, by SQLite's rules of types. `is_whole` is None where
    numbers and texts are right."""
    is_integer = "INT" in kind.upper()
    is_text = re.search("CHAR|CLOB|TEXT", kind.upper()) is not None
    said = f"column {quoted(name)}: its type is {kind or 'not given'}"
    if is_whole and not is_integer:
        return f"{said} and not INTEGER, so numbers may be compared as texts"
    if is_whole is False and (is_integer or not is_text):
        return f"{said} and not TEXT, so values are compared as other kinds than texts"
    if is_whole is None and not is_integer and not is_text:
        return f"{said}, and neither TEXT nor INTEGER"
    return None


def value_faults(database, table, name, is_whole):
    column = quoted(name)
    held = "integer" if is_whole else "text"
    tests = [(f"no {held}s", f"typeof({column}) NOT IN ('{held}', 'null')"),
             ("texts with U+0000", f"typeof({column}) = 'text' AND instr({column}, char(0)) > 0")]
    for what, test in tests:
        number = number_of(database, table, test)
        if number:
            yield f"column {column}: {number} of its values are {what}"


def address_faults(database, table, name):
    """Texts that begin as an address and are none, which no event has in a field of addresses."""
    column = quoted(name)
    test = f"typeof({column}) = 'text'"
    values = database.execute(f"SELECT {column} FROM {quoted(table)} WHERE {test}")
    number = sum(1 for value, in values if BEGUN.match(value) and not ADDRESS.fullmatch(value))
    if number:
        yield f"column {column}: {number} of its values begin as an address and are none"


class Wanted:
    """The columns that are looked at, by their folded names, and what is known of them."""

    def __init__(self, queries, fields):
        columns = columns_in(queries)
        self.names = {folded(field.name): field.name for field in fields}
        self.names.update(columns.names)
        self.faults = [] if fields else columns.faults
        self.kinds = {folded(field.name): field.kind for field in fields}
        self.numbers, self.texts = columns.numbers, columns.texts

    def has(self, key):
        return not self.names or key in self.names

    def is_whole(self, key):
        """Whether a column is to have whole numbers; None where it may."""
        if key in self.kinds:
            return self.kinds[key] == "whole"
        return True if key in self.numbers else False if key in self.texts else None


def column_faults(database, table, sql, wanted):
    columns = database.execute(f"PRAGMA table_xinfo({quoted(table)})").fetchall()
    found = {folded(column[1]) for column in columns}
    for key, name in wanted.names.items():
        if key not in found:
            yield f"column {quoted(name)}: the table lacks it, and SQLite takes its name for a text"
    collated = collations(sql, table, [column[1] for column in columns])
    for (_, name, kind, *_), collation in zip(columns, collated):
        key = folded(name)
        if not wanted.has(key):
            continue
        is_whole = wanted.is_whole(key)
        fault = type_fault(name, kind, is_whole)
        if fault:
            yield fault
        if collation.upper() != "BINARY":
            yield (f"column {quoted(name)}: its collation is {collation} and not BINARY,"
                   " so a cased test is decided by it")
        held = "INT" in kind.upper() if is_whole is None else is_whole
        yield from value_faults(database, table, name, held)
        if wanted.kinds.get(key) == "address":
            yield from address_faults(database, table, name)


# ---- indexes


def index_faults(database, table):
    for _, name, unique, *_ in database.execute(f"PRAGMA index_list({quoted(table)})").fetchall():
        parts = database.execute(f"PRAGMA index_xinfo({quoted(name)})").fetchall()
        columns = [part for part in parts if part[5] and part[1] >= 0]
        bad = [quoted(column[2]) for column in columns if column[4].upper() != "NOCASE"]
        if bad:
            kind = "UNIQUE or PRIMARY KEY" if unique else "index"
            yield (f"{kind} {quoted(name)}: {', '.join(bad)} without COLLATE NOCASE,"
                   " so a list of plain values can select too little")


# ---- all


def faults_of(path, table, queries, fields):
    """What is wrong with a table, each thing with its name."""
    database = opened(path)
    yield from library_faults(database)
    yield from query_faults(queries)
    found = database.execute(
        "SELECT name, type, sql FROM sqlite_master"
        " WHERE type IN ('table', 'view') AND lower(name) = lower(?)", (table,)).fetchone()
    if not found:
        yield f"{path} has no table {quoted(table)}"
        return
    name, kind, sql = found
    if kind == "view" or sql.upper().startswith("CREATE VIRTUAL"):
        said = "a view" if kind == "view" else "a virtual table"
        yield f"table {quoted(name)}: it's {said}, whose columns can't be looked at"
        return
    wanted = Wanted(queries, fields)
    yield from wanted.faults
    try:
        yield from column_faults(database, name, sql, wanted)
    except Unsure as why:
        yield str(why)
    yield from index_faults(database, name)
