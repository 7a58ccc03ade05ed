#!/usr/bin/env python3
"""Tries converted rules in a real SQLite. Run by hand; it needs Python 3 with its `sqlite3` and a built program.

    python3 bench/against_sqlite.py PROGRAM [--rules N] [--seed S] [--indexes] [--schema] [--run] [--query] [--lucene]

PROGRAM is the built program, as crates/sigma_app/out/sigma_app. It makes N small rules of odd values (wildcards, escapes, quotes,
signs of LIKE and GLOB, letters beyond ASCII, numbers, null, lists, networks, comparisons with numbers and with other fields, each modifier, conditions that nest; one in 200 has a list of
1,000 to 4,096 values), has the program
convert them, and runs each query over random events in a table of texts. The rows that SQLite selects have to be those
that the rule matches by a plain reading of what was made, which shares no code with the program. It prints each rule that differs, and the
numbers of rules last; the exit status is 1 where one differs.

With --indexes each query runs on two more tables with the same events: with indexes COLLATE NOCASE on its columns, where the same
rows are wanted, and with ordinary indexes, where SQLite 3.40.1 selects too few rows for a list of plain values; how many
queries it gets wrong there is printed, and isn't counted as a difference.

With --schema the rules are converted under a schema that has a field of whole numbers besides, in an INTEGER column, and fields that
keywords search: rules then ask it for numbers, for texts that are decimals and for texts that are none, and by patterns, and have keywords.

With --run each rule is also run by the program over 20 events as JSON lines, null values written or left out: it has to write the lines of
the events that SQLite selects, and to refuse a rule where a selector takes nothing with the line that converting it has.

With --query each query that was written is also asked by the program, in a file with the line feed behind it as it was written, of such events: it
has to be read, and to select the same events. With --lucene the same is tried of the Lucene queries of the rules, under a schema whose text fields keep
their case in a twin; those for which Lucene lacks something (111) or that have too many clauses (113) are counted apart.
"""
import argparse
import base64
import ipaddress
import json
import os
import random
import re
import sqlite3
import subprocess
import sys
import tempfile

FIELDS = ["Image", "User", "Cmd", "a b", "Ip", "Size"]
ADDRESSED = ["Ip"]  # the fields that networks are asked of
COMPARED = ["Size"]  # the fields that are compared with numbers alone
ORDERS = {"lt": int.__lt__, "lte": int.__le__, "gt": int.__gt__, "gte": int.__ge__}
SIGNS = list("aAbB*?\\%_[]-/'\" .éÉ1")
CHAINS = [[], [], ["contains"], ["startswith"], ["endswith"], ["contains", "all"], ["cased"], ["cased", "contains"], ["all"],
          ["endswith", "cased"], ["windash"], ["windash", "contains"], ["cased", "windash", "startswith"], ["base64"], ["base64", "contains"], ["base64offset", "contains"],
          ["wide", "base64offset", "contains"], ["utf16be", "base64", "all", "contains"], ["utf16", "base64"], ["cased", "base64offset", "contains"], ["utf16le", "base64offset"]]
NETWORKS = ["10.0.0.0/8", "10.0.0.0/7", "11.1.2.3/8", "0.0.0.0/0", "192.168.4.0/22", "192.168.5.7", "192.168.5.6/31", "192.168.5.7/32", "192.168.0.0/17"]
PLACES = {"contains", "startswith", "endswith"}
ENCODINGS = {"base64", "base64offset"}
UNITS = {"wide": "utf-16-le", "utf16le": "utf-16-le", "utf16be": "utf-16-be"}
DASHES = "-/\u2013\u2014\u2015"
NAMES = ["sel", "sel_a", "sel_b", "filter", "_h"]
WHOLE, SEARCHED = [], []  # the fields of whole numbers and those that keywords search: none without a schema
NUMBERS = ["007", "+5", "-0", "1e1", "5 ", "9223372036854775808", "-9223372036854775808", "9223372036854775807", "-9223372036854775807", "*", "?", "1*", "-*", "*0", "?1"]
RUN, ONE, DASH = "run", "one", "dash"

# ---- what is made


def some_text(rng):
    return "".join(rng.choice(SIGNS) for _ in range(rng.randrange(5)))


def some_number(rng):
    return rng.choice([rng.randrange(-20, 20), rng.randrange(-20, 20), 10 ** rng.randrange(18), 2 ** 63 - 1, 1 - 2 ** 63])


def some_value(rng, chain, whole=False):
    kind = rng.randrange(10)
    if ENCODINGS & set(chain):
        # neither a wildcard nor fewer than two bytes
        return rng.choice(["ab", "-enc", "\u00e9x", "a/b", some_text(rng).replace("*", "").replace("?", "") + "aB"])
    if "windash" in chain and kind < 6:
        return rng.choice(["-a", "/b", " -a /b", "a-b", "--a", "-1", "a -B"])
    if whole and kind > 1:
        return rng.choice([some_number(rng), str(some_number(rng)), rng.choice(NUMBERS)])
    if kind == 0 and not set(chain) - {"all", "cased"}:
        return None
    if kind == 1:
        return rng.randrange(-20, 20)
    if kind == 2:
        return rng.choice([True, False])
    return some_text(rng)


def some_address(rng):
    """What a field of addresses may have: an address, often near a network's, or a text that doesn't begin as one."""
    address = rng.choice(["10", "11", "9", "12", "192.168", "192.169", "192.168.5", "192.168.7", "192.168.8", "192.168.127", "192.168.128"]).split(".")
    while len(address) < 4:
        address.append(str(rng.choice([0, 5, 6, 7, 255, rng.randrange(256)])))
    return rng.choice([None, "", "host", "1234.5"] + [".".join(address)] * 8)


def some_encoded(rng):
    """Data in base64 that has a value of the rules somewhere, perhaps."""
    value = rng.choice(["ab", "-enc", "\u00e9x", "a/b", some_text(rng)]).encode(rng.choice(["utf-8", "utf-16-le", "utf-16-be", "utf-16"]))
    return base64.b64encode(bytes(rng.randrange(256) for _ in range(rng.randrange(4))) * rng.randrange(2) + value + b"x" * rng.choice([0, 0, 1, 2])).decode()


def some_item(rng):
    """A field, its modifiers and its values."""
    field = rng.choice(FIELDS)
    if field in COMPARED or field in WHOLE and rng.randrange(4) == 0:
        return field, [rng.choice(list(ORDERS))] + rng.choice([[], ["all"]]), [some_number(rng) for _ in range(rng.choice([1, 1, 2]))]
    if rng.randrange(10) == 0:
        return field, ["fieldref"], [rng.choice([name for name in FIELDS if name not in COMPARED and (name in WHOLE) == (field in WHOLE)])]
    if rng.randrange(12) == 0:
        return field, ["exists"], [rng.choice([True, False])]
    if field in ADDRESSED and rng.randrange(3):
        return field, rng.choice([["cidr"], ["cidr"], ["cidr", "all"]]), [rng.choice(NETWORKS) for _ in range(rng.choice([1, 1, 2]))]
    chain = rng.choice(CHAINS)
    return field, chain, [some_value(rng, chain, field in WHOLE) for _ in range(rng.choice([1, 1, 1, 2, 3]))]


def some_keyword(rng, chain):
    """A keyword's values; null is none."""
    values = [some_value(rng, chain) for _ in range(rng.choice([1, 1, 2]))]
    return None, chain, ["" if value is None else value for value in values]


def some_condition(rng, names, depth):
    kind = rng.randrange(8 if depth else 3)
    if kind < 2:
        return rng.choice(names)
    if kind == 2:
        return rng.choice(["1 of sel*", "all of sel*", "1 of them", "all of them", "any of sel*"])
    if kind < 5:
        return "not " + (f"({some_condition(rng, names, depth - 1)})" if rng.randrange(2) else rng.choice(names))
    word = " and " if kind == 5 else " or "
    return "(" + word.join(some_condition(rng, names, depth - 1) for _ in range(rng.randrange(2, 4))) + ")"


def some_event(rng):
    def value():
        kind = rng.randrange(8)
        if kind == 0:
            return None
        if kind == 6:
            return some_encoded(rng)
        if kind == 7:
            return rng.choice(["a", "", " "]) + rng.choice(DASHES) + rng.choice(["a", "b", "a /b", "a \u2014B", "1"])
        if kind == 1:
            return str(rng.randrange(-20, 20))
        return rng.choice(["true", "False", ""]) if kind == 2 else some_text(rng)

    return {field: rng.choice([None, some_number(rng)]) if field in WHOLE + COMPARED else some_address(rng) if field in ADDRESSED else value() for field in FIELDS}


# ---- how it is written


def written(rng, value):
    if value is None:
        return rng.choice(["null", "~", "NULL"])
    if isinstance(value, bool):
        return rng.choice(["true", "True"]) if value else rng.choice(["false", "FALSE"])
    if isinstance(value, int):
        return str(value)
    if rng.randrange(2):
        return "'" + value.replace("'", "''") + "'"
    return '"' + value.replace("\\", "\\\\").replace('"', '\\"') + '"'


def item_lines(rng, indent, item):
    field, chain, values = item
    key = "|".join([field or ""] + chain)
    key = key if field else f"'{key}'"
    if len(values) == 1 and rng.randrange(2):
        return [f"{indent}{key}: {written(rng, values[0])}"]
    if rng.randrange(2):
        return [f"{indent}{key}: [{', '.join(written(rng, value) for value in values)}]"]
    return [f"{indent}{key}:"] + [f"{indent}  - {written(rng, value)}" for value in values]


def some_map(rng, indent):
    """The lines of a map, and its items, no key twice."""
    lines, items = [], {}
    for item in (some_keyword(rng, rng.choice([["all"], ["contains"], ["startswith", "all"], ["cased"]])) if SEARCHED and rng.randrange(8) == 0 else some_item(rng)
                 for _ in range(rng.randrange(1, 3))):
        if (item[0], *item[1]) not in items:
            items[(item[0], *item[1])] = item
            lines += item_lines(rng, indent, item)
    return lines, list(items.values())


def some_detection(rng, name):
    """The lines of a detection, and its alternatives."""
    if rng.randrange(3):
        lines, items = some_map(rng, "    ")
        return [f"  {name}:"] + lines, [items]
    lines, alternatives = [f"  {name}:"], []
    for _ in range(rng.randrange(1, 3)):
        if SEARCHED and rng.randrange(3) == 0:
            _, _, values = some_keyword(rng, [])
            lines.append(f"    - {written(rng, values[0])}")
            alternatives.append([(None, [], values[:1])])
            continue
        inner, items = some_map(rng, "      ")
        lines += ["    - " + inner[0].strip()] + inner[1:]
        alternatives.append(items)
    return lines, alternatives


def some_rule(rng):
    names = rng.sample(NAMES, rng.randrange(1, 4))
    lines, detections = ["title: t", "logsource:", "  category: c", "detection:"], {}
    for name in names:
        inner, detections[name] = some_detection(rng, name)
        lines += inner
    condition = some_condition(rng, names, 3)
    return "\n".join(lines + [f"  condition: {condition}"]) + "\n", detections, condition


def some_long_rule(rng):
    """A rule of one list of 1,000 to 4,096 values, each with letters of its own."""
    chain = rng.choice([chain for chain in CHAINS if not {"windash", *ENCODINGS} & set(chain)])
    values = [some_text(rng) + str(rng.randrange(10 ** 6)) + some_text(rng) for _ in range(rng.randrange(1000, 4097))]
    item = (rng.choice([field for field in FIELDS if field not in COMPARED]), chain, values)
    condition = rng.choice(["sel", "not sel", "1 of sel*", "not 1 of them"])
    lines = ["title: t", "logsource:", "  category: c", "detection:", "  sel:"] + item_lines(rng, "    ", item)
    return "\n".join(lines + [f"  condition: {condition}"]) + "\n", {"sel": [[item]]}, condition


# ---- what it means


def fold(character):
    return character.lower() if "A" <= character <= "Z" else character


def parts_of(text):
    parts, at = [], 0
    while at < len(text):
        if text[at] == "\\" and text[at + 1 : at + 2] in ("*", "?", "\\") and at + 1 < len(text):
            at += 1
            parts.append((text[at],))
        else:
            parts.append({"*": RUN, "?": ONE}.get(text[at], (text[at],)))
        at += 1
    return parts


def fits(parts, text, cased):
    """Whether the parts take the text; `ends` are the places up to which those so far may take it."""
    takes = lambda part, found: found in DASHES if part == DASH else part == ONE or found == part[0] or not cased and fold(found) == fold(part[0])
    ends = {0}
    for part in parts:
        if part == RUN:
            ends = set(range(min(ends), len(text) + 1)) if ends else ends
        else:
            ends = {end + 1 for end in ends if end < len(text) and takes(part, text[end])}
    return len(text) in ends


def is_word(part):
    return isinstance(part, tuple) and re.fullmatch("[A-Za-z0-9_]", part[0]) is not None


def dashes_in(parts):
    """The parts with a dash for each `-` and `/` that begins a word."""
    sign = lambda at: parts[at] in (("-",), ("/",)) and not (at and is_word(parts[at - 1])) and at + 1 < len(parts) and is_word(parts[at + 1])
    return [DASH if sign(at) else part for at, part in enumerate(parts)]


def encoded(chain, text):
    """The texts that are looked for where a text is encoded."""
    units = next((UNITS[word] for word in chain if word in UNITS), None)
    data = b"\xff\xfe" + text.encode("utf-16-le") if "utf16" in chain else text.encode(units or "utf-8")
    if "base64" in chain:
        return [base64.b64encode(data).decode()]
    pieces = []
    for offset in range(3):
        whole = base64.b64encode(bytes(offset) + data).decode()
        pieces.append("".join(sign for at, sign in enumerate(whole) if 8 * offset <= 6 * at and 6 * at + 6 <= 8 * (offset + len(data))))
    return pieces


def satisfied(chain, value, found):
    """Whether what an event has in a field satisfies one value."""
    if value is None or found is None:
        return value is None and found is None
    if chain and chain[0] in ORDERS:
        return ORDERS[chain[0]](found, value)
    if "cidr" in chain:
        try:
            return ipaddress.IPv4Address(found) in ipaddress.IPv4Network(value, strict=False)
        except ValueError:
            return False
    found = str(found)
    if isinstance(value, int) and not isinstance(value, bool):
        parts = [(digit,) for digit in str(value)]
    else:
        parts = parts_of({True: "true", False: "false"}.get(value, value) if isinstance(value, bool) else value)
    if ENCODINGS & set(chain):
        return any(placed(chain, [(sign,) for sign in text], found) for text in encoded(chain, "".join(part[0] for part in parts)))
    return placed(chain, dashes_in(parts) if "windash" in chain else parts, found)


def placed(chain, parts, found):
    """Whether a text fits the parts with the runs of the chain."""
    if {"contains", "endswith"} & set(chain) and parts[:1] != [RUN]:
        parts = [RUN] + parts
    if {"contains", "startswith"} & set(chain) and parts[-1:] != [RUN]:
        parts = parts + [RUN]
    return fits(parts, found, "cased" in chain)


def holds(item, event):
    field, chain, values = item
    if chain == ["exists"]:
        return (event[field] is not None) == values[0]
    if chain == ["fieldref"]:
        pair = event[field], event[values[0]]
        return None not in pair and [fold(sign) for sign in str(pair[0])] == [fold(sign) for sign in str(pair[1])]
    places = chain if field or PLACES & set(chain) else chain + ["contains"]
    return (all if "all" in chain else any)(
        any(satisfied(places, value, found) for found in ([event[name] for name in SEARCHED] if field is None else [event[field]])) for value in values)


class Nothing(Exception):
    """A selector takes no detection."""


def matches(condition, detections, event):
    """Whether the condition is true, read by recursive descent."""
    words, true_of = re.findall(r"[()]|[A-Za-z0-9_*-]+", condition), {
        name: any(all(holds(item, event) for item in items) for items in alternatives) for name, alternatives in detections.items()}

    def chain(word, part, join):
        found = [part()]
        while words and words[0] == word:
            words.pop(0)
            found.append(part())
        return join(found)

    def atom():
        word = words.pop(0)
        if word == "not":
            return not atom()
        if word == "(":
            value = either()
            words.pop(0)
            return value
        if word in ("1", "any", "all") and words[:1] == ["of"]:
            selector = words[1]
            del words[:2]
            taken = [name for name in detections if not name.startswith("_")
                     and (selector == "them" or re.fullmatch(re.escape(selector).replace(r"\*", ".*"), name))]
            if not taken:
                raise Nothing
            return (all if word == "all" else any)(true_of[name] for name in taken)
        return true_of[word]

    def both():
        return chain("and", atom, all)

    def either():
        return chain("or", both, any)

    return either()


# ---- the trial


def schema_words(folder, always=False):
    """The option for the schema's file, which is written here, if there is one or if it's wanted always."""
    if not WHOLE and not always:
        return []
    fields = [{"name": field, "kind": "whole" if field in WHOLE + COMPARED else "address" if field in ADDRESSED else "text", "search": field in SEARCHED, "cased": field not in WHOLE + COMPARED} for field in FIELDS]
    with open(os.path.join(folder, "schema.json"), "w", encoding="utf-8") as file:
        json.dump({"fields": fields}, file)
    return ["--schema", "schema.json"]


def converted(program, folder, rules, backend):
    """The query of each rule for a backend, or the line of its refusal."""
    names = [f"{number}.yml" for number in range(len(rules))]
    for name, (text, _, _) in zip(names, rules):
        with open(os.path.join(folder, name), "w", encoding="utf-8", newline="") as file:
            file.write(text)
    words = ["convert", "--backend", backend, *schema_words(folder, backend == "lucene"), *names]
    ran = subprocess.run([program, *words], cwd=folder, capture_output=True)
    lines = {line.split(":")[0]: line for line in ran.stderr.decode().splitlines()}
    queries = iter(ran.stdout.decode().split("\n"))
    return [(None, lines[name]) if name in lines else (next(queries), None) for name in names]


def event_lines(rng, events):
    """The events as JSON lines, null values written or left out."""
    return [json.dumps({"number": number, **{field: value for field, value in event.items() if value is not None or rng.randrange(2)}})
            for number, event in enumerate(events)]


def written_by(program, folder, words, lines):
    """The numbers of the events whose lines the program writes, and its diagnostics."""
    ran = subprocess.run([program, *words], cwd=folder, capture_output=True, input="\n".join(lines).encode())
    written = ran.stdout.decode().splitlines()
    if any(line not in lines for line in written):
        return None, ran.stderr.decode()
    return {json.loads(line)["number"] for line in written}, ran.stderr.decode()


def tables(indexes):
    """Databases with the table: without an index, and if so also with indexes that are good and with ordinary ones."""
    databases = []
    for collation in [None, " collate nocase", ""] if indexes else [None]:
        database = sqlite3.connect(":memory:")
        columns = [f'"{field}" {"integer" if field in WHOLE + COMPARED else "text"}' for field in FIELDS]
        database.execute(f"create table events (number integer, {', '.join(columns)})")
        if collation is not None:
            for number, field in enumerate(FIELDS):
                database.execute(f'create index of_{number} on events ("{field}"{collation})')
        databases.append(database)
    return databases


def selected(database, events, query):
    database.execute("delete from events")
    database.executemany(f"insert into events values ({', '.join('?' * (len(FIELDS) + 1))})",
                         [(number, *event.values()) for number, event in enumerate(events)])
    return {row[0] for row in database.execute(query)}


def swapped(rng, detections):
    """An event whose values are values of the rule, in another case."""
    values = [value for alternatives in detections.values() for items in alternatives for _, _, values in items for value in values]
    numbers = [value for value in values if isinstance(value, int) and not isinstance(value, bool)]
    return {field: rng.choice(numbers + [None]) if field in WHOLE + COMPARED else some_address(rng) if field in ADDRESSED else str(rng.choice(values + [""])).swapcase()
            for field in FIELDS}


def tried(databases, rng, rule, query, line, wrong, run, ask):
    """Whether the rule is refused rightly, and whether its query selects what it should; None where it was refused so. `run` gives
    what running the rule over events writes, and `ask` what asking its queries of them does, each if it is to be tried."""
    _, detections, condition = rule
    events = [some_event(rng) for _ in range(12)]
    if databases[1:] or run or ask:
        events += [swapped(rng, detections) for _ in range(8 if run or ask else 12)]
    try:
        wanted = {number for number, event in enumerate(events) if matches(condition, detections, event)}
    except Nothing:
        if run and line and run(events) != (set(), line + "\n"):
            return False
        return None if line and " 64 " in line else False
    if run and run(events) != (wanted, "") or line or ask and not ask(events, query, wanted):
        return False
    found = [selected(database, events, query) for database in databases]
    if found[2:] and found[2] != wanted:
        wrong.append((query, len(wanted), len(found[2])))
    return all(rows == wanted for rows in found[:2])


def main():
    parser = argparse.ArgumentParser(description=__doc__, formatter_class=argparse.RawDescriptionHelpFormatter)
    parser.add_argument("program", help="the built program")
    parser.add_argument("--rules", type=int, default=5000, help="how many rules (5,000)")
    parser.add_argument("--seed", type=int, default=1, help="the seed of what is made (1)")
    parser.add_argument("--indexes", action="store_true", help="run the queries with indexes too")
    parser.add_argument("--schema", action="store_true", help="convert under a schema with whole numbers and keywords")
    parser.add_argument("--run", action="store_true", help="run each rule over events too")
    parser.add_argument("--query", action="store_true", help="have the program ask each query of events too")
    parser.add_argument("--lucene", action="store_true", help="have the program write and ask Lucene's queries of the rules too")
    told = parser.parse_args()
    if told.schema:
        FIELDS.append("n")
        WHOLE.append("n")
        SEARCHED.extend(["Image", "Cmd"])
    rng, program = random.Random(told.seed), os.path.abspath(told.program)
    databases, wrong, lacking = tables(told.indexes), [], 0
    counts = {True: 0, False: 0, None: 0}
    with tempfile.TemporaryDirectory() as folder:
        for start in range(0, told.rules, 200):
            rules = [some_rule(rng) for _ in range(min(200, told.rules - start))]
            rules[-1] = some_long_rule(rng)
            others = converted(program, folder, rules, "lucene") if told.lucene else [None] * len(rules)
            for number, (rule, (query, line), other) in enumerate(zip(rules, converted(program, folder, rules, "sqlite"), others)):
                def run(events, name=f"{number}.yml"):
                    return written_by(program, folder, ["run", *schema_words(folder), name], event_lines(rng, events))

                def asked(events, query, backend):
                    with open(os.path.join(folder, "q"), "w", encoding="utf-8", newline="") as file:
                        file.write(query + "\n")
                    return written_by(program, folder, ["query", "--backend", backend, *schema_words(folder, True), "q"], event_lines(rng, events))

                def ask(events, query, wanted, other=other):
                    return (not told.query or asked(events, query, "sqlite") == (wanted, "")) and (
                        not other or (asked(events, other[0], "lucene") == (wanted, "") if other[0] else re.search(" 11[13] ", other[1]) is not None))
                lacking += bool(other and other[1] and " 64 " not in other[1])
                verdict = tried(databases, rng, rule, query, line, wrong, run if told.run else None, ask if told.query or told.lucene else None)
                counts[verdict] += 1
                if verdict is False:
                    print(f"{rule[0]}{query or line}\n{other and (other[0] or other[1])}\n")
    if told.indexes:
        for query, wanted, found in sorted(wrong, key=lambda case: len(case[0]))[:3]:
            print(f"ordinary indexes: {found} rows in place of {wanted} for {query}")
        print(f"ordinary indexes: {len(wrong)} queries select other rows than they should")
    if told.lucene:
        print(f"Lucene: {lacking} rules for which it lacks something, or with too many clauses")
    print(f"{counts[True]} as they should be, {counts[None]} refused as they should be, {counts[False]} not (SQLite {sqlite3.sqlite_version})")
    sys.exit(1 if counts[False] else 0)


if __name__ == "__main__":
    main()
