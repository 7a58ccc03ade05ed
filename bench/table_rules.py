"""Rules of odd values, and events that they may match, for the trial of scripts/sqlite_table.py.

Values stand in YAML as JSON has them, or as block scalars where they have line feeds. A rule's
events have values of the rule, whole, within others or in another case, beside values that no field
takes, keys in another case or inside an object, and lines that are no events.
"""
import json
import re

TEXTS = ["Image", "Cmd line", 'q"t', "winlog.user", "é'"]
WHOLES, ADDRESS, MANY = ["n", "Code"], "Ip", "Groups"
NAMES = [*TEXTS, *WHOLES, ADDRESS]
FIELDS = [
    {"name": "Image", "kind": "text", "search": True},
    *({"name": name, "kind": "text", "at": name.split(".")} for name in TEXTS[1:]),
    *({"name": name, "kind": "whole"} for name in WHOLES),
    {"name": ADDRESS, "kind": "address"},
    {"name": MANY, "kind": "text", "many": True},
]
SIGNS = list("aAbBkK*?\\%_[]-/'\" .éÉ1<>;=(\n\n\t") + ["SELECT ", '"n" > 5', "' OR '"]
CHAINS = [
    "", "", "", "contains", "contains", "startswith", "endswith", "contains|all", "all", "cased",
    "cased|contains", "endswith|cased", "cased|startswith", "windash", "windash|contains",
    "cased|windash|startswith", "base64", "base64offset|contains", "wide|base64offset|contains",
    "utf16be|base64", "utf16|base64",
]
# what the crate `regex` and the script's function read alike
EXPRESSIONS = [
    "a", "^a", "b$", "a$", r"b\z", "[ab$]", "a.b", "(?i)k", "^$", "a|b", "a*b", "[^a]", "^.$",
    r"\d+", "(?<x>a)b", "it's", '"n" > 5', r"\$", "a\nb", "(?m)^a$",
]
NETWORKS = ["10.0.0.0/8", "10.0.0.0/7", "0.0.0.0/0", "192.168.4.0/22", "192.168.5.6/31", "10.1.2.3"]
ADDRESSES = ["10.1.2.3", "11.0.0.0", "192.168.5.7", "192.168.8.0", "9.9.9.9", "host", "", "1234.5"]
ORDERS = ["lt", "lte", "gt", "gte"]


class Odd:
    """A value as it's written in JSON, which a text, a number or an address may be none of."""

    def __init__(self, written):
        self.written = written


ODD = [Odd(written) for written in [
    "[]", '["a"]', "[[]]", "{}", '{"a":1}', "1.5", "1e2", "-0", "9223372036854775807",
    "-9223372036854775808", "18446744073709551615", "18446744073709551616", '"a\\u0000"',
    '"10.\\u0000"', '"10.evil"', '"10.0.0.256"', '"007"', '"+1"', '"9223372036854775808"',
    '"99999999999999999999999"', "true", "false", "null", '["a",null]', '[1,"b"]', "[null,{}]",
]]
LINES = [
    b"", b" \t\r", b"[]", b"{", b"nothing", b'{"Image":NaN}', b'{"Image":"\\ud800"}',
    b'{"Image":"\\ud83d\\ude00"}', b'{"Image":"\xff"}', b'\xef\xbb\xbf{"Image":"a"}',
    b'{"Image":"a","Image":"b"}', b'{"Image":"a"}\r', b'{"Image":1e400}', b'{"a":"a\tb"}', b"{}",
    b'{"x":' + b"[" * 126 + b"]" * 126 + b"}", b'{"x":' + b"[" * 127 + b"]" * 127 + b"}",
    b'{"x":' + b"1" * 400 + b"}", b'{"Image":"' + b"a" * 65524 + b'"}',
    b'{"Image":"' + b"a" * 65525 + b'"}',
]

# ---- rules

HEAD = "title: t\nlogsource:\n  category: c\ndetection:\n"


def some_text(rng):
    return "".join(rng.choice(SIGNS) for _ in range(rng.choice([0, 1, 1, 2, 3, 4])))


def some_number(rng):
    small = rng.randrange(-20, 20)
    return rng.choice([small, small, 10 ** rng.randrange(18), 2**63 - 1, 1 - 2**63])


def some_value(rng, chain, name):
    kind = rng.randrange(12)
    if "base64" in chain:
        return rng.choice(["ab", "-enc", "éx", "a/b"]) + re.sub(r"[*?\\]", "", some_text(rng))
    if "windash" in chain and kind < 7:
        return rng.choice(["-a", "/b", " -a /b", "a-b", "--a", "-1"])
    if kind == 0 and chain in ("", "all", "cased"):
        return None
    if kind == 1 or name in WHOLES and kind < 7:
        number = some_number(rng)
        return rng.choice([number, str(number), "1*", "-*", "?1", "*", "007"])
    return rng.choice([True, False]) if kind == 2 else some_text(rng)


def some_item(rng):
    """A field, the words behind it, and its values."""
    name, kind = rng.choice(NAMES), rng.randrange(16)
    some = lambda make: [make() for _ in range(rng.choice([1, 1, 2, 3]))]
    if kind == 0:
        return name, "exists", [rng.choice([True, False])]
    if kind == 1:
        others = [other for other in NAMES if (other in WHOLES) == (name in WHOLES)]
        return name, "fieldref", [rng.choice(others)]
    if kind == 2 and name not in WHOLES:
        return name, "re" + rng.choice(["", "", "|i", "|s"]), some(lambda: rng.choice(EXPRESSIONS))
    if name in WHOLES and kind < 9:
        chain = rng.choice(ORDERS) + rng.choice(["", "", "|all"])
        return name, chain, some(lambda: some_number(rng))
    if name == ADDRESS and kind < 11:
        return name, rng.choice(["cidr", "cidr", "cidr|all"]), some(lambda: rng.choice(NETWORKS))
    if kind == 3:
        return "", rng.choice(["all", "contains", "cased|all"]), some(lambda: some_text(rng) + "a")
    chain = rng.choice(CHAINS)
    return name, chain, some(lambda: some_value(rng, chain, name))


def is_block(lines):
    """Whether a text of these lines can stand as a block scalar as it is."""
    plain = all(re.fullmatch(r"[!-~].*", line) for line in lines if line)
    return len(lines) > 1 and plain and lines[0] != "" and lines[-2:] != ["", ""]


def written(rng, value, indent):
    """A value, as what stands behind a key's colon and a blank."""
    lines = value.split("\n") if isinstance(value, str) else [""]
    if is_block(lines) and rng.randrange(3):
        head, body = ("|", lines[:-1]) if lines[-1] == "" else ("|-", lines)
        return f"{head}\n" + "\n".join(indent + line if line else "" for line in body)
    return json.dumps(value, ensure_ascii=False)


def item_text(rng, item):
    name, chain, values = item
    key = "'" + (f"{name}|{chain}" if chain else name).replace("'", "''") + "'"
    if len(values) == 1 and rng.randrange(2):
        return f"    {key}: {written(rng, values[0], '      ')}\n"
    listed = [f"      - {written(rng, value, '        ')}\n" for value in values]
    return f"    {key}:\n" + "".join(listed)


def some_condition(rng, names, depth=3):
    kind = rng.randrange(8 if depth else 2)
    if kind < 2:
        return rng.choice(names)
    if kind == 2:
        return rng.choice(["1 of s*", "all of them", "1 of them"])
    if kind < 5:
        return f"not ({some_condition(rng, names, depth - 1)})"
    word = rng.choice([" and ", " or "])
    return f"({word.join(some_condition(rng, names, depth - 1) for _ in range(2))})"


def some_rule(rng):
    """The text of a rule, and its items."""
    names = [f"s{number}" for number in range(rng.choice([1, 1, 2, 3]))]
    items, text = [], ""
    for name in names:
        keys = {}
        for item in (some_item(rng) for _ in range(rng.choice([1, 1, 2]))):
            keys.setdefault(item[:2], item)
        text += f"  {name}:\n" + "".join(item_text(rng, item) for item in keys.values())
        items += keys.values()
    return f"{HEAD}{text}  condition: {some_condition(rng, names)}\n", items


# ---- events


def is_number(value):
    return isinstance(value, int) and not isinstance(value, bool)


def some_hit(rng, values):
    """A value near one of these."""
    value = rng.choice(values)
    if not isinstance(value, str):
        return rng.choice([value, str(value)]) if is_number(value) else value
    signs = {"*": ["", "a", "b-"], "?": ["a", "B", "1"]}
    text = "".join(rng.choice(signs.get(sign, [sign])) for sign in value)
    more = [f"x{text}", f"{text}\n", f"{text}x", f"x{text}y"]
    return rng.choice([text, text, value, text.swapcase(), *more])


def some_field(rng, name, values):
    if rng.randrange(25) == 0:
        return rng.choice(ODD)
    if name == ADDRESS and rng.randrange(8):
        return rng.choice(ADDRESSES)
    if name in WHOLES and rng.randrange(8):
        near = rng.choice([*filter(is_number, values), some_number(rng)])
        number = near + rng.choice([0, 0, 1, -1])
        return rng.choice([number, str(number)]) if abs(number) < 2**63 else 5
    if values and rng.randrange(3):
        return some_hit(rng, values)
    return rng.choice([some_text(rng), "", str(some_number(rng)), some_number(rng)])


def json_of(value):
    if isinstance(value, Odd):
        return value.written
    if isinstance(value, list):
        return "[" + ",".join(json_of(part) for part in value) + "]"
    return json.dumps(value, ensure_ascii=isinstance(value, str) and len(value) % 2 == 1)


def some_member(rng, key, value):
    """A key with its value; one with a dot perhaps inside an object."""
    if "." in key and rng.randrange(2):
        outer, inner = key.split(".")
        return f"{json_of(outer)}:{{{json_of(inner)}:{json_of(value)}}}"
    return f"{json_of(key)}:{json_of(value)}"


def some_event(rng, items):
    """A line, mostly an event."""
    if rng.randrange(12) == 0:
        return rng.choice(LINES)
    parts = []
    for name in NAMES:
        values = [value for other, _, own in items if other in (name, "") for value in own]
        keys = [name] * (rng.randrange(6) > 0) + [name.swapcase()] * (rng.randrange(12) == 0)
        parts += [some_member(rng, key, some_field(rng, name, values)) for key in keys]
    if rng.randrange(4) == 0:
        more = rng.choice([None, "a", rng.choice(ODD)])
        parts.append(f'"{MANY}":{json_of([some_text(rng), more])}')
    rng.shuffle(parts)
    return f"{{{','.join(parts)}}}".encode()
