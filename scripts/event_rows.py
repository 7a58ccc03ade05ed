"""Events in JSON lines as the program reads them: which lines are none, and what fields have."""
import json
import re
from typing import NamedTuple

MOST_BYTES, MOST_IN_A_LINE, MOST_NESTED = 268_435_456, 65_536, 127
CODES = {25: "EventJson", 26: "EventKind", 27: "EventRange", 28: "EventNul",
         30: "LineTooLong", 31: "TooMuch"}
ESCAPED = re.compile(r"\\(?:u([0-9A-Fa-f]{4})|.)", re.DOTALL)
STRING = re.compile(r'"[^"\\]*(?:\\.[^"\\]*)*"', re.DOTALL)
DECIMAL = re.compile("0|-?[1-9][0-9]*")
# what begins as an IPv4 address, and one
BEGUN = re.compile(r"[0-9]{1,3}\.")
OCTET = r"(?:25[0-5]|2[0-4][0-9]|1[0-9][0-9]|[1-9]?[0-9])"
ADDRESS = re.compile(rf"{OCTET}(?:\.{OCTET}){{3}}")


class Refused(ValueError):
    """A line that is no event, with the code that the program has for it."""

    def __init__(self, code, why):
        super().__init__(f"{code} {CODES[code]}: {why}")
        self.code = code


class Odd(NamedTuple):
    """A number that no field has, and the code for it in a field of texts or of whole numbers."""

    written: str
    code: int


class Field(NamedTuple):
    name: str
    keys: list
    kind: str
    many: bool


# ---- lines


def lines_of(data):
    """The lines of bytes, and whether there are more bytes than are read. The last line needs no
    line feed, if it has a byte."""
    *lines, last = data[:MOST_BYTES].split(b"\n")
    is_over = len(data) > MOST_BYTES
    return lines + [last] * (bool(last) and not is_over), is_over


def whole_number(text):
    if text == "-0" or len(text) > 20:
        return fraction(text)
    number = int(text)
    if abs(number) < 2**63:
        return number
    return Odd(text, 27 if -(2**63) <= number < 2**64 else 26)


def fraction(text):
    if abs(float(text)) == float("inf"):
        raise ValueError("a number is too large")
    return Odd(text, 26)


def constant(word):
    raise ValueError(f"{word} is no JSON")


NUMBERS = {"parse_int": whole_number, "parse_float": fraction, "parse_constant": constant}


def has_half_a_pair(text):
    """Whether an escape is half of a surrogate pair without the other half beside it."""
    expected = None
    for found in ESCAPED.finditer(text):
        unit = int(found.group(1), 16) if found.group(1) else 0
        if (0xDC00 <= unit < 0xE000) != (found.start() == expected):
            return True
        if expected is not None and found.start() != expected:
            return True
        expected = found.end() if 0xD800 <= unit < 0xDC00 else None
    return expected is not None


def is_too_deep(text):
    if text.count("[") + text.count("{") <= MOST_NESTED:
        return False
    depth = deepest = 0
    for sign in re.findall(r"[\[\]{}]", STRING.sub("", text)):
        depth += 1 if sign in "[{" else -1
        deepest = max(depth, deepest)
    return deepest > MOST_NESTED


def event_of(line):
    """The JSON object that a line's bytes are."""
    if len(line) > MOST_IN_A_LINE:
        raise Refused(30, f"the line has {len(line)} bytes")
    try:
        text = line.decode("utf-8")
        if is_too_deep(text):
            raise ValueError(f"more than {MOST_NESTED} lists and objects are nested")
        if "\\ud" in text.lower() and has_half_a_pair(text):
            raise ValueError("an escape is half of a surrogate pair")
        event = json.loads(text, **NUMBERS)
    except ValueError as why:
        raise Refused(25, f"the line is no JSON: {why}") from None
    if not isinstance(event, dict):
        raise Refused(25, "the line is no JSON object")
    return event


def is_blank(line):
    """Whether a line is passed over."""
    return len(line) <= MOST_IN_A_LINE and not line.strip(b" \t\r")


# ---- values


def shown(value):
    text = value.written if isinstance(value, Odd) else json.dumps(value, ensure_ascii=False)
    return text if len(text) <= 60 else text[:57] + "..."


def text_value(name, value):
    if isinstance(value, bool):
        return "true" if value else "false"
    if isinstance(value, int):
        return str(value)
    if isinstance(value, Odd):
        raise Refused(value.code, f"{name} has a number that no text is: {shown(value)}")
    if not isinstance(value, str):
        raise Refused(26, f"{name} is no single value: {shown(value)}")
    if "\0" in value:
        raise Refused(28, f"{name} has U+0000")
    return value


def whole_value(name, value):
    if isinstance(value, str) and DECIMAL.fullmatch(value):
        value = int(value) if len(value) <= 20 else Odd(value, 27)
    if isinstance(value, int) and not isinstance(value, bool):
        if abs(value) < 2**63:
            return value
        raise Refused(27, f"{name} is out of range: {value}")
    code = value.code if isinstance(value, Odd) else 26
    raise Refused(code, f"{name} is no whole number, or one out of range: {shown(value)}")


def address_value(name, value):
    if not isinstance(value, str):
        raise Refused(26, f"{name} is no address and no text: {shown(value)}")
    if BEGUN.match(value) and not ADDRESS.fullmatch(value):
        raise Refused(26, f"{name} begins as an address and is none: {shown(value)}")
    return text_value(name, value)


def other_value(name, value):
    """A value of a key that isn't asked for, where a field of texts takes it."""
    try:
        return text_value(name, value)
    except Refused:
        return None


KINDS = {"text": text_value, "whole": whole_value, "address": address_value, "other": other_value}


def single_value(field, value):
    return None if value is None else KINDS[field.kind](field.name, value)


def value_at(event, keys):
    """What stands in an event where these keys lead through objects."""
    for key in keys:
        event = event.get(key) if isinstance(event, dict) else None
    return event


def column_value(field, event):
    """What stands in a field's column: its value, or the first of several, or None."""
    value = value_at(event, field.keys)
    if not field.many or not isinstance(value, list):
        return single_value(field, value)
    values = [single_value(field, part) for part in value]
    return next((part for part in values if part is not None), None)


# ---- all lines


def events_of(lines, is_over, refuse):
    """The number and the event of each line that is one. `refuse` gets the numbers of others, and
    why they're none."""
    for number, line in enumerate(lines, 1):
        if is_blank(line):
            continue
        try:
            yield number, event_of(line)
        except Refused as why:
            refuse(number, why)
    if is_over:
        refuse(len(lines) + 1, Refused(31, f"the events have more than {MOST_BYTES} bytes"))


def rows_of(events, fields, refuse, lacking=None):
    """The number of each line, and the columns of its event. A line with a value that a field
    doesn't take is left out; or where `lacking` is a dictionary it stays without the value, and
    the names of such fields stand there under its number."""
    for number, event in events:
        row, names = [number], set()
        for field in fields:
            try:
                row.append(column_value(field, event))
            except Refused as why:
                refuse(number, why)
                names.add(field.name)
                if lacking is None:
                    break
                row.append(None)
                lacking[number] = names
        if not names or lacking is not None:
            yield row
