"""Queries of SQLite as texts: their tokens, and where each of several ends.

What their tests say of columns goes by the tokens around a name, never by the raw text, in which a
text may have all that a query has.
"""
import re
from typing import NamedTuple

# a quote that isn't closed is a token with all that follows it
TOKEN = re.compile(r"""
    (?P<blank>[ \t\n\r\f]+)
  | (?P<name>"[^"]*(?:""[^"]*)*(?:"|\Z))
  | (?P<text>'[^']*(?:''[^']*)*(?:'|\Z))
  | (?P<number>-?[0-9]+(?![0-9A-Za-z_]))
  | (?P<word>[0-9A-Za-z_]+)
  | (?P<sign><=|>=|<>|!=|==|[()*,;=<>])
  | (?P<other>.)""", re.VERBOSE | re.DOTALL)
SIGNS = ("<", "<=", ">", ">=", "=", "==", "<>", "!=")
NUMBER, TEXT, EITHER = "a number", "a text", "either"


class Token(NamedTuple):
    """A name or text without its quotes, a word in capitals, or a sign; and where it begins."""

    kind: str
    text: str
    at: int

    def is_word(self, word):
        return self.kind == "word" and self.text == word


class Query(NamedTuple):
    """A statement, the line in which it begins, and its tokens with their places in it."""

    text: str
    line: int
    tokens: list

    def table(self):
        """The table of a query that begins `SELECT * FROM "table" WHERE`, or None."""
        head = [token.kind if token.kind == "name" else token.text for token in self.tokens[:5]]
        return self.tokens[3].text if head == ["SELECT", "*", "FROM", "name", "WHERE"] else None

    def condition(self):
        return self.tokens[5:]

    def selecting(self, column):
        """The query with one column in the place of all."""
        return f"SELECT {column} {self.text[self.tokens[2].at:]}"


class Use(NamedTuple):
    """A column that a test names: what it's compared with, and whether by a collation."""

    name: str
    what: str
    other: str = None
    is_collated: bool = False


def quoted(name):
    return '"' + name.replace('"', '""') + '"'


def folded(name):
    """A name as SQL compares it: A to Z become a to z."""
    return "".join(c.lower() if "A" <= c <= "Z" else c for c in name)


def tokens_in(text):
    for found in TOKEN.finditer(text):
        kind, written = found.lastgroup, found.group()
        if kind in ("name", "text"):
            quote = written[0]
            is_closed = len(written) > 1 and written.endswith(quote)
            inner = written[1:-1] if is_closed else written[1:]
            yield Token(kind, inner.replace(quote * 2, quote), found.start())
        elif kind != "blank":
            yield Token(kind, written.upper() if kind == "word" else written, found.start())


def queries_in(text):
    """The statements of a text, which end at a semicolon, before a word SELECT, or at the end."""
    groups, open_group = [], False
    for token in tokens_in(text):
        if token.kind == "sign" and token.text == ";":
            open_group = False
            continue
        if not open_group or token.is_word("SELECT"):
            groups.append([])
            open_group = True
        groups[-1].append(token)
    starts = [group[0].at for group in groups] + [len(text)]
    found, line, counted = [], 1, 0
    for group, start, end in zip(groups, starts, starts[1:]):
        line, counted = line + text.count("\n", counted, start), start
        own = text[start:end].rstrip(" \t\n\r\f;")
        found.append(Query(own, line, [token._replace(at=token.at - start) for token in group]))
    return found


# ---- what tests say of columns


def kind_of(token):
    return {"number": NUMBER, "text": TEXT}.get(token.kind, EITHER)


def use_at(tokens, at):
    """What the test around the name at this place says of it, and the last place that it takes."""
    name, nothing = tokens[at].text, Token("end", "", 0)
    token = lambda place: tokens[place] if place < len(tokens) else nothing
    is_collated = token(at + 1).is_word("COLLATE")
    place = at + 3 if is_collated else at + 1
    if token(place).kind == "sign" and token(place).text in SIGNS:
        right, is_right = token(place + 1), token(place + 2).is_word("COLLATE")
        if right.kind == "name":
            return Use(name, EITHER, right.text, is_collated or is_right), place + 1
        return Use(name, kind_of(right), None, is_collated or is_right), place + 1
    if at > 1 and tokens[at - 1].text in SIGNS and kind_of(tokens[at - 2]) != EITHER:
        return Use(name, kind_of(tokens[at - 2]), None, is_collated), at
    place += token(place).is_word("NOT")
    if token(place).is_word("BETWEEN"):
        return Use(name, NUMBER), place
    if token(place).is_word("IN"):
        return Use(name, kind_of(token(place + 2)), None, is_collated), place
    return Use(name, EITHER, None, is_collated), at


def uses_in(query):
    """The columns that a query's tests name, with what each says of them."""
    tokens, at = query.condition(), 0
    while at < len(tokens):
        last = at
        if tokens[at].kind == "name":
            use, last = use_at(tokens, at)
            yield use
            if use.other is not None:
                yield Use(use.other, EITHER, use.name, use.is_collated)
        at = last + 1


def names_in(query):
    return [use.name for use in uses_in(query)]


def expressions_in(query):
    """The texts behind REGEXP."""
    pairs = zip(query.tokens, query.tokens[1:])
    return [token.text for word, token in pairs if word.is_word("REGEXP") and token.kind == "text"]


def spread(uses, names):
    """These names, and those that are compared with one of them by further tests."""
    pairs = [(folded(use.name), folded(use.other)) for use in uses if use.other is not None]
    names, grown = set(names), True
    while grown:
        more = {name for name, other in pairs if other in names}
        grown = not more <= names
        names |= more
    return names


class Columns(NamedTuple):
    """The columns that queries name, by their folded names, as they're first spelled; which are
    compared with numbers and which with texts; and what is wrong."""

    names: dict
    numbers: set
    texts: set
    faults: list


def columns_in(queries):
    """What queries say of columns. Two that are compared without a collation have numbers, as
    `convert` writes them, unless another test says that they have texts."""
    uses = [use for query in queries for use in uses_in(query)]
    names, spellings = {}, {}
    for use in uses:
        names.setdefault(folded(use.name), use.name)
        spellings.setdefault(folded(use.name), {})[use.name] = None
    as_text = {folded(use.name) for use in uses if use.what == TEXT or use.is_collated}
    as_number = {folded(use.name) for use in uses if use.what == NUMBER}
    texts = spread(uses, as_text)
    plain = {folded(use.name) for use in uses if use.other is not None} - texts
    numbers = spread(uses, as_number | plain)
    return Columns(names, numbers, texts, faults_in(names, spellings, numbers & texts))


def faults_in(names, spellings, both):
    """Names that are spelled in several ways, and columns of both kinds."""
    faults = []
    for name, spelled in spellings.items():
        if len(spelled) > 1:
            several = ", ".join(map(quoted, spelled))
            faults.append(f"column {several}: queries spell it in several ways, a key in one")
        if name in both:
            faults.append(f"column {quoted(names[name])}: queries compare it with numbers and with"
                          " texts; convert their rules under a schema")
    return faults
