#!/usr/bin/env python3
"""Runs `sigma` on inputs that are made to be large, deep or slow, and looks at each answer. Run by hand; it needs a built program.

    python3 bench/hostile.py PROGRAM [--bench BENCH] [--only WORD] [--repeat K] [--stack]

PROGRAM is the built program, as crates/sigma_app/out/sigma_app; BENCH is that of the crate `bench`, as crates/bench/out/bench, and without it the
inputs of queries alone are left out. For each input a row is printed: what it is, the bytes of its files, the answer, the processor's time in seconds
(the least of K runs) and the peak of memory in MiB (the most of them; less than some 8 MiB isn't told). The answer is the exit status and the first line
of what was written in the first run: of diagnostics, or else of the output, cut short. An input that is answered otherwise than its row wants is told, and the exit status
is then 1, as where `--only` finds none. With `--only` are run those whose name has the word. With `--stack` instead, the least limit of the stack is looked for with which the deepest
queries are still read and dropped.
"""
import argparse
import os
import re
import resource
import subprocess
import sys
import tempfile

import processes

MOST_BYTES = 1_048_576
HEAD = "title: T\nlogsource:\n  product: windows\ndetection:\n"
LETTERS = "abcdefghijklmnopqrstuvwxyz0123456789"
CONVERT = ["convert", "--backend", "sqlite"]


class Input:
    """Files by name, the words of a call and what stands on its standard input; the status that is wanted, and what the first line of its answer has to match. Its output is read, or
    it is `full`, `closed` or a `pipe` that nobody reads."""

    def __init__(self, name, files, words, status, line, given="", out=""):
        self.name, self.files, self.words, self.status, self.line, self.given, self.out = name, files, words, status, line, given, out


def names(count):
    """So many names of four letters and digits, the first of them a letter."""
    made = []
    for number in range(count):
        name, rest = "", number
        for _ in range(3):
            rest, digit = divmod(rest, len(LETTERS))
            name = LETTERS[digit] + name
        made.append(LETTERS[rest] + name)
    return made


def fitting(head, make, foot=""):
    """The head, so many of the pieces that `make` gives for a number as a file has room for, and the foot; and how many pieces these are."""
    pieces, left, number = [], MOST_BYTES - len(head.encode()) - len(foot.encode()), 0
    while True:
        piece = make(number)
        left -= len(piece.encode())
        if left < 0:
            return head + "".join(pieces) + foot, number
        pieces.append(piece)
        number += 1


def many_fields():
    """A rule of one detection with as many fields as a file has room for, and how many these are."""
    four = names(200_000)
    return fitting(f"{HEAD}  condition: a\n  a: {{", lambda n: f"{four[n]}: x,", "}\n")


def rule(detection, condition="a"):
    return f"{HEAD}{detection}  condition: {condition}\n"


def event(**values):
    return "{" + ",".join(f'"{name}":"{value}"' for name, value in values.items()) + "}\n"


# ---- shapes of one file of 1 MiB


def shapes():
    """Rules of which `check` keeps much for each byte."""
    four = names(200_000)
    fields, count = many_fields()
    yield Input(f"a detection of {count:,} fields with a letter each", {"r.yml": fields}, ["check", "r.yml"], 0, r"r\.yml:1:1: ok")
    words, count = fitting(f"{HEAD} condition: a\n a: [b]\n", lambda n: f" {four[n]}: [x]\n")
    yield Input(f"{count:,} detections of a keyword each", {"r.yml": words}, ["check", "r.yml"], 0, r"r\.yml:1:1: ok")
    single, count = fitting(f"{HEAD} condition: a\n a: {{b: c}}\n", lambda n: f" {four[n]}: {{a: }}\n")
    yield Input(f"{count:,} detections of a field each", {"r.yml": single}, ["check", "r.yml"], 0, r"r\.yml:1:1: ok")
    lists, count = fitting(f"{HEAD}  condition: a\n  a: {{", lambda n: f"{four[n]}: [x],", "}\n")
    yield Input(f"a detection of {count:,} fields with a list of a letter each", {"r.yml": lists}, ["check", "r.yml"], 0, r"r\.yml:1:1: ok")
    keys, count = fitting(rule("  a: b\n") + "x: {", lambda n: f"{four[n]}: x,", "}\n")
    yield Input(f"a flow map of {count:,} keys behind the rule", {"r.yml": keys}, ["check", "r.yml"], 0, r"r\.yml:1:1: ok")


def signs():
    """Files of one sign, which are no document, or one that is no rule."""
    for sign in [chr(code) for code in range(1, 128) if code != 13] + ["\r\n", "\x85", "\xa0", "ä", "€", "\ufeff", "😀"]:
        text = sign * (MOST_BYTES // len(sign.encode()))
        blank = sign in (" ", "\t", "\n", "\r\n", "#")
        wanted = (0, "") if blank else (1, r"r\.yml:[0-9]+:[0-9]+: [0-9]+ ")
        yield Input(f"1 MiB of {sign!a}", {"r.yml": text}, ["check", "r.yml"], *wanted)


# ---- rules that are converted


def conditions():
    many = "".join(f"  selection_name_{n:05}: {{A: b}}\n" for n in range(200))
    each = "".join(f"\n    - 1 of selection_name_{n:05}*" for n in range(200))
    yield Input("200 conditions `1 of selection_name_NNNNN*` over 200 detections", {"r.yml": rule(many, each)}, [*CONVERT, "r.yml"], 0, "SELECT ")
    many = "".join(f"  d{n:05}: {{A: b}}\n" for n in range(30_000))
    yield Input("30,000 times `1 of *` over 30,000 detections", {"r.yml": rule(many, " or ".join(["1 of *"] * 30_000))}, [*CONVERT, "r.yml"], 5, "")
    one = f"  a: {{A: {'x' * 8192}}}\n"
    yield Input("16,384 times a text of 8,192 characters", {"r.yml": rule(one, " or ".join(["a"] * 16_384))}, [*CONVERT, "r.yml"], 1, r"r\.yml:1:1: 114 ")
    fields, count = many_fields()
    yield Input(f"{count:,} names", {"r.yml": fields}, [*CONVERT, "r.yml"], 1, r"r\.yml:1:1: 110 ")
    value = (" -b" * 4 + "x" * 8192)[:8000]
    dashes = "  a:\n" + "".join(f"    F{n:02}|windash: '{value}'\n" for n in range(26))
    yield Input("26 values under `windash` of 8,000 characters with four dashes", {"r.yml": rule(dashes)}, [*CONVERT, "r.yml"], 1, r"r\.yml:1:1: 114 ")
    yield Input("parentheses and `not` to the limit", {"r.yml": rule("  a: {A: b}\n", "not (" * 128 + "a" + ")" * 128)}, [*CONVERT, "r.yml"], 0, "SELECT ")
    yield Input("one more than the limit", {"r.yml": rule("  a: {A: b}\n", "not (" * 128 + "not a" + ")" * 128)}, [*CONVERT, "r.yml"], 1, r"r\.yml:6:[0-9]+: 62 ")


# ---- pipelines


def pipelines():
    plain = rule("  a: {F: x}\n")
    asking = rule("  a: {'F|expand': '%p%'}\n")
    twice = rule("  a: {'F|expand': '%p%%p%'}\n")
    step = "  - {type: value_placeholders}\n"
    values = "vars:\n  p:\n" + "".join(f"    - value_{n:05}_{'x' * 40}\n" for n in range(7_500))
    steps = "transformations:\n" + step * 17_000 + values
    piped = [*CONVERT, "--pipeline", "p.yml", "r.yml"]
    yield Input("17,000 steps and 7,500 values, a rule without placeholders", {"p.yml": steps, "r.yml": plain}, piped, 0, "SELECT ")
    yield Input("17,000 steps and 7,500 values, a rule with a placeholder", {"p.yml": steps, "r.yml": asking}, piped, 0, "SELECT ")
    for length, wanted in ((100, (0, "SELECT ")), (128, (1, r"r\.yml:1:1: 114 ")), (1_000, (1, r"r\.yml:1:1: 99 ")), (4_000, (1, r"r\.yml:1:1: 99 "))):
        filled = "transformations:\n" + step + "vars:\n  p:\n" + "".join(f"    - '{n:03}{'x' * (length - 3)}'\n" for n in range(128))
        yield Input(f"two placeholders with 128 values of {length:,} characters each", {"p.yml": filled, "r.yml": twice}, piped, *wanted)
    filled = "transformations:\n" + step * 500 + "vars:\n  p:\n" + "".join(f"    - '{n:03}{'x' * 97}'\n" for n in range(128))
    yield Input("500 steps over such a rule of 16,384 tests, 100 characters", {"p.yml": filled, "r.yml": twice}, piped, 0, "SELECT ")
    targets = ", ".join(f"t{n}" for n in range(128))
    mapped = f"transformations:\n  - type: field_name_mapping\n    mapping:\n      F: [{targets}]\n"
    yield Input("a name with 128 targets", {"p.yml": mapped, "r.yml": plain}, piped, 0, "SELECT ")
    yield Input("a name with 128 targets, of each of which 128", {"p.yml": mapped + "  - type: field_name_mapping\n    mapping:\n" + "".join(
        f"      t{n}: [{', '.join(f't{n}u{m}' for m in range(128))}]\n" for n in range(128)), "r.yml": plain}, piped, 0, "SELECT ")
    yield Input("a name with 129 targets, of each of which 128", {"p.yml": mapped.replace("]", ", t128]") + "  - type: field_name_mapping\n    mapping:\n" + "".join(
        f"      t{n}: [{', '.join(f't{n}u{m}' for m in range(128))}]\n" for n in range(129)), "r.yml": plain}, piped, 1, r"r\.yml:1:1: 99 ")


# ---- regular expressions


def expressions():
    def with_one(text):
        return rule(f"  a: {{'F|re': '{text}'}}\n")

    run = ["run", "r.yml"]
    letters = "a" * 60_000
    yield Input("`(a*)*b` in 60,000 letters", {"r.yml": with_one("(a*)*b")}, run, 0, "", event(F=letters))
    yield Input("200 times `(a?){20}` in 1,000 letters", {"r.yml": with_one("(a?){20}" * 200)}, run, 0, r"\{", event(F="a" * 1_000))
    yield Input(r"`(\w{1,100}){1,100}`", {"r.yml": with_one(r"(\w{1,100}){1,100}")}, [*CONVERT, "r.yml"], 1, r"r\.yml:5:[0-9]+: 48 ")
    yield Input("an expression of 8,192 characters", {"r.yml": with_one("a" * 8_192)}, [*CONVERT, "r.yml"], 0, "SELECT ")
    many = rule("  a:\n    F|re:\n" + "".join(f"      - 'x{n}.y'\n" for n in range(4_096)))
    yield Input("4,096 expressions", {"r.yml": many}, [*CONVERT, "r.yml"], 0, "SELECT ")
    yield Input("4,096 expressions, over an event", {"r.yml": many}, run, 0, r"\{", event(F="x4095-y"))


# ---- words


def words():
    one = {"r.yml": rule("  a: b\n")}
    yield Input("a word that isn't UTF-8", one, ["check", "r.yml", "\udcff"], 2, "sigma: bad usage")
    yield Input("100,000 words", one, ["check", *["r.yml"] * 100_000], 0, r"r\.yml:1:1: ok")
    yield Input("no words", {}, [], 2, "sigma: bad usage")
    yield Input("a word of 120,000 letters", one, ["check", "x" * 120_000], 3, r"sigma: cannot read x+")
    yield Input("a file that isn't there", {}, ["check", "r.yml"], 3, "sigma: cannot read r.yml")
    yield Input("a folder in place of a file", {}, ["check", "."], 3, r"sigma: cannot read \.")
    yield Input("standard output full", one, ["check", "r.yml"], 4, "", out="full")
    yield Input("standard output closed", one, ["check", "r.yml"], 4, "", out="closed")
    yield Input("standard output a pipe that nobody reads", one, ["check", "r.yml"], 4, "", out="pipe")


# ---- events


def events():
    keyed = rule("  a: {'F|contains': x}\n")
    run = ["run", "r.yml"]
    deep = '{"F":' + "[" * 32_000 + "]" * 32_000 + "}\n"
    yield Input("an event of 64,000 brackets", {"r.yml": keyed}, run, 1, r"events:1: [0-9]+ ", deep)
    yield Input("an event line of 70,000 bytes, and one behind it", {"r.yml": keyed}, run, 1, r"events:1: 30 ", event(F="y" * 70_000) + event(F="x"))
    wild = rule(f"  a: {{F: '{'*a' * 4_000}b'}}\n")
    yield Input("4,000 times `*a` and a `b` against 60,000 letters", {"r.yml": wild}, run, 0, "", event(F="a" * 60_000))
    few = rule(f"  a: {{F: '*{'a' * 8_000}b'}}\n")
    yield Input("`*`, 8,000 letters and a `b` against 60,000 letters", {"r.yml": few}, run, 0, "", event(F="a" * 60_000))


# ---- queries, by the program of the crate `bench`

SELECT = 'SELECT*FROM"t"WHERE'
UNIT_94 = "(" + " OR ".join(["0"] * 94) + ")"
GROUPS_94 = "(" + " OR ".join([UNIT_94] * 94) + ")"
SIXTY = "(" + "OR".join(['"a"REGEXP\'x\''] * 60) + ")"
SIXTY_FOUR = "(" + "OR".join(['"a"REGEXP\'x\''] * 64) + ")"


def queries():
    for sign in "()'\"[*a0 ;%-<":
        yield Input(f"SQL, 4,194,304 times {sign!a}", {}, ["sql", "", sign, "4194304", "", ""], 0, r"[0-9]+:[0-9]+: (120|121|124)")
    yield Input("SQL, 1,000,000 times NOT", {}, ["sql", SELECT + " ", "NOT ", "1000000", "1", ""], 0, r"[0-9]+:[0-9]+: 124")
    yield Input("SQL, 1,000,000 parentheses", {}, ["sql", SELECT, "(", "1000000", "1", ")"], 0, r"[0-9]+:[0-9]+: 124")
    yield Input("SQL, a list of 1,000,000 texts", {}, ["sql", f"{SELECT}\"a\"IN(''", ",'x'", "1000000", ")", ""], 0, "read")
    yield Input("SQL, a name of 1,000,000 letters", {}, ["sql", SELECT + '"', "a", "1000000", '"IS NULL', ""], 0, r"[0-9]+:[0-9]+: 122")
    yield Input("SQL, a text of 4,000,000 letters", {}, ["sql", SELECT + "\"a\"='", "a", "4000000", "'", ""], 0, "read")
    yield Input("SQL, 812,912 times `0`: 92 groups of 94 groups of 94", {}, ["sql", SELECT + " 0", " OR " + GROUPS_94, "92", "", ""], 0, "read")
    yield Input("SQL, 216,000 times `\"a\"REGEXP'x'`: 60 groups of 60 groups of 60", {}, ["sql", SELECT + " 0 ", "OR(" + "OR".join([SIXTY] * 60) + ")", "60", "", ""], 0, "read")
    yield Input("SQL, 290,816 times: 71 groups of 64 groups of 64", {}, ["sql", SELECT + " 0 ", "OR(" + "OR".join([SIXTY_FOUR] * 64) + ")", "71", "", ""], 0, "read")
    yield Input(r"SQL, 200 times `\pL{100}`", {}, ["sql", SELECT + " 0", " OR\"a\"REGEXP'\\pL{100}'", "200", "", ""], 0, "read")
    for sign in "()[:*~\"\\a0 ":
        yield Input(f"Lucene, 4,000,000 times {sign!a}", {}, ["lucene", sign, "4000000", "1"], 0, r"[0-9]+:[0-9]+: [0-9]+")
    for name, unit, count, fields in (("`(a:x) AND `", "(a:x) AND ", 400_000, 1), ("`a:x OR `", "a:x OR ", 590_000, 1), ("`a:x OR ` with 512 fields", "a:x OR ", 590_000, 512),
                                      ("`b:x OR ` with 512 fields", "b:x OR ", 590_000, 512), ("`NOT `", "NOT ", 1_000_000, 1), ("`(`", "(", 1_000_000, 1), ("`a:`", "a:", 1_000_000, 1),
                                      ("`b`", "b", 1_000_000, 1)):
        yield Input(f"Lucene, {count:,} times {name}", {}, ["lucene", unit, str(count), str(fields)], 0, r"[0-9]+:[0-9]+: [0-9]+")


DEEPEST = [
    ("1,000 parentheses", ["sql", SELECT, "(", "1000", "1", ")"]),
    ("998 times AND in parentheses", ["sql", SELECT, "(\"a\"='x'AND", "998", " 1", ")"]),
    ("998 times OR in parentheses", ["sql", SELECT, "(\"a\"='x'OR", "998", " 1", ")"]),
    ("998 times NOT in parentheses", ["sql", SELECT, "(NOT", "998", " 1", ")"]),
]

# ---- runs

def first_line(out, err):
    text = (err or out).split(b"\n", 1)[0].decode("utf-8", "replace")
    return text if len(text) < 60 else text[:57] + ".."


def row(program, entry, repeat, quiet=False):
    """Prints the row of an input, if it isn't to be quiet or was answered otherwise than is wanted; whether it was so, its seconds and its peak."""
    with tempfile.TemporaryDirectory() as folder:
        size = 0
        for name, content in {**entry.files, "given": entry.given}.items():
            with open(os.path.join(folder, name), "w", encoding="utf-8", newline="") as file:
                file.write(content)
            size += os.path.getsize(os.path.join(folder, name))
        runs = [processes.run([program, *entry.words], folder, os.path.join(folder, "given"), entry.out) for _ in range(repeat)]
    status, line = runs[0].status, first_line(runs[0].out, runs[0].err)
    well = status == entry.status and (re.match(entry.line, line) if entry.line else not line)
    seconds, peak = min(ran.processor for ran in runs), max(ran.peak for ran in runs)
    if not quiet or not well:
        show(entry.name, f"{size:,}", f"{status} {line}", seconds, peak, "" if well else f"   WANTED {entry.status} {entry.line}")
    return bool(well), seconds, peak


def show(name, size, answer, seconds, peak, told=""):
    print(f"{name:66} {size:>10} {answer:62} {seconds:>8.3f} {peak:>8.0f}{told}", flush=True)


def reads_within(bench, words, kib):
    """Whether a query is read and dropped with a stack of so many KiB."""
    def limit():
        resource.setrlimit(resource.RLIMIT_STACK, (kib * 1024, kib * 1024))

    done = subprocess.run([bench, *words], preexec_fn=limit, capture_output=True, check=False)
    return done.returncode == 0 and done.stdout.startswith(b"read")


def show_stack(bench):
    """The least stack for each of the deepest queries, to 16 KiB."""
    for name, words in DEEPEST:
        low, high = 64, 65_536
        if not reads_within(bench, words, high):
            print(f"{name}: not read with {high} KiB")
            continue
        while high - low > 16:
            middle = (low + high) // 2
            if reads_within(bench, words, middle):
                high = middle
            else:
                low = middle
        print(f"{name}: {high} KiB")


def main():
    options = argparse.ArgumentParser()
    options.add_argument("program")
    options.add_argument("--bench")
    options.add_argument("--only", default="")
    options.add_argument("--repeat", type=int, default=1)
    options.add_argument("--stack", action="store_true")
    told = options.parse_args()
    if told.stack:
        if not told.bench:
            sys.exit("--stack needs --bench")
        show_stack(os.path.abspath(told.bench))
        return 0
    groups = [(told.program, shapes), (told.program, signs), (told.program, conditions), (told.program, pipelines), (told.program, expressions), (told.program, words), (told.program, events)]
    groups += [(told.bench, queries)] if told.bench else []
    tried = wrong = 0
    for program, make in groups:
        quiet, rows = make is signs and not told.only, []
        for entry in make():
            if told.only in entry.name:
                rows.append(row(os.path.abspath(program), entry, told.repeat, quiet))
        if quiet:
            show(f"1 MiB of one sign, {len(rows)} signs, each at most", "1,048,576", "", max(seconds for _, seconds, _ in rows), max(peak for _, _, peak in rows))
        tried, wrong = tried + len(rows), wrong + sum(not well for well, _, _ in rows)
    print(f"{tried} inputs, {wrong} answered otherwise")
    return 1 if wrong or not tried else 0


if __name__ == "__main__":
    sys.exit(main())
