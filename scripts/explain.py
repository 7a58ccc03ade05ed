#!/usr/bin/env python3
"""Says what a code of a refusal means, from the page docs/CODES.md.

    explain.py            lists the codes with their names
    explain.py CODE..     what each says, an example and what to do; a name may stand for its code
    explain.py --check    says where the page differs from the program's names of codes, or has an
                          example that docs/FORMAT.md hasn't; then the exit status is 1

The page has a heading `### CODE NAME` for each. Below it stand what the code says, perhaps lines of
an example, and from `What to do: ` on what to do.
"""
import re
import sys
from pathlib import Path
from typing import NamedTuple

TOP = Path(__file__).resolve().parent.parent
PAGE = TOP / "docs/CODES.md"
NAMES = TOP / "crates/sig_base/specs/Codes.antt"


class Code(NamedTuple):
    number: int
    name: str
    text: str

    def parts(self):
        """The paragraphs that don't belong to the example, each on one line."""
        blocks = re.sub(r"(?m)^    .*\n", "", self.text).split("\n\n")
        return [" ".join(it.split()) for it in blocks if it.strip()]

    def says(self):
        return self.parts()[0]

    def to_do(self):
        return self.parts()[-1].removeprefix("What to do: ")

    def example(self):
        return re.findall(r"(?m)^    (.*)$", self.text)


def codes(page=PAGE):
    """The codes of the page, by their numbers."""
    text = re.sub(r"(?m)^## .*\n", "", page.read_text(encoding="utf-8"))
    found = re.findall(r"(?ms)^### (\d+) (\w+)\n(.*?)(?=^### |\Z)", text)
    return {int(number): Code(int(number), name, text) for number, name, text in found}


def named(word, table):
    """The code that a word of the command line names, or None."""
    for it in table.values():
        if word == str(it.number) or word.lower() == it.name.lower():
            return it
    return None


def shown(code):
    lines = [it for it in code.text.split("\n") if it]
    return "\n".join([f"{code.number} {code.name}", *lines]) + "\n"


def listed(table):
    return "".join(f"{it.number:>3} {it.name:<20} {it.says()}\n" for it in table.values())


def program_names():
    """The names that the program is proved to have, by their numbers."""
    rows = re.findall(r'\((\d+), codes "(\w+)"\)', NAMES.read_text(encoding="utf-8"))
    return {int(number): name for number, name in rows}


def never_told():
    """The codes that the program has names for and that docs/FORMAT.md says it never writes."""
    text = (TOP / "docs/FORMAT.md").read_text(encoding="utf-8")
    said = re.search(r"table of codes has names for (.*?), which it never", text)
    spans = re.findall(r"(\d+)(?: to (\d+))?", said[1]) if said else []
    return {number for low, high in spans for number in range(int(low), int(high or low) + 1)}


def examples_of_format():
    """The cells of the table of lines in docs/FORMAT.md, by their codes."""
    text = (TOP / "docs/FORMAT.md").read_text(encoding="utf-8")
    rows = re.findall(r"(?m)^\| (\d+) \|.*\|$", text)
    cells = {int(number): "" for number in rows}
    for number, row in re.findall(r"(?m)^\| (\d+) (\|.*\|)$", text):
        cells[int(number)] += row.replace("\\|", "|")
    return cells


def faults():
    """What is wrong with the page, a line each."""
    table, names, cells = codes(), program_names(), examples_of_format()
    for number in sorted((names.keys() - never_told()) ^ table.keys()):
        yield f"code {number} stands {'in the page' if number in table else 'in the program'} alone"
    for it in table.values():
        if it.number in names and names[it.number] != it.name:
            yield f"the program calls {it.number} {names[it.number]}, and the page {it.name}"
        if not it.parts()[-1].startswith("What to do: "):
            yield f"{it.number} doesn't say what to do"
        for line in it.example():
            if it.number in cells and line not in cells[it.number]:
                yield f"docs/FORMAT.md has no example {line!r} of {it.number}"


def main(words):
    if words == ["--check"]:
        found = list(faults())
        print(*found, sep="\n", end="\n" if found else "")
        return 1 if found else 0
    table = codes()
    if not words:
        print(listed(table), end="")
        return 0
    found = [(word, named(word, table)) for word in words]
    for word, code in found:
        if code is None:
            print(f"sigma: {word} is no code; sigma --explain lists them", file=sys.stderr)
            return 2
    print("\n".join(shown(code) for _, code in found), end="")
    return 0


if __name__ == "__main__":
    sys.exit(main(sys.argv[1:]))
