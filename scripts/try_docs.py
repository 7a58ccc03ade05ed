#!/usr/bin/env python3
"""Tries what the documents show: runs their examples by a built program, and compares what it writes.

    try_docs.py PROGRAM

PROGRAM is the built program, as crates/sigma_app/out/sigma_app. It tries
- each example of README.md and docs/ that begins with `$ ./sigma`, where `..` stands for anything and `(cut ..)` isn't shown,
- the table of lines in docs/FORMAT.md, each example that is given as lines of the page's own rule,
- the table there of what an item becomes in a query,
- the table in docs/LUCENE.md of what its language leaves out, each query under the schema that the page says,
- the rules of examples/ with the queries beside them, under the schema and the pipelines beside them.
It prints what differs, and how many were tried and how many are told in words and so aren't; the exit status is 1 where something differs.
"""
import os
import re
import subprocess
import sys
import tempfile

TOP = os.path.dirname(os.path.dirname(os.path.abspath(__file__)))
RULE = ["title: T", "logsource:", "  category: process_creation", "detection:", "  selection:", "    Image: cmd.exe", "  condition: selection"]
INDENT = {5: "  ", 6: "    ", 7: "  ", 3: "  "}


def read(path):
    with open(f"{TOP}/{path}", encoding="utf-8") as it:
        return it.read()


def ran(program, words, folder, given=b""):
    done = subprocess.run([program, *words], cwd=folder, input=given, capture_output=True)
    return done.stdout.decode("utf-8", "replace"), done.stderr.decode("utf-8", "replace")


def cells(line):
    """The cells of a row of a table, without the backslashes before its bars."""
    return [it.strip().replace("\\|", "|") for it in re.split(r"(?<!\\)\|", line.strip())[1:-1]]


def table(text, head):
    """The rows of the tables with this head."""
    found, inside = [], False
    for line in text.split("\n"):
        if line.startswith(head):
            inside = True
        elif not line.startswith("|"):
            inside = False
        elif inside and not line.startswith("|---"):
            found.append(cells(line))
    return found


def edited(example):
    """The page's rule with the lines that an example gives, or None where it is told in words."""
    lines = {at + 1: [text] for at, text in enumerate(RULE)}
    left = re.sub(r"^in Lucene,? ", "", example)
    while left:
        found = re.match(r"(behind )?(\d+): ((?:`[^`]*`)(?: and `[^`]*`)*)(?:, |$)", left)
        if found:
            at, texts = int(found[2]), re.findall(r"`([^`]*)`", found[3])
            if found[1]:
                if at not in lines:
                    return None
                lines[at] += texts
            else:
                if len(texts) > 1 or "`" in found[3][1:-1]:
                    return None
                more = at == 7 and not texts[0].startswith("condition")
                text = texts[0] if texts[0].startswith(" ") or at in (1, 2, 4) else ("    " if more else INDENT.get(at, "")) + texts[0]
                lines[at] = [text] + (lines[at] if more else [])
        else:
            found = re.match(r"without line (\d+)(?:, |$)", left)
            if not found:
                return None
            lines[int(found[1])] = []
        left = left[found.end():]
    return "\n".join(text for at in sorted(lines) for text in lines[at]) + "\n"


def query_of(program, folder, backend, rule):
    with open(f"{folder}/r.yml", "w", encoding="utf-8") as it:
        it.write(rule)
    return ran(program, ["convert", "--backend", backend, "r.yml"], folder)


class Trial:
    def __init__(self):
        self.tried, self.told, self.wrong = 0, 0, 0

    def compare(self, where, want, got):
        self.tried += 1
        form = ".*".join(re.escape(it) for it in want.split(".."))
        if not re.fullmatch(form, got, re.DOTALL):
            self.wrong += 1
            print(f"{where}: shown\n    {want}\nand written\n    {got}")


def shown_commands(trial, program):
    for path in ["README.md"] + sorted(f"docs/{it}" for it in os.listdir(f"{TOP}/docs") if it.endswith(".md")):
        for block in re.findall(r"((?:^    .*\n)+)", read(path), re.MULTILINE):
            lines = [line[4:] for line in block.rstrip("\n").split("\n")]
            if not lines[0].startswith("$ ./sigma "):
                continue
            words, _, given = lines[0][len("$ ./sigma "):].partition(" < ")
            names = [word for word in words.split() if "." in word and not word.startswith("-")]
            if not all(os.path.exists(f"{TOP}/{name}") for name in names):
                trial.told += 1
                continue
            # what the launcher answers itself needs no program
            asked = f"{TOP}/sigma" if words.startswith("--explain") else program
            out, err = ran(asked, words.split(), TOP, read(given).encode() if given else b"")
            trial.compare(f"{path}: {lines[0]}", "\n".join(lines[1:]), (out + err).rstrip("\n"))


def shown_lines(trial, program, folder):
    for code, where, example, line in table(read("docs/FORMAT.md"), "| Code | Comes where"):
        rule = edited(example)
        if rule is None or "under a schema" in where:
            trial.told += 1
            continue
        with open(f"{folder}/r.yml", "w", encoding="utf-8") as it:
            it.write(rule)
        words = ["run", "r.yml"] if "under `run`" in where else ["convert", "--backend", "lucene" if "in Lucene" in where else "sqlite", "r.yml"]
        trial.compare(f"docs/FORMAT.md: code {code}: {example}", line.strip("`"), ran(program, words, folder)[1].rstrip("\n"))


def shown_items(trial, program, folder):
    for row in table(read("docs/FORMAT.md"), "| Item | In the query |"):
        item, query = row[:2]
        if not re.fullmatch(r"`[^`]*`", item) or not query.startswith("`"):
            trial.told += 1
            continue
        shown = 'SELECT * FROM "events" WHERE ' + query[1:query.index("`", 1)]
        rule = "\n".join([*RULE[:5], "    " + item.strip("`"), RULE[6]]) + "\n"
        trial.compare(f"docs/FORMAT.md: {item}", shown, query_of(program, folder, "sqlite", rule)[0].rstrip("\n"))


def shown_left_out(trial, program, folder):
    with open(f"{folder}/s.json", "w", encoding="utf-8") as it:
        it.write('{"fields":[{"name":"f","kind":"text"},{"name":"g","kind":"text"},{"name":"n","kind":"whole"}]}')
    for _, queries, line in table(read("docs/LUCENE.md"), "| Left out | Query |"):
        for query in re.findall("`([^`]*)`", queries):
            with open(f"{folder}/q", "w", encoding="utf-8") as it:
                it.write(query)
            words = ["query", "--backend", "lucene", "--schema", "s.json", "q"]
            trial.compare(f"docs/LUCENE.md: {query}", line.strip("`"), ran(program, words, folder)[1].rstrip("\n"))


def shown_examples(trial, program):
    names = sorted(it[:-4] for it in os.listdir(f"{TOP}/examples") if it.endswith(".yml") and not it.endswith(".pipeline.yml"))
    for name in names:
        given = [("--schema", f"examples/{name}.json"), ("--pipeline", f"examples/{name}.pipeline.yml")]
        options = [word for option, path in given if os.path.exists(f"{TOP}/{path}") for word in (option, path)]
        for backend, ending in [("sqlite", "sql"), ("lucene", "lucene")]:
            if os.path.exists(f"{TOP}/examples/{name}.{ending}"):
                out, _ = ran(program, ["convert", "--backend", backend, *options, f"examples/{name}.yml"], TOP)
                trial.compare(f"examples/{name}.{ending}", read(f"examples/{name}.{ending}").replace("..", "\0"), out.replace("..", "\0"))


def main():
    if len(sys.argv) != 2:
        sys.exit("usage: try_docs.py PROGRAM")
    program, trial = os.path.abspath(sys.argv[1]), Trial()
    with tempfile.TemporaryDirectory() as folder:
        shown_commands(trial, program)
        shown_lines(trial, program, folder)
        shown_items(trial, program, folder)
        shown_left_out(trial, program, folder)
        shown_examples(trial, program)
    print(f"{trial.tried} tried, {trial.wrong} differ, {trial.told} told in words")
    return 1 if trial.wrong else 0


if __name__ == "__main__":
    sys.exit(main())
