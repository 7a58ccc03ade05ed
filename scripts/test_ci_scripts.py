"""Tries the scripts for CI over what the program has written, as the pages and examples show it.

    python3 -m unittest discover -s scripts
"""
import json
import os
import subprocess
import sys
import tempfile
import unittest
from pathlib import Path

sys.path.insert(0, os.path.dirname(os.path.abspath(__file__)))
import explain
import sarif
import split
from diagnostics import refusal

TOP = Path(__file__).resolve().parent.parent
EXAMPLES = TOP / "examples"
CODES = explain.codes()
# The page's lines of diagnostics, and one of each other kind.
LINES = """rules/a.yml:1:1: ok
rules/b.yml:1:1: ok
rules/b.yml:9:1: ok
r.yml:6:5: 40 UnknownModifier regex
r.yml:6:5: 41 ChainNotAllowed
examples/linux_kernel_keywords.yml:13:11: 83 NoSearchField
events:6: 26 EventKind
sigma: cannot read rules/f.yml
"""
# Answers a rule of the examples with the query beside it, and that with a keyword as README shows.
PROGRAM = f"""#!{sys.executable}
import sys
from pathlib import Path
examples, file = Path({str(EXAMPLES)!r}), sys.argv[-1]
text = Path(file).read_text()
for rule in examples.glob("*.yml"):
    if rule.read_text().strip() == text.strip():
        if rule.stem == "linux_kernel_keywords":
            first = next(n for n, it in enumerate(text.split("\\n"), 1) if it)
            print(f"{{file}}:{{12 + first}}:11: 83 NoSearchField", file=sys.stderr)
            sys.exit(1)
        ending = "sql" if "sqlite" in sys.argv else "lucene"
        sys.stdout.write(rule.with_suffix(f".{{ending}}").read_text())
        sys.exit(0)
sys.exit(3)
"""


class Diagnostics(unittest.TestCase):
    def test_lines_of_the_page_are_read(self):
        page = (TOP / "docs/FORMAT.md").read_text()
        shown = explain.re.findall(r"\| `([a-z]\.yml:\d+:\d+: \d+ [^`]*)` \|", page)
        self.assertGreater(len(shown), 60)
        for line in shown:
            said = refusal(line, CODES)
            self.assertEqual(line.split()[1:3], [str(said.code), said.name])

    def test_colons_in_names_and_messages(self):
        said = refusal("a:1:2: 3 b.yml:1:5: 4 Syntax", CODES)
        self.assertEqual((said.file, said.line, said.code), ("a:1:2: 3 b.yml", 1, 4))
        said = refusal("r.yml:1:1: 95 RuleFailure see x:1:2: 4 Syntax", CODES)
        self.assertEqual((said.file, said.detail), ("r.yml", "see x:1:2: 4 Syntax"))
        self.assertIsNone(refusal('SELECT * FROM "events" WHERE 1', CODES))


class Explain(unittest.TestCase):
    def test_the_page_agrees_with_the_program_and_format(self):
        self.assertEqual(list(explain.faults()), [])

    def test_a_page_that_does_not_agree_is_told(self):
        text = (TOP / "docs/CODES.md").read_text()
        was = explain.PAGE, explain.codes.__defaults__
        self.addCleanup(setattr, explain.codes, "__defaults__", was[1])
        edits = ("41 ChainNotAllowed", "41 Chain"), ("### 84", "### 85"), ("id: 7", "id: 8")
        for old, new in edits:
            with tempfile.TemporaryDirectory() as room:
                page = Path(room, "CODES.md")
                page.write_text(text.replace(old, new))
                explain.codes.__defaults__ = (page,)
                self.assertNotEqual(list(explain.faults()), [], new)


class Sarif(unittest.TestCase):
    def test_each_refusal_is_a_result_of_its_rule(self):
        log, others = sarif.log_of(LINES.split("\n"), CODES, "x y.jsonl")
        run = log["runs"][0]
        rules = run["tool"]["driver"]["rules"]
        self.assertEqual((log["version"], others), ("2.1.0", []))
        self.assertEqual([it["ruleId"] for it in run["results"]], ["40", "41", "83", "26"])
        for it in run["results"]:
            self.assertEqual(rules[it["ruleIndex"]]["id"], it["ruleId"])
        first = run["results"][0]
        self.assertTrue(first["message"]["text"].startswith("UnknownModifier regex: "))
        place = first["locations"][0]["physicalLocation"]
        self.assertEqual(place["region"], {"startLine": 6, "startColumn": 5})
        event = run["results"][-1]["locations"][0]["physicalLocation"]
        self.assertEqual(event["artifactLocation"]["uri"], "x%20y.jsonl")
        self.assertEqual(event["region"], {"startLine": 6})
        self.assertFalse(run["invocations"][0]["executionSuccessful"])

    def test_what_is_no_diagnostic_is_told(self):
        script = TOP / "scripts/sarif.py"
        done = subprocess.run([script], input="a query\n", text=True, capture_output=True)
        self.assertEqual((done.returncode, json.loads(done.stdout)["runs"][0]["results"]), (1, []))
        self.assertIn("a query", done.stderr)


class Summary(unittest.TestCase):
    def test_rules_are_counted_by_answer(self):
        script, query = TOP / "scripts/summary.py", (EXAMPLES / "cmd.sql").read_text()
        done = subprocess.run([script], input=LINES + query, text=True, capture_output=True)
        rows = [it.split()[:4] for it in done.stdout.splitlines()]
        self.assertEqual(done.returncode, 0)
        self.assertEqual(rows[1:3], [["3", "2", "ok"], ["1", "-", "query"]])
        self.assertEqual(rows[3][2:], ["26", "EventKind"])
        self.assertEqual(rows[-2:], [["-", "1", "cannot", "read"], ["8", "6", "all"]])


class Split(unittest.TestCase):
    def setUp(self):
        self.room = tempfile.TemporaryDirectory(prefix="sigma-test-")
        self.addCleanup(self.room.cleanup)
        self.here = Path(self.room.name)
        self.program = self.here / "program"
        self.program.write_text(PROGRAM)
        self.program.chmod(0o755)
        for name, at in (("cmd", "a"), ("windows_run_key", "b/c"), ("linux_kernel_keywords", "b")):
            folder = self.here / "rules" / at
            folder.mkdir(parents=True, exist_ok=True)
            (folder / f"{name}.yml").write_text((EXAMPLES / f"{name}.yml").read_text())

    def split(self, *words):
        """The exit status, what is written on each stream, and the queries by their files."""
        script = [TOP / "scripts/split.py", "--program", self.program, *words]
        done = subprocess.run(script, cwd=self.here, text=True, capture_output=True)
        out = self.here / "out"
        found = {str(it.relative_to(out)): it.read_text() for it in out.rglob("*") if it.is_file()}
        return done.returncode, done.stdout, done.stderr, found

    def rules(self):
        return sorted(str(it.relative_to(self.here)) for it in self.here.glob("rules/**/*.yml"))

    def query(self, name):
        return (EXAMPLES / name).read_text()

    def test_each_query_has_its_file(self):
        status, out, err, found = self.split("--backend", "sqlite", "out", *self.rules())
        self.assertEqual(err, "rules/b/linux_kernel_keywords.yml:13:11: 83 NoSearchField\n")
        self.assertEqual((status, out), (1, "2 queries in out, 2 files changed, 1 without\n"))
        want = {"a/cmd.sql": "cmd.sql", "b/c/windows_run_key.sql": "windows_run_key.sql"}
        self.assertEqual(found, {name: self.query(it) for name, it in want.items()})

    def test_documents_of_one_file_are_parted(self):
        texts = [(EXAMPLES / f"{it}.yml").read_text() for it in ("cmd", "linux_kernel_keywords")]
        (self.here / "both.yml").write_text("# none\n---\n" + "--- # next\n".join(texts))
        status, _, err, found = self.split("--backend", "lucene", "out", "both.yml")
        first = len(texts[0].splitlines()) + 4
        self.assertEqual((status, found), (1, {"both.1.lucene": self.query("cmd.lucene")}))
        self.assertEqual(err, f"both.yml:{12 + first}:11: 83 NoSearchField\n")

    def test_a_second_run_touches_what_changed_alone(self):
        self.split("--backend", "sqlite", "out", *self.rules())
        kept = self.here / "out/a/cmd.sql"
        was = kept.stat().st_mtime_ns
        keywords = EXAMPLES / "linux_kernel_keywords.yml"
        (self.here / "rules/b/c/windows_run_key.yml").write_text(keywords.read_text())
        _, out, _, found = self.split("--backend", "sqlite", "out", *self.rules())
        self.assertEqual(out, "1 queries in out, 1 files changed, 2 without\n")
        self.assertEqual((list(found), kept.stat().st_mtime_ns), (["a/cmd.sql"], was))

    def test_two_rules_for_one_file_are_refused(self):
        other = self.here / "rules/a/cmd.yaml"
        other.write_text((EXAMPLES / "cmd.yml").read_text())
        words = ["--backend", "sqlite", "out", "rules/a/cmd.yml", "rules/a/cmd.yaml"]
        self.assertEqual(self.split(*words)[0], 2)

    def test_parting_lines(self):
        for line in ("---", "--- ", "---\t# x", "---\r", "--- #"):
            self.assertEqual(len(split.documents(f"a: 1\n{line}\nb: 2\n")), 2, line)
        for line in ("--- a", "---#", "----", " ---", "..."):
            self.assertEqual(len(split.documents(f"a: 1\n{line}\nb: 2\n")), 1, line)


if __name__ == "__main__":
    unittest.main()
