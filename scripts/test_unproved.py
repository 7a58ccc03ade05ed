"""Tries scripts/unproved.py with a stand-in for `rt try`, which runs a small program in a folder.

    python3 -m unittest discover -s scripts
"""
import os
import shutil
import subprocess
import sys
import tempfile
import unittest
from pathlib import Path

SCRIPT = Path(__file__).resolve().parent / "unproved.py"
CRATE = SCRIPT.parent.parent / "crates/sigma_app"
# As rt's: files that arguments name below the crate's folder are handed over, and those of --data.
RT = """#!/usr/bin/env python3
import os, subprocess, sys, tempfile
at = sys.argv.index("--")
flags, words, data = sys.argv[2:at], sys.argv[at + 1:], {}
own = ("", "..", "program", "stdin", "stdout", "stderr")
for it in map(os.path.normpath, words):
    if it.split("/")[0] not in own and "=" not in it and os.path.isfile(it):
        data[it] = it
for flag, word in zip(flags[::2], flags[1::2]):
    if flag == "--data":
        name, _, file = word.partition("=")
        assert name.split("/")[0] not in own and ".." not in name.split("/"), name
        data[name] = file
with tempfile.TemporaryDirectory() as room:
    for name, file in data.items():
        os.makedirs(os.path.dirname(f"{room}/{name}"), exist_ok=True)
        with open(file, "rb") as one, open(f"{room}/{name}", "wb") as other:
            other.write(one.read())
    program = os.path.join(os.path.dirname(os.path.abspath(__file__)), "program")
    ran = subprocess.run([sys.executable, program, *words], cwd=room, capture_output=True)
sys.stdout.buffer.write(ran.stdout)
sys.stderr.buffer.write(ran.stderr)
if ran.returncode == 99:
    print("checked: no-answer: it wrote 1 MiB or more\\nrun=no-answer proved=no", file=sys.stderr)
    sys.exit(6)
last = f"checked: ended status={ran.returncode}\\nrun=ended status={ran.returncode} proved=no"
print(last, file=sys.stderr)
sys.exit(ran.returncode)
"""
# Says of each file what it has, and which can't be read, in the program's forms; then the events.
PROGRAM = """import sys
files, words = [], sys.argv[2:]
for word in words:
    if word not in ("--", "--backend", "sqlite", "--schema"):
        files.append(word.partition("=")[2] if word.startswith("--schema=") else word)
status = 0
for file in files:
    try:
        text = open(file).read()
    except OSError:
        sys.exit(print(f"sigma: cannot read {file}", file=sys.stderr) or 3)
    if text == "much":
        sys.exit(99)
    if text == "bad":
        print(f"{file}:1:1: 4 Syntax", file=sys.stderr)
        status = 1
    elif sys.argv[1] == "check":
        print(f"{file}:1:1: ok")
    else:
        print("query of", text)
sys.stdout.write(sys.stdin.read())
sys.exit(status)
"""


class Unproved(unittest.TestCase):
    def setUp(self):
        self.room = Path(tempfile.mkdtemp(prefix="sigma-test-"))
        self.addCleanup(shutil.rmtree, self.room)
        (self.room / "bin").mkdir()
        (self.room / "bin/rt").write_text(RT)
        (self.room / "bin/rt").chmod(0o755)
        (self.room / "bin/program").write_text(PROGRAM)
        self.here = self.room / "here"
        (self.here / "rules").mkdir(parents=True)

    def write(self, name, text):
        (self.here / name).write_text(text)

    def ask(self, *words, given=""):
        """The exit status, what is written, and the lines on standard error after the first."""
        path = f"{self.room}/bin:{os.environ['PATH']}"
        how = {"cwd": self.here, "env": {**os.environ, "PATH": path}, "capture_output": True}
        done = subprocess.run([SCRIPT, *words], input=given, text=True, **how)
        first, *others = done.stderr.splitlines()
        self.assertIn("isn't proved", first)
        return done.returncode, done.stdout, others

    def test_files_are_found_by_the_names_that_were_given(self):
        names = ["a.yml", "./a.yml", "rules/ü b.yml", "x=1.yml", "program", "./program"]
        names += ["../up.yml", "rules/../a.yml", f"{self.here}/a.yml", "sqlite"]
        for name in names:
            self.write(name, "good")
        names.remove("sqlite")
        status, out, others = self.ask("check", *names)
        self.assertEqual((status, others), (0, []))
        self.assertEqual(out, "".join(f"{it}:1:1: ok\n" for it in names))

    def test_diagnostics_bear_the_names_that_were_given(self):
        self.write("../up.yml", "bad")
        self.assertEqual(self.ask("check", "../up.yml"), (1, "", ["../up.yml:1:1: 4 Syntax"]))

    def test_options_name_files_too(self):
        self.write("../s.json", "schema")
        self.write("a.yml", "rule")
        for words in (["--schema=../s.json"], ["--schema", "../s.json"]):
            done = self.ask("convert", "--backend", "sqlite", *words, "--", "a.yml")
            self.assertEqual(done, (0, "query of schema\nquery of rule\n", []))

    def test_what_is_not_there_stays_so(self):
        # one of them is a file in the crate's own folder, which isn't meant
        self.assertTrue((CRATE / "data/r.yml").exists())
        for name in ("none.yml", "../none.yml", "/none.yml", "rules", "data/r.yml", "args"):
            self.assertEqual(self.ask("check", name), (3, "", [f"sigma: cannot read {name}"]))

    def test_events_are_handed_over_to_commands_that_read_them(self):
        self.write("a.yml", "rule")
        self.assertEqual(self.ask("run", "a.yml", given="x\ny\n")[1], "query of rule\nx\ny\n")
        self.assertEqual(self.ask("check", "a.yml", given="x\ny\n")[1], "a.yml:1:1: ok\n")

    def test_no_answer_is_told(self):
        self.write("a.yml", "much")
        status, out, others = self.ask("check", "a.yml")
        self.assertEqual((status, out), (125, ""))
        self.assertEqual(others[-1], "sigma: the build that isn't proved gave no answer")
        self.assertIn("1 MiB or more", others[0])

    def test_a_word_that_is_no_text(self):
        path = f"{self.room}/bin:{os.environ['PATH']}"
        how = {"env": {**os.environ, "PATH": path}, "capture_output": True}
        self.assertEqual(subprocess.run([SCRIPT, "check", b"\xff"], **how).returncode, 125)


if __name__ == "__main__":
    unittest.main()
