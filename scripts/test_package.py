"""Tries scripts/package.sh in a small repository, with stand-ins for the toolchain and the program.

    python3 -m unittest discover -s scripts
"""
import os
import shutil
import subprocess
import tempfile
import unittest
from pathlib import Path

TOP = Path(__file__).resolve().parent.parent
RT = """#!/bin/sh
case $1 in
    version) echo fake-kit ;;
    run)
        mkdir -p out
        printf '#!/bin/sh\\n[ "$1" != check ] || echo "$3:1:1: ok"\\n' >out/sigma_app
        chmod +x out/sigma_app ;;
esac
"""
PAGES = {"README.md": "Pages.\n", "docs/FORMAT.md": "Formats.\n", "docs/LUCENE.md": "Lucene.\n"}
PAGES["examples/cmd.yml"] = "title: T\n"
SOURCES = {"crates.txt": "sigma_app:\n", "crates/sigma_app/src/main.rt": "fn main() {}\n"}
CASES = "import sys\nprint(len(sys.argv) - 2, 'files of cases')\n"


class Package(unittest.TestCase):
    def setUp(self):
        self.room = Path(tempfile.mkdtemp(prefix="sigma-test-"))
        self.addCleanup(shutil.rmtree, self.room)
        self.top = self.room / "top"
        for name, text in {**PAGES, **SOURCES, ".gitignore": "out/\n__pycache__/\n"}.items():
            self.write(name, text)
        shutil.copy(TOP / "sigma", self.top)
        shutil.copy(TOP / "docs/CODES.md", self.top / "docs")
        for folder in ("completions", "scripts"):
            shutil.copytree(TOP / folder, self.top / folder)
        (self.top / "scripts/rows.py").unlink(missing_ok=True)
        (self.room / "bin").mkdir()
        (self.room / "bin/rt").write_text(RT)
        (self.room / "bin/rt").chmod(0o755)
        self.words = {**os.environ, "PATH": f"{self.room}/bin:{os.environ['PATH']}"}
        self.git("init", "-q")
        self.commit()

    def write(self, name, text):
        (self.top / name).parent.mkdir(parents=True, exist_ok=True)
        (self.top / name).write_text(text)

    def git(self, *words):
        subprocess.run(["git", "-C", self.top, *words], check=True, capture_output=True)

    def commit(self):
        self.git("add", "-A")
        who = ["-c", "user.name=a", "-c", "user.email=a@example.org"]
        self.git(*who, "commit", "-q", "-m", "All")

    def run_in(self, folder, *words):
        how = {"cwd": folder, "env": self.words, "capture_output": True, "text": True}
        return subprocess.run(words, **how)

    def package(self):
        """The archive's path, or None where there is none, and what is said on standard error."""
        done = self.run_in(self.room, self.top / "scripts/package.sh")
        return (Path(done.stdout.strip()) if done.returncode == 0 else None), done.stderr

    def unpacked(self, archive):
        to = Path(tempfile.mkdtemp(dir=self.room))
        subprocess.run(["tar", "-xzf", archive, "-C", to], check=True)
        return next(to.iterdir())

    def test_the_package_answers_elsewhere(self):
        archive, said = self.package()
        self.assertIn("0 differ", said)
        there = self.unpacked(archive)
        self.assertEqual(there.name, archive.name.removesuffix(".tar.gz"))
        (self.room / "bin/rt").unlink()
        done = self.run_in(there, "./sigma", "check", "--", "x.yml")
        self.assertEqual((done.returncode, done.stdout), (0, "x.yml:1:1: ok\n"))
        done = self.run_in(there, "./sigma", "--version")
        self.assertIn(f"commit {there.name.removeprefix('sigma-')} of ", done.stdout)
        self.assertIn("proved with fake-kit", done.stdout)
        done = self.run_in(there, "./sigma", "--explain", "41")
        self.assertEqual(done.stdout.splitlines()[0], "41 ChainNotAllowed")
        for name in ("completions/sigma.bash", "examples/cmd.yml", "scripts/sarif.py"):
            self.assertTrue((there / name).exists(), name)
        self.assertFalse((there / "rows").exists())

    def test_the_same_commit_gives_the_same_bytes(self):
        first = self.package()[0].read_bytes()
        self.assertEqual(self.package()[0].read_bytes(), first)

    def test_cases_go_with_it(self):
        self.write("scripts/rows.py", CASES)
        for name in ("rules", "yaml", "wrong", "wrong_text"):
            self.write(f"crates/rows/data/{name}.rows", "")
        self.commit()
        archive, said = self.package()
        self.assertIn("2 files of cases", said)
        names = sorted(it.name for it in (self.unpacked(archive) / "rows").iterdir())
        self.assertEqual(names, ["rules.rows", "yaml.rows"])

    def test_what_is_not_committed_is_not_packed(self):
        self.write("README.md", "Other pages.\n")
        archive, said = self.package()
        self.assertIsNone(archive)
        self.assertIn("files were changed since the commit", said)

    def test_pages_that_show_something_else_end_it(self):
        shown = ("$ ./sigma check examples/cmd.yml", "examples/cmd.yml:1:1: OK")
        self.write("README.md", "".join(f"    {line}\n" for line in shown))
        self.commit()
        archive, said = self.package()
        self.assertIsNone(archive)
        self.assertIn("1 differ", said)


if __name__ == "__main__":
    unittest.main()
