"""Tries the launcher with a stand-in for the toolchain, in a folder of its own.

    python3 -m unittest discover -s scripts
"""
import os
import pty
import shutil
import signal
import subprocess
import tempfile
import time
import unittest
from pathlib import Path

TOP = Path(__file__).resolve().parent.parent
# So long a launch may take where the machine is busy.
SECONDS = 300
# Proves at once, and builds a program that says which words it got; notes each call. Where there is
# a file `slow`, it waits in the proofs until that's gone.
RT = """#!/bin/sh
echo "$*" >>"$CALLS/calls"
case $1 in
    version) echo fake-kit ;;
    all)
        echo $$ >"$CALLS/pid"
        while [ -e "$CALLS/slow" ]; do sleep 0.1; done
        [ ! -e "$CALLS/refused" ] || exit 1
        echo '== sig_base' ;;
    run)
        mkdir -p out
        printf '#!/bin/sh\\necho "proved: $*"\\nexit 7\\n' >out/sigma_app
        chmod +x out/sigma_app ;;
    try)
        echo 'unproved output'
        printf 'r.yml:1:1: 4 Syntax\\nchecked: ended status=1\\nrun=ended status=1 proved=no\\n' >&2
        exit 1 ;;
esac
"""


class Launcher(unittest.TestCase):
    """A copy of what the launcher needs: itself, its scripts, and a crate that nobody proves."""

    def setUp(self):
        self.room = Path(tempfile.mkdtemp(prefix="sigma-test-"))
        self.addCleanup(shutil.rmtree, self.room)
        self.top = self.room / "sigma"
        (self.top / "crates/sigma_app/src").mkdir(parents=True)
        (self.top / "crates/sigma_app/src/main.rt").write_text("fn main() {}\n")
        (self.top / "crates.txt").write_text("sig_base:\nsigma_app: sig_base\n")
        (self.top / "docs").mkdir()
        shutil.copy(TOP / "sigma", self.top)
        shutil.copy(TOP / "docs/CODES.md", self.top / "docs")
        shutil.copytree(TOP / "scripts", self.top / "scripts")
        (self.room / "bin").mkdir()
        (self.room / "bin/rt").write_text(RT)
        (self.room / "bin/rt").chmod(0o755)
        self.words = {
            **os.environ,
            "PATH": f"{self.room}/bin:{os.environ['PATH']}",
            "CALLS": str(self.room),
        }

    def start(self, *words, **how):
        how = {"stdout": subprocess.PIPE, "stderr": subprocess.PIPE, "text": True, **how}
        command = [str(self.top / "sigma"), *words]
        return subprocess.Popen(command, env=self.words, stdin=subprocess.DEVNULL, **how)

    def ask(self, *words):
        """The exit status, and what is written on each stream."""
        tool = self.start(*words)
        out, err = tool.communicate(timeout=SECONDS)
        return tool.returncode, out, err

    def calls(self):
        path = self.room / "calls"
        return [it.split()[0] for it in path.read_text().splitlines()] if path.exists() else []

    def proofs(self):
        return self.calls().count("all")

    def left(self):
        """What launches leave beside the program and its marks."""
        kept = {"sigma_app", "sigma.built", "sigma.version", "build.log"}
        return sorted(it.name for it in (self.top / "out").iterdir() if it.name not in kept)

    def wait_until(self, holds):
        """Waits for what comes soon, or late where the machine is busy."""
        end = time.monotonic() + SECONDS
        while not holds():
            self.assertLess(time.monotonic(), end)
            time.sleep(0.05)

    def begun(self):
        """The process of the proofs, once they have begun."""
        path = self.room / "pid"
        self.wait_until(lambda: path.exists() and path.read_text().endswith("\n"))
        return int(path.read_text())


class Words(Launcher):
    def test_help_is_answered_before_a_build(self):
        for words in (["help"], ["--help"], ["-h"], ["convert", "--help"], ["--unproved", "help"]):
            status, out, err = self.ask(*words)
            self.assertEqual((status, err), (0, ""), words)
            self.assertTrue(out.startswith("usage: sigma COMMAND"), words)
        self.assertEqual(self.calls(), [])

    def test_no_command_is_refused_before_a_build(self):
        options = ["--backend", "sqlite"], ["--unproved"], ["--version", "x"]
        for words in ([], ["convrt"], [""], *options):
            status, out, err = self.ask(*words)
            self.assertEqual((status, out), (2, ""), words)
            self.assertEqual(err.splitlines()[0], "sigma: bad usage", words)
            self.assertIn("sigma --help", err.splitlines()[1])
        self.assertEqual(self.calls(), [])

    def test_a_built_program_alone_judges(self):
        self.ask("check", "r.yml")
        for words in ([], ["convrt"], ["--backend", "sqlite"]):
            status, out, err = self.ask(*words)
            self.assertEqual((status, out, err), (7, f"proved: {' '.join(words)}\n", ""))

    def test_codes_are_explained_without_a_build(self):
        status, out, _ = self.ask("--explain", "41")
        self.assertEqual((status, out.splitlines()[0]), (0, "41 ChainNotAllowed"))
        self.assertEqual(self.ask("--explain", "999")[0], 2)
        self.assertEqual(self.calls(), [])

    def test_version_says_whether_it_is_built(self):
        self.assertIn("not built of these sources yet", self.ask("--version")[1])
        self.ask("check", "r.yml")
        self.assertIn("proved with fake-kit", self.ask("--version")[1])


class Builds(Launcher):
    def test_the_first_use_builds_and_the_second_does_not(self):
        for _ in range(2):
            self.assertEqual(self.ask("check", "a b")[:2], (7, "proved: check a b\n"))
        self.assertEqual((self.proofs(), self.left()), (1, []))

    def test_a_terminal_is_told_how_long_the_first_use_takes(self):
        ours, theirs = pty.openpty()
        tool = self.start("check", stderr=theirs)
        tool.communicate(timeout=SECONDS)
        said = os.read(ours, 1 << 16).decode()
        os.close(ours)
        os.close(theirs)
        self.assertRegex(said, r"takes about \d+ minutes here")
        self.assertIn("sigma --unproved COMMAND", said)

    def test_a_link_calls_it(self):
        link = self.room / "bin/sigma"
        link.symlink_to(self.top / "sigma")
        done = subprocess.run([link, "check"], env=self.words, capture_output=True, text=True)
        self.assertEqual((done.returncode, done.stdout), (7, "proved: check\n"))

    def test_a_source_that_changed_is_proved_again(self):
        self.ask("check")
        time.sleep(0.02)
        (self.top / "crates/sigma_app/src/main.rt").write_text("fn main() { }\n")
        self.ask("check")
        self.assertEqual(self.proofs(), 2)
        # a page is no source
        (self.top / "docs/CODES.md").write_text("")
        self.ask("check")
        self.assertEqual(self.proofs(), 2)

    def test_a_source_that_changes_during_a_build_is_proved_again(self):
        (self.room / "slow").write_text("x")
        tool = self.start("check")
        self.begun()
        (self.top / "crates/sigma_app/src/main.rt").write_text("fn main() { }\n")
        (self.room / "slow").unlink()
        tool.communicate(timeout=SECONDS)
        self.ask("check")
        self.assertEqual(self.proofs(), 2)

    def test_two_launches_at_once_both_answer(self):
        (self.room / "slow").write_text("x")
        tools = [self.start("check", str(it)) for it in range(2)]
        self.wait_until(lambda: self.proofs() == 2)
        (self.room / "slow").unlink()
        outs = [it.communicate(timeout=SECONDS)[0] for it in tools]
        self.assertEqual(outs, ["proved: check 0\n", "proved: check 1\n"])
        self.assertEqual([it.returncode for it in tools], [7, 7])
        self.assertEqual(self.left(), [])

    def test_an_interrupt_ends_the_proofs(self):
        for number in (signal.SIGINT, signal.SIGTERM):
            (self.room / "slow").write_text("x")
            (self.room / "pid").unlink(missing_ok=True)
            tool = self.start("check", start_new_session=True)
            proofs = self.begun()
            tool.send_signal(number)
            tool.communicate(timeout=SECONDS)
            self.assertEqual(tool.returncode, 130)
            self.wait_until(lambda: not Path(f"/proc/{proofs}").exists())
            self.assertEqual(self.left(), [])
        (self.room / "slow").unlink()
        self.assertEqual(self.ask("check")[0], 7)

    def test_a_proof_that_fails_is_told(self):
        (self.room / "refused").write_text("x")
        status, out, err = self.ask("check")
        self.assertEqual((status, out, self.left()), (125, "", []))
        self.assertIn("the crates could not be proved", err)

    def test_a_folder_that_cannot_be_written(self):
        (self.top / "out").write_text("a file in the folder's place")
        status, out, err = self.ask("check")
        self.assertEqual((status, out), (125, ""))
        self.assertIn("can't be written", err)
        self.assertEqual(self.proofs(), 0)

    def test_without_the_toolchain(self):
        (self.room / "bin/rt").unlink()
        for name in ("python3", "env"):
            (self.room / "bin" / name).symlink_to(shutil.which(name))
        folders = [it for it in os.defpath.split(":") if it and not Path(it, "rt").exists()]
        self.words["PATH"] = ":".join([f"{self.room}/bin", *folders])
        for words in (["check"], ["--unproved", "check"]):
            self.assertEqual(self.ask(*words)[0], 127)


class Unproved(Launcher):
    def test_what_rt_try_answers_is_passed_on(self):
        status, out, err = self.ask("--unproved", "check", "r.yml")
        self.assertEqual((status, out), (1, "unproved output\n"))
        first, *others = err.splitlines()
        self.assertIn("isn't proved", first)
        self.assertEqual(others, ["r.yml:1:1: 4 Syntax"])
        self.assertEqual(self.calls(), ["try"])

    def test_a_proved_program_answers(self):
        self.ask("check")
        self.assertEqual(self.ask("--unproved", "check", "x")[:2], (7, "proved: check x\n"))
        self.assertNotIn("try", self.calls())

    def test_nothing_is_answered_unproved_unasked(self):
        self.ask("check")
        self.assertNotIn("try", self.calls())


if __name__ == "__main__":
    unittest.main()
