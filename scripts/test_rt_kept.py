"""Tries scripts/rt_kept.py over entries that the toolchain's functions write. Nothing is proved.

    python3 -m unittest discover -s scripts
"""
import os
import shutil
import sys
import tempfile
import unittest
from pathlib import Path

sys.path.insert(0, os.path.dirname(os.path.abspath(__file__)))
import rt_kept

RT = shutil.which("rt")


@unittest.skipIf(RT is None, "the toolchain isn't here")
class Kept(unittest.TestCase):
    """A repository of a program over one library, of which a store has what a gate would keep."""

    def setUp(self):
        self.room = Path(tempfile.mkdtemp(prefix="sigma-test-"))
        self.addCleanup(shutil.rmtree, self.room)
        self.top = self.room / "top"
        (self.top / ".git").mkdir(parents=True)
        (self.top / "crates.txt").write_text("a_library:\na_program: a_library\n")
        (self.top / "HANDLES").write_text("Handles allowed: none.\n")
        self.write("a_library/src/lib.rt", "pub fn one() {}\n")
        self.write("a_program/src/main.rt", "fn main() {}\n")
        # as rt makes it, and for nobody else
        (self.room / "store").mkdir(mode=0o700)
        self.addCleanup(setattr, rt_kept, "TOP", rt_kept.TOP)
        rt_kept.TOP = str(self.top)

    def write(self, name, text):
        path = self.top / "crates" / name
        path.parent.mkdir(parents=True, exist_ok=True)
        path.write_text(text)

    def module(self):
        module = rt_kept.loaded(os.path.realpath(RT))
        module.STORE = str(self.room / "store")
        module.STORE_LEAVES = 0
        return module

    def keep(self):
        """Keeps what a gate would have made of the crates as they stand."""
        self.write("a_library/out/rlib/a_library.rlib/format", "a library")
        for ending in ("", ".by-rattle"):
            self.write(f"a_program/out/a_program{ending}", f"a program{ending}")
        module = self.module()
        crates = rt_kept.crates_for(module, "a_program")
        kept = module.Kept(crates)
        for crate in crates:
            kept.is_built(crate)
            kept.keep(crate, False, kept.key(crate))
        # what is taken stands in the store alone
        for crate in crates:
            shutil.rmtree(f"{crate.folder}/out")

    def taken(self):
        to = self.room / "taken"
        try:
            rt_kept.copied(self.module(), "a_program", str(to))
        except (OSError, ValueError):
            self.assertFalse(to.exists())
            return None
        text = to.read_text()
        to.unlink()
        return text

    def test_nothing_is_taken_of_an_empty_store(self):
        self.assertIsNone(self.taken())

    def test_the_program_of_these_sources_is_taken(self):
        self.keep()
        self.assertEqual(self.taken(), "a program")

    def test_a_source_that_changed_below_ends_it(self):
        self.keep()
        self.write("a_library/src/lib.rt", "pub fn two() {}\n")
        self.assertIsNone(self.taken())
        self.write("a_library/src/lib.rt", "pub fn one() {}\n")
        self.assertEqual(self.taken(), "a program")

    def test_other_crates_or_handles_end_it(self):
        self.keep()
        for name, text in (("HANDLES", "Handles allowed: Wait.\n"), ("crates.txt", "a_program:\n")):
            was = (self.top / name).read_text()
            (self.top / name).write_text(text)
            self.assertIsNone(self.taken(), name)
            (self.top / name).write_text(was)
        self.assertEqual(self.taken(), "a program")

    def test_a_damaged_entry_ends_it(self):
        self.keep()
        place = next((self.room / "store").glob("proof-a_program-*"))
        (place / "0").write_text("another program")
        self.assertIsNone(self.taken())

    def test_a_store_that_others_may_write_is_not_used(self):
        self.keep()
        (self.room / "store").chmod(0o777)
        self.assertIsNone(self.taken())


if __name__ == "__main__":
    unittest.main()
