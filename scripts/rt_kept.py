#!/usr/bin/env python3
"""Copies the program that `rt ci` has proved on this machine of the sources that stand here.

    scripts/rt_kept.py CRATE FILE      the exit status is 1 where there is none

What a run of `rt ci` proved it keeps beside the toolchain. An entry's name is a sum of all that the
proof read: the toolchain, the crate's own files, and the libraries below as they were built. So
from the sources and the entries alone, lowest crate first, the entry of each crate is found, in the
way in which `rt ci` itself finds it; the program's entry has the built program, with its sum. A
program in a crate's folder `out` isn't taken: nothing says there of which sources it was built, and
its time is that of the build's end, so a source may have been written meanwhile. Where rt lacks the
parts that this uses, there is none.
"""
import contextlib
import hashlib
import importlib.machinery
import importlib.util
import inspect
import io
import json
import os
import shutil
import stat
import sys

TOP = os.path.dirname(os.path.dirname(os.path.abspath(__file__)))


def loaded(path):
    """The command rt as a module that has the parts which are used here."""
    loader = importlib.machinery.SourceFileLoader("rt_of_the_toolchain", path)
    spec = importlib.util.spec_from_loader(loader.name, loader)
    module = importlib.util.module_from_spec(spec)
    loader.exec_module(module)
    inspect.signature(module.Kept).bind([])
    inspect.signature(module.Kept.key).bind(None, None)
    inspect.signature(module.Kept.place).bind(None, None, False, "")
    for part in (module.handles_of, module.rtlib.crates_below, module.rtlib.sum_of):
        inspect.signature(part).bind(None)
    return module


def is_own(folder):
    """Whether a folder is one that nobody else may write."""
    found = os.lstat(folder)
    is_closed = not found.st_mode & (stat.S_IWGRP | stat.S_IWOTH)
    return stat.S_ISDIR(found.st_mode) and found.st_uid == os.geteuid() and is_closed


def crates_for(module, name):
    """The crate of this name and those below it, lowest first."""
    below, known = module.rtlib.Crate.below, {}
    # rt goes every way down each time; the list of a crate is made once here
    module.rtlib.Crate.below = lambda it: list(known.setdefault(it.folder, below(it)))
    module.Crate.allowed = module.handles_of(TOP)
    module.rtlib.Crate = module.Crate
    crates = module.rtlib.crates_below(TOP)
    top = next(it for it in crates if it.name == name)
    return [*sorted(top.below(), key=lambda it: len(it.below())), top]


def entry_of(kept, crate):
    """The folder of what a run kept of this crate as it stands here, and its files' sums."""
    key = kept.key(crate)
    place = kept.place(crate, False, key)
    with open(f"{place}/made.json", encoding="utf-8") as it:
        made = json.load(it)
    if made["key"] != key:
        raise ValueError(key)
    return place, [(path, sum) for path, sum in made["files"]]


def copied(module, name, to):
    """Copies the program to a file, or fails where it isn't kept of these sources."""
    crates = crates_for(module, name)
    if not is_own(module.STORE):
        raise ValueError(module.STORE)
    kept = module.Kept(crates)
    for crate in crates:
        place, files = entry_of(kept, crate)
        if crate.name != name:
            # as rt sums a library that it has built, for the keys of those above
            kept.rlibs[crate.name] = hashlib.sha256(repr(files).encode()).hexdigest()
    number, sum = next((at, sum) for at, (path, sum) in enumerate(files) if path == name)
    shutil.copyfile(f"{place}/{number}", to)
    os.chmod(to, 0o755)
    if module.rtlib.sum_of(to) != sum:
        os.remove(to)
        raise ValueError(to)


def main(words):
    if len(words) != 2:
        print("usage: rt_kept.py CRATE FILE", file=sys.stderr)
        return 2
    path = shutil.which("rt")
    sys.dont_write_bytecode = True
    try:
        with contextlib.redirect_stderr(io.StringIO()):
            copied(loaded(os.path.realpath(path)), *words)
    except (Exception, SystemExit):
        return 1
    return 0


if __name__ == "__main__":
    sys.exit(main(sys.argv[1:]))
