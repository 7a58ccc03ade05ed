#!/usr/bin/env python3
"""Runs the toolchain's command rt with the words `all check ..`, `check ..` or `run ..`, without what is for an author.

    scripts/rt_once.py all check --jobs 4
    scripts/rt_once.py run -- convert --backend sqlite data/r.yml

All is proved as by rt itself. Four things differ. Before the proofs rt reads the sources of all crates once, to tell mistakes
early; here it doesn't. Of a library that is proved rt keeps the proofs and the work of its check, too, and the check of each crate
above reads these proofs; here, as for `rt verdict`, only what the library states is kept, so that a crate that changed is proved
anew as a whole. Each time that rt asks which crates stand below one it goes every way down to them, some hundred thousand ways, and
for each sum of sources it reads all files below; here a crate's list is made once, and its sum again only where a file of theirs, or
the toolchain's, was touched. And of the crates that rt works on side by side some only wait for others; here only those count that
are proved, and the one with the longest chain of others above it goes first. Where rt lacks the parts that this exchanges, and for
all other words, it's run as it is.
"""

import contextlib
import importlib.machinery
import importlib.util
import inspect
import os
import shutil
import sys
import threading

# So many crates are worked on side by side, most of which wait.
THREADS = 200

# How long it is, in seconds, until a place that is free goes to another crate; by then those that became ready meanwhile wait too.
SETTLING = 3


def loaded(path):
    """The command as a module, or None where it isn't one that has these parts."""
    try:
        loader = importlib.machinery.SourceFileLoader("rt_of_the_toolchain", path)
        module = importlib.util.module_from_spec(importlib.util.spec_from_loader(loader.name, loader))
        loader.exec_module(module)
        crate = module.rtlib.Crate
        for part in (module.main, module.share_work, module.rtlib.files_of, module.rtlib.crates_below, module.rtlib.help_of, crate.stamp, crate.below, crate.front_end, crate.is_built):
            inspect.signature(part).bind(None)
        inspect.signature(crate.build_rlib).bind(None, [], anew=False)
        inspect.signature(crate.check).bind(None, [])
        # a run of `all check` shares work, and builds and checks by these two
        uses = ((module.main, "share_work"), (module.rtlib.every, "build_rlib"), (module.rtlib.every, "check"), (crate.build_rlib, "libraries_keep"))
        for part, called in uses:
            if called not in names_in(part.__code__):
                return None
        module.STAMPS.seen = None
        os.stat(f"{module.rtlib.KIT}/WHAT")
    except (Exception, SystemExit):
        return None
    return module


def names_in(code):
    """The names that a function's code has, and that of those inside it."""
    inner = [it for it in code.co_consts if inspect.iscode(it)]
    return set(code.co_names).union(*[names_in(it) for it in inner])


def kept_list(below):
    """The method that lists crates, asked once of each crate, which its folder names."""
    answers = {}

    def ask(crate):
        if crate.folder not in answers:
            answers[crate.folder] = below(crate)
        return list(answers[crate.folder])

    return ask


def touched(rtlib, crate):
    """What tells whether a file was touched that the crate's sum is made of: those of the crate and of each below it, and the toolchain's name."""
    files = [f"{rtlib.KIT}/WHAT"]
    for it in [*crate.below(), crate]:
        files += rtlib.files_of(it.folder)
    told = []
    for file in files:
        found = os.stat(file)
        told.append((file, found.st_dev, found.st_ino, found.st_size, found.st_mtime_ns, found.st_ctime_ns))
    return told


def kept_sum(module, stamp):
    """The method that sums sources, asked again where a file of the crate's or of one below was touched."""
    answers = {}

    def ask(crate):
        now = touched(module.rtlib, crate)
        kept = answers.get(crate.folder)
        if kept is None or kept[0] != now:
            # rt keeps the sums of one call for crates that it meets again in it, which may have been touched since
            module.STAMPS.seen = None
            kept = answers[crate.folder] = now, stamp(crate)
        return kept[1]

    return ask


def chains(rtlib, crates):
    """The bytes of the longest chain of crates that begins with each, by its folder: of its own files, and of those above it."""
    own = {it.folder: sum(os.path.getsize(file) for file in rtlib.files_of(it.folder)) for it in crates}
    found = {}
    # those with more below them stand higher
    for it in sorted(crates, key=lambda it: -len(it.below())):
        above = [found[other.folder] for other in crates if it in other.deps]
        found[it.folder] = own[it.folder] + max(above, default=0)
    return found


def statements_alone(rtlib):
    """Has rt keep of a proved library what it states alone, and gives the words for that; none where the toolchain can't."""
    if "--statements" not in rtlib.help_of("build"):
        return []
    # the toolchain doesn't take these words beside those for the work of a check, which programs alone keep then
    rtlib.libraries_keep = lambda: False
    return ["--statements"]


class Lanes:
    """How many crates are proved at once, and which is next: that with the longest chain of those that are ready. A place that
    a crate gives back is free a while later, when those that became ready by it wait too."""

    def __init__(self, rtlib, most):
        self.rtlib, self.most, self.left, self.waiting, self.turn = rtlib, most, None, [], threading.Condition()
        self.chain = {}

    def listing(self, find):
        """rt's way to find crates, with which their chains are found; where these can't be, crates go by their names."""

        def ask(top):
            crates = find(top)
            with contextlib.suppress(Exception):
                for folder, length in chains(self.rtlib, crates).items():
                    self.chain[folder] = max(length, self.chain.get(folder, 0))
            return crates

        return ask

    def free(self, places):
        """Lets others have so many places, in a while."""

        def give():
            with self.turn:
                self.left += places
                self.turn.notify_all()

        timer = threading.Timer(SETTLING, give)
        timer.daemon = True
        try:
            timer.start()
        except RuntimeError:
            # no thread is to be had
            give()

    @contextlib.contextmanager
    def place_of(self, crate):
        """Waits until the crate is next and a place is free."""
        mine = (-self.chain.get(crate.folder, 0), crate.folder)
        with self.turn:
            self.waiting.append(mine)
            if self.left is None:
                self.left = 0
                self.free(self.most)
            self.turn.wait_for(lambda: self.left > 0 and mine == min(self.waiting))
            self.waiting.remove(mine)
            self.left -= 1
            self.turn.notify_all()
        try:
            yield
        finally:
            self.free(1)

    def building(self, build):
        """rt's way to build a library, which waits for its turn where it isn't built yet."""
        alone = statements_alone(self.rtlib)

        def ask(crate, flags, anew):
            if not anew and crate.is_built():
                return build(crate, flags, anew)
            with self.place_of(crate):
                return build(crate, [*flags, *alone], anew)

        return ask

    def checking(self, check):
        """rt's way to check a crate, which waits for its turn."""

        def ask(crate, flags):
            with self.place_of(crate):
                return check(crate, flags)

        return ask

    def share(self, share_work):
        """rt's way to share work among checkouts, over which crates wait: those of another checkout wait for what is being built alone."""

        def ask(is_alone):
            share_work(is_alone)
            crate = self.rtlib.Crate
            crate.build_rlib = self.building(crate.build_rlib)
            crate.check = self.checking(crate.check)

        return ask


def side_by_side(module, words):
    """The words of rt for crates that are proved side by side, where they're `all check --jobs N`."""
    if words[:3] != ["all", "check", "--jobs"] or len(words) != 4 or not words[3].isdigit() or int(words[3]) == 0:
        return words
    lanes = Lanes(module.rtlib, int(words[3]))
    module.rtlib.crates_below = lanes.listing(module.rtlib.crates_below)
    module.share_work = lanes.share(module.share_work)
    return [*words[:3], str(THREADS)]


def main(words):
    path = shutil.which("rt")
    if path is None:
        print("rt_once: the toolchain's command rt is not on the PATH", file=sys.stderr)
        return 127
    sys.argv = [path, *words]
    sys.dont_write_bytecode = True
    is_meant = words[:2] == ["all", "check"] or words[:1] in (["check"], ["run"])
    module = loaded(os.path.realpath(path)) if is_meant else None
    if module is None:
        os.execv(path, [path, *words])
    crate = module.rtlib.Crate
    crate.below = kept_list(crate.below)
    crate.stamp = kept_sum(module, crate.stamp)
    crate.front_end = lambda self: 0
    return module.main(side_by_side(module, words))


if __name__ == "__main__":
    sys.exit(main(sys.argv[1:]))
