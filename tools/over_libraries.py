#!/usr/bin/env python3
"""Builds a program, or a static library, over the libraries that stand in crates/*/out/rlib, so that what is proved
isn't proved again: rattle checks its own crate alone, which it does before each build.

  tools/over_libraries.py --note           for .ci/run, right after `rt ci` has passed: notes that its libraries stand
  tools/over_libraries.py CRATE FILE [TARGET]
                                           writes the archive or the object of CRATE into FILE, for another machine than
                                           this where there is a TARGET, one of the kit's

`./b --prove` and `rt check` leave libraries with a stamp of their sources, and `rt ci` some without one, which fit
only each other. So a note of the stamp is put beside the latter. Where a source has changed since, or libraries with
and without a stamp stand, those below CRATE are proved first, as `rt lib` does it.

Other scripts import `kit`, `crate_of`, `unproved` and `build`."""
import os
import pathlib
import shutil
import signal
import subprocess
import sys
import threading

# What is used of the kit's module, and of its crates.
OF_MODULE = ("Crate", "KEPT", "KIT", "RATTLE", "crates_below", "guarded", "lock", "stop_on_links")
OF_CRATE = ("below", "build_rlib", "call", "count", "has_kept", "is_built", "run", "stamp", "words")
TOP = pathlib.Path(__file__).resolve().parent.parent


def stamp_once(stamp):
    """A crate's stamp, the digest of all that it is built of, for which that of each crate below is made just once; the
    kit makes it once for each way that leads there, and there are thousands."""
    local = threading.local()

    def once(crate):
        if getattr(local, "made", None) is not None:
            if crate not in local.made:
                local.made[crate] = stamp(crate)
            return local.made[crate]
        local.made = {}
        try:
            return stamp(crate)
        finally:
            local.made = None

    return once


def kit():
    """The module of the kit's `rt`; None where it isn't the one that this knows."""
    sys.dont_write_bytecode = True
    rt = shutil.which("rt")
    if rt is None:
        sys.exit("b: no rt on the path: it is in the folder bin of the Rattle kit, which README.md names")
    sys.path.insert(0, os.path.dirname(os.path.realpath(rt)))
    try:
        import rtlib
    except ImportError:
        return None
    if not all(hasattr(rtlib, it) for it in OF_MODULE) or not all(hasattr(rtlib.Crate, it) for it in OF_CRATE):
        return None
    rtlib.Crate.stamp = stamp_once(rtlib.Crate.stamp)
    return rtlib


def crate_of(rtlib, name):
    """The crate of this name. No other run of the kit works in its folder, and those below it, until this one ends."""
    rtlib.guarded()
    crates = rtlib.crates_below(str(TOP / "crates" / name))
    crates[-1].held = rtlib.lock(crates)
    for crate in crates:
        rtlib.stop_on_links(crate.folder)
    return crates[-1]


def noted(crate):
    """The file with the stamp of a library that `rt ci` made. The next `rt ci` takes it away, with all of `out`."""
    return pathlib.Path(crate.folder) / "out/noted"


def is_of_ci(crate):
    """Whether the library of the crate is one without a stamp."""
    rlib = pathlib.Path(crate.rlib)
    return rlib.is_dir() and not (rlib.parent / "stamp").exists()


def note(rtlib):
    for crate in rtlib.crates_below(str(TOP)):
        if crate.makes_rlib() and is_of_ci(crate):
            noted(crate).write_text(crate.stamp())


def are_of_ci(crates):
    """Whether all of these libraries stand as `rt ci` made them, of the sources as they are."""
    return all(is_of_ci(it) and noted(it).is_file() and noted(it).read_text() == it.stamp() for it in crates)


def unproved(rtlib, names):
    """The libraries below the crates of these names that don't stand proved, as the sources are."""
    crates = [rtlib.crates_below(str(TOP / "crates" / it)) for it in names]
    lacking = [it.name for *below, _ in crates if not are_of_ci(below) for it in below if not it.is_built()]
    return list(dict.fromkeys(lacking))


def prove(crates, flags):
    """Proves those of these libraries that don't stand with their stamps."""
    for crate in crates:
        if crate.build_rlib(flags, anew=False):
            raise SystemExit(f"over_libraries: {crate.name} isn't proved")


def build(rtlib, crate, to, toolchain=None, more=()):
    """Checks the crate, and writes its archive, or the object of a program, into a file. `toolchain` is a folder as the
    kit's of that name, which has the clang that is called; `more` are words for `rattle build`."""
    flags = ["--jobs", subprocess.check_output([TOP / "tools/jobs"], text=True).strip()]
    kept = []
    if not are_of_ci(crate.below()):
        prove(crate.below(), flags)
        kept = rtlib.KEPT
    words = [rtlib.RATTLE, "build", *crate.words(flags), "--toolchain", str(toolchain or f"{rtlib.KIT}/toolchain")]
    if crate.call(*words, "--backend", "llvm", *kept, *more, "-o", os.path.abspath(to)):
        raise SystemExit(f"over_libraries: {crate.name} isn't built")


def main(words):
    signal.signal(signal.SIGINT, signal.SIG_DFL)
    rtlib = kit()
    if not rtlib:
        raise SystemExit("over_libraries: the kit on the path has another module than this knows")
    if words == ["--note"]:
        note(rtlib)
    elif len(words) in (2, 3):
        build(rtlib, crate_of(rtlib, words[0]), words[1], more=["--target", words[2]] if words[2:] else [])
    else:
        raise SystemExit("over_libraries: usage: tools/over_libraries.py --note | CRATE FILE [TARGET]")


if __name__ == "__main__":
    main(sys.argv[1:])
