#!/usr/bin/env python3
"""Lets `rt lib` take the libraries that the gate has left, instead of proving each of them once more.

The gate (`rt ci`) leaves what it built of each library in out/rlib, all of one run, without the stamp that shows rt's other
commands what it was made of. This writes that stamp if nothing has changed since: if no file that the library is made of, nor
one of a library below it, is newer than what was built.
"""
import importlib.machinery
import importlib.util
import os
import shutil
import sys


def load_rtlib():
    """The part of the kit's command `rt` that knows crates."""
    rt = os.path.realpath(shutil.which(os.environ.get("RT", "rt")))
    loader = importlib.machinery.SourceFileLoader("rtlib", f"{os.path.dirname(rt)}/rtlib.py")
    made = importlib.util.module_from_spec(importlib.util.spec_from_loader("rtlib", loader))
    sys.modules["rtlib"] = made
    loader.exec_module(made)
    return made


def newest(rtlib, crate):
    """When the last of the files was written that the crate and those below it are made of."""
    crates = [crate, *crate.below()]
    return max(os.path.getmtime(file) for it in crates for file in rtlib.files_of(it.folder))


def main():
    top = os.path.dirname(os.path.dirname(os.path.realpath(__file__)))
    rtlib = load_rtlib()
    os.chdir(top)
    for crate in rtlib.crates_below(top):
        stamp, built = f"{crate.folder}/out/rlib/stamp", f"{crate.folder}/out/rlib/{crate.name}.rlib"
        if os.path.isdir(f"{built}/interface") and not os.path.exists(stamp):
            if newest(rtlib, crate) < os.path.getmtime(built):
                with open(stamp, "w", encoding="utf-8") as file:
                    file.write(crate.stamp())


main()
