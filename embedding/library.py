#!/usr/bin/env python3
# Needs: rt
"""Builds out/libgeos_c.a of the crate's folder over the libraries below it as the last `rt ci` left them.

`rt lib` takes no library that `rt ci` built, and so proves all of them once more, which takes as long as they took there.
What is built here is what `rt lib` builds: geos_c itself is proved, by the kit's own words.

    python3 embedding/library.py crates/geos_c
"""
import importlib.machinery
import importlib.util
import os
import shutil
import sys


def kit():
    """The module that the command rt is written with."""
    path = os.path.join(os.path.dirname(os.path.realpath(shutil.which("rt"))), "rtlib.py")
    loader = importlib.machinery.SourceFileLoader("rtlib", path)
    module = importlib.util.module_from_spec(importlib.util.spec_from_loader("rtlib", loader))
    sys.modules["rtlib"] = module
    loader.exec_module(module)
    return module


def main():
    rtlib = kit()
    folder = os.path.realpath(sys.argv[1])
    os.chdir(folder)
    crate = rtlib.Crate(folder, rtlib.root_above(folder), {})
    missing = [it.name for it in crate.below() if not os.path.isdir(it.rlib)]
    if missing:
        sys.exit(f"library.py: rt ci left no library {', '.join(missing)}")
    crate.out = sys.stdout
    os.makedirs("out", exist_ok=True)
    sys.exit(crate.build_static(["--jobs", str(len(os.sched_getaffinity(0)))]))


main()
