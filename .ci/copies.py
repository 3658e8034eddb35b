#!/usr/bin/env python3
"""Copies of the repository, with what was proved in it: rt works in a crate's folder for one command at a time, so the gate's
parts beside each other need several. Called with a folder's name it makes one there."""
import os
import pathlib
import shutil
import sys

TOP = pathlib.Path(__file__).resolve().parent.parent


def linked(one, other):
    """Copies a file; one that holds what was proved by a link, since a check replaces it and never writes into it."""
    try:
        if one.endswith(".oantt"):
            return os.link(one, other)
    except OSError:
        pass
    return shutil.copy2(one, other)


def copy_folder(folder, to, *left_out):
    """Copies a folder but for what has one of these names, and what a command of rt at work will throw away."""
    ignore = shutil.ignore_patterns("rt-work-*", *left_out)
    shutil.copytree(folder, to, copy_function=linked, ignore=ignore, dirs_exist_ok=True)


if __name__ == "__main__":
    copy_folder(TOP, sys.argv[1], ".git")
    # A copy is the top of a repository, too.
    pathlib.Path(sys.argv[1], ".git").mkdir()
