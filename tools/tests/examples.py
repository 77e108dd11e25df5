"""The examples with their reports, for the tests."""

import glob
import os
import sys

HERE = os.path.dirname(os.path.abspath(__file__))
TOP = os.path.dirname(os.path.dirname(HERE))
sys.path.insert(0, os.path.join(TOP, "tools"))
sys.dont_write_bytecode = True


def names():
    return sorted(os.path.basename(it)[:-len(".koat")] for it in glob.glob(os.path.join(TOP, "examples", "*.koat")))


def path(name, ending=".koat"):
    return os.path.join(TOP, "examples", name + ending)


def text(name, ending=".txt"):
    with open(path(name, ending), encoding="utf-8") as file:
        return file.read()
