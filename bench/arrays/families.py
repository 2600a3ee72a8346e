#!/usr/bin/env python3
"""Writes the scripts of the bench into a folder, each with its verdicts in a comment.

usage: families.py FOLDER [SEED]    (default: 1)

The families: `sorting` networks over memory; `copying` of rows of bytes, and exchanges of them; `queues` beside their models;
`stores` in two orders; a `processor` step by step; `functions` and what follows for them from equalities. All verdicts are known by
construction; no solver is asked.
"""
import pathlib
import sys

sys.path.insert(0, str(pathlib.Path(__file__).resolve().parents[1] / "words"))
import copying
import functions
import make
import processor
import queues
import sorting
import stores

FAMILIES = {"sorting": sorting, "copying": copying, "queues": queues, "stores": stores, "processor": processor, "functions": functions}

if __name__ == "__main__":
    make.main(FAMILIES)
