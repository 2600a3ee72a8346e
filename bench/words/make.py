#!/usr/bin/env python3
"""Writes the scripts of the bench into a folder, each with its verdicts in a comment.

usage: make.py FOLDER [SEED]    (default: 1)

The families: `identities` of words of 32 bits; `hashes`, the inversion of a small hash; `products` of 6 to 8 bits; `paths`,
dialogues of a symbolic executor with levels and with assumptions. All verdicts are known by construction or by trying every
input here; no solver is asked.
"""
import pathlib
import random
import sys

import hashes
import identities
import paths
import products

FAMILIES = {"identities": identities, "hashes": hashes, "products": products, "paths": paths}


def scripts(seed, families=FAMILIES):
    """All scripts of these families, in order; a family has its own source, so that another leaves it as it is."""
    for family, made_by in families.items():
        yield from made_by.scripts(random.Random("%s %d" % (family, seed)))


def main(families=FAMILIES):
    folder = pathlib.Path(sys.argv[1])
    folder.mkdir(parents=True, exist_ok=True)
    for made in scripts(int(sys.argv[2]) if len(sys.argv) > 2 else 1, families):
        comment = "; %s\n" % " ".join(made.verdicts)
        (folder / ("%s-%s.smt2" % (made.family, made.name))).write_text(comment + made.text)


if __name__ == "__main__":
    main()
