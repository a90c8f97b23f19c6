#!/usr/bin/env python3
"""Lists the crates that stand on one, lowest first: each is proved anew when that one changes.

At the top of a clone: python3 docs/above.py ldp_series
"""

import pathlib
import sys

TOP = pathlib.Path(__file__).resolve().parent.parent


def below():
    """The crates of crates.txt, each with those that it stands on."""
    found = {}
    for line in (TOP / "crates.txt").read_text().splitlines():
        name, colon, rest = line.partition(":")
        if colon and not line.startswith("#"):
            found[name.split()[0]] = rest.split()
    return found


def order(crates):
    """The crates in an order in which each comes after those that it stands on."""
    done = []
    while len(done) < len(crates):
        for name, rest in crates.items():
            if name not in done and all(low in done for low in rest if low in crates):
                done.append(name)
    return done


def main():
    if len(sys.argv) != 2 or sys.argv[1] not in below():
        sys.exit("usage: python3 docs/above.py CRATE")
    hit = {sys.argv[1]}
    for name in order(below()):
        if hit & set(below()[name]):
            hit.add(name)
            print(name)


if __name__ == "__main__":
    main()
