#!/usr/bin/env python3
"""Prints the table of crates for docs/ARCHITECTURE.md, and the longest chain.

For each crate: its depth (1 where it stands on none of the others), functions with a body, functions that state a
law, lines of code, of definitions and of proofs, tests, and edits that the check must refuse.
"""
import re
from pathlib import Path

ROOT = Path(__file__).resolve().parent.parent


def dependencies():
    crates = {}
    for line in (ROOT / "crates.txt").read_text().splitlines():
        name, _, rest = line.split("#")[0].partition(":")
        if name.strip():
            crates[name.strip()] = rest.split()
    return {name: [d for d in deps if d in crates] for name, deps in crates.items()}


def lines(folder, pattern):
    return sum(len(p.read_text().splitlines()) for p in folder.glob(pattern))


def functions(folder):
    """Functions with a body, and those with an empty one, which state a law."""
    bodies = laws = 0
    for path in folder.glob("**/*.rt"):
        text = path.read_text()
        starts = [m.start() for m in re.finditer(r"^\s*(?:pub(?:\(crate\))? )?(?:const )?fn ", text, re.M)]
        for start, end in zip(starts, starts[1:] + [len(text)]):
            if re.search(r"^\{\}$", text[start:end], re.M):
                laws += 1
            else:
                bodies += 1
    return bodies, laws


def depths(deps):
    found = {}

    def depth(name):
        if name not in found:
            found[name] = 1 + max((depth(d) for d in deps[name]), default=0)
        return found[name]

    for name in deps:
        depth(name)
    return found


def chain(name, deps, found):
    below = [d for d in deps[name] if found[d] == found[name] - 1]
    return (chain(below[0], deps, found) if below else []) + [name]


def main():
    deps = dependencies()
    found = depths(deps)
    print("| crate | depth | functions | laws | code | definitions | proofs | tests | edits |")
    print("|---|---|---|---|---|---|---|---|---|")
    for name in sorted(deps, key=lambda n: (found[n], n)):
        folder = ROOT / "crates" / name
        bodies, laws = functions(folder / "src")
        tests = sum(p.read_text().count("#[test]") for p in (folder / "src").glob("**/*.rt"))
        edits = len(list((folder / "must-fail").glob("*.edit")))
        row = [name, found[name], bodies, laws, lines(folder / "src", "**/*.rt"), lines(folder / "specs", "**/*.antt"),
               lines(folder / "proofs", "**/*.antt"), tests, edits]
        print("| " + " | ".join(str(x) for x in row) + " |")
    longest = max(found, key=lambda n: found[n])
    print("\nThe longest chain: " + ", ".join(chain(longest, deps, found)) + ".")


if __name__ == "__main__":
    main()
