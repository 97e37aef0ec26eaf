#!/usr/bin/env python3
"""Makes each read and each write of some runs go wrong in turn, and prints a table of how the runs ended.

Usage: tools/refuse_io.py [PROGRAM]

PROGRAM is the built program, else the one that `./leadsto` builds. A read that fails has to end with status 7 and `read
fault` on standard error, and a write that fails with status 8 and no more than a part of what is written; a read or write
of one byte alone makes no difference. One that a signal interrupts counts as one that fails. The status is 0 where all
ended so. It needs a C compiler as `cc`.
"""
import sys
import tempfile

from faults import built_program, compiled, endings, runs

KINDS = ["read-fails", "read-interrupted", "read-short", "write-fails", "write-interrupted", "write-short"]
LONG_TEXT = b"(system a (property true))" + b"\n" * 1_000_000


def as_wanted(kind, plain, end):
    if kind.endswith("short"):
        return (end.status, end.out, end.err) == plain
    if kind.startswith("read"):
        return (end.status, end.out, end.err) == (7, b"", b"read fault\n")
    return end.status == 8 and plain[1].startswith(end.out) and plain[2].startswith(end.err)


def main():
    program = built_program()
    tried = {**runs(program), "show a text of a million bytes": (["show"], LONG_TEXT)}
    others = 0
    print("| run | " + " | ".join(kind.replace("-", " ") for kind in KINDS) + " |\n|" + "---|" * (len(KINDS) + 1))
    with tempfile.TemporaryDirectory() as folder:
        shim = compiled(folder)
        for name, (words, text) in tried.items():
            row = [name]
            for kind in KINDS:
                plain, found = endings(shim, program, kind, words, text)
                wrong = [end for end in found if not as_wanted(kind, plain, end)]
                others += len(wrong)
                for end in wrong:
                    print(f"{name}: {kind} {end.first}: {end.status} {end.out} {end.err}", file=sys.stderr)
                row.append(str(sum(end.many for end in found)))
            print("| " + " | ".join(row) + " |", flush=True)
    print(f"\n{others} ways of ending that are not as wanted")
    sys.exit(bool(others))


if __name__ == "__main__":
    main()
