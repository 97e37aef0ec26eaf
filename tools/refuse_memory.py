#!/usr/bin/env python3
"""Refuses each allocation of some runs in turn, and prints a table of how the runs ended.

Usage: tools/refuse_memory.py [PROGRAM] [RUN..]

PROGRAM is the built program, else the one that `./leadsto` builds. A RUN is a name of the first column; all are tried where
none is given. Each run has to end with its answer, or with status 9 and `memory` on standard error; before the words of the
command are there, with status 9 and nothing on standard error. The status is 0 where all did. It needs a C compiler as `cc`,
and some minutes: a run with many allocations is tried as often.
"""
import sys
import tempfile
import time

from faults import built_program, compiled, endings, runs


def main():
    program = built_program()
    wanted = sys.argv[2:]
    others = 0
    print("| run | allocations | `memory`, 9 | nothing, 9 | its answer | ended otherwise |\n|---|---|---|---|---|---|", flush=True)
    with tempfile.TemporaryDirectory() as folder:
        shim = compiled(folder)
        for name, (words, text) in runs(program).items():
            if wanted and name not in wanted:
                continue
            begun = time.time()
            plain, found = endings(shim, program, "alloc", words, text)
            counts = {"memory": 0, "nothing": 0, "answer": 0, "other": 0}
            for end in found:
                if (end.status, end.out, end.err) == (9, b"", b"memory\n"):
                    counts["memory"] += end.many
                elif (end.status, end.out, end.err) == (9, b"", b"") and end.first + end.many <= 16:
                    counts["nothing"] += end.many
                elif (end.status, end.out, end.err) == plain:
                    counts["answer"] += end.many
                else:
                    counts["other"] += end.many
                    print(f"{name}: allocation {end.first}: {end.status} {end.out} {end.err}", file=sys.stderr)
            others += counts["other"]
            row = [name, sum(counts.values()), *counts.values()]
            print("| " + " | ".join(f"{x:,}" if isinstance(x, int) else x for x in row) + " |", flush=True)
            print(f"{name}: {time.time() - begun:.0f} s", file=sys.stderr)
    sys.exit(bool(others))


if __name__ == "__main__":
    main()
