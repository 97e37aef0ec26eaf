#!/usr/bin/env python3
"""Times proofs of chains and of the example texts, and prints the table for docs/PERFORMANCE.md.

Usage: tools/measure_texts.py [--repeats N] [--program PATH] [--sizes PATH]

It runs the program `leadsto` (built by a first call of ./leadsto) under GNU time (Debian's package `time`), and for the
number of obligations and the largest size of one the program of the crate lv_ground_cases (built by `rt run` in its
folder). For each text it prints the processor time and the peak memory of the whole process, each the least of N (5)
runs. The time of a chain has the time to write its text in it, and that of a text the time to read it.
"""

import argparse
import os
import re
import subprocess
import sys
import tempfile
from pathlib import Path

ROOT = Path(__file__).resolve().parent.parent
CHAINS = (2, 6, 12, 16)
FIRST = ("tickets", "line")


def built(crate):
    """The newest program that was built of the crate."""
    folder = ROOT / "crates" / crate / "out"
    found = [path for path in folder.glob(f"**/{crate}") if path.is_file() and os.access(path, os.X_OK)]
    if not found:
        sys.exit(f"{crate} is not built")
    return str(max(found, key=os.path.getmtime))


def run(command, source):
    """The processor time of a process in seconds, its peak memory in KiB, and its output."""
    with tempfile.NamedTemporaryFile("r") as told:
        timed = ["time", "--quiet", "-f", "%U %S %M", "-o", told.name] + command
        output = subprocess.run(timed, input=source, stdout=subprocess.PIPE, stderr=subprocess.DEVNULL).stdout.decode()
        user, system, memory = told.read().split()
    return float(user) + float(system), int(memory), output


def best(command, source, repeats):
    """The least time and the least memory of some runs, and their common output."""
    runs = [run(command, source) for _ in range(repeats)]
    outputs = {output for _, _, output in runs}
    if len(outputs) != 1:
        sys.exit(f"{command}: the outputs differ")
    return min(time for time, _, _ in runs), min(memory for _, memory, _ in runs), outputs.pop()


def on_one_line(text):
    """The text without comments and line ends, which read the same."""
    return " ".join(line.split(";")[0] for line in text.splitlines())


def figures(sizes, text):
    """The number of obligations, and the largest size of one, or None where one isn't decided."""
    line = on_one_line(text)
    forms = run([sizes], f"ground | {line}\n".encode())[2].split()[1:]
    cases = "".join(f"{number} | {line}\n" for number in range(len(forms)))
    told = run([sizes], cases.encode())[2].splitlines()
    found = [re.search(r"; size (\d+)", answer) for answer in told]
    return len(forms), max(int(match[1]) for match in found) if all(found) else None


def row(name, count, largest, time, memory, answer):
    size = "" if largest is None else f"{largest:,}"
    seconds = f"{time:.2f}" if time >= 0.01 else "< 0.01"
    print(f"| {name} | {answer} | {count:,} | {size} | {seconds} | {memory / 1024:.1f} |", flush=True)


def chain_row(program, places, repeats):
    time, memory, output = best([program, "make", str(places)], b"", repeats)
    told = dict(line[2:].rsplit(" ", 1) for line in output.splitlines() if line.startswith("; "))
    row(f"`make {places}`", int(told["obligations"]), int(told["largest size"]), time, memory, told["answer"])


def text_row(program, sizes, path, repeats):
    text = path.read_text()
    time, memory, output = best([program, "prove"], text.encode(), repeats)
    count, largest = figures(sizes, text)
    row(path.stem, count, largest, time, memory, re.match(r"[a-z ]+(?= \d)", output)[0])


def main():
    parser = argparse.ArgumentParser()
    parser.add_argument("--repeats", type=int, default=5)
    parser.add_argument("--program", help="the program leadsto")
    parser.add_argument("--sizes", help="the program of lv_ground_cases")
    given = parser.parse_args()
    program = given.program or built("leadsto")
    sizes = given.sizes or built("lv_ground_cases")
    first = [ROOT / "examples" / f"{name}.leadsto" for name in FIRST]
    texts = first + [path for path in sorted((ROOT / "examples").glob("*.leadsto")) if path not in first]
    print("| text | answer | obligations | largest size | seconds | peak memory, MiB |\n|---|---|---|---|---|---|")
    for places in CHAINS:
        chain_row(program, places, given.repeats)
    for path in texts:
        text_row(program, sizes, path, given.repeats)


if __name__ == "__main__":
    main()
