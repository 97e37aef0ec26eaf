#!/usr/bin/env python3
"""Says which commands and texts of the documents and of examples/ are no cases of the crate lv_cases.

Usage: tools/blocks.py

The cases are what the program is tested on. So where each command of a document is a case, and the case's answer is
what stands in the document, then the document tells what the program prints. The commands run in a shell as they
stand, with a `./leadsto` that looks a call up among the cases and answers as the case does. Looked at are:

- each `sh` block of README.md and docs/*.md with `./leadsto` in it: it has to print the block behind it, or else what
  stands as a comment behind its calls;
- each row of a table with a text and a refusal: `show` has to refuse the text so;
- each block of docs/INVARIANTS.md without a command: a case has to begin with its first line and have its items;
- each text of examples/: NAME.expected is what `prove` prints, NAME.shown what `show` writes, and NAME.lasso is
  replayed; and each row of a table that tells what `prove` prints of one.

A newline at the end of a text makes no difference here. Each case that is missing is printed as a line for
crates/lv_cases/stdin, and each answer that differs with both sides. The status is 0 where there is none of either.
"""
import hashlib
import os
import re
import subprocess
import sys
import tempfile
from pathlib import Path

ROOT = Path(__file__).resolve().parent.parent
CASES = ROOT / "crates" / "lv_cases"

# What stands in place of the program: it looks the call up, writes its answer, and notes a call that is no case.
STAND_IN = """#!{python}
import hashlib, os, sys
text = sys.stdin.buffer.read()
words = [os.fsencode(word) for word in sys.argv[1:]]
name = hashlib.sha256(b"\\0".join(words + [text])).hexdigest()
answer = os.path.join({index!r}, name)
if not os.path.exists(answer):
    with open(os.path.join({index!r}, "missing"), "ab") as missing:
        missing.write(b"\\0".join(words + [text]) + b"\\0\\n\\0")
    sys.exit(99)
with open(answer, "rb") as file:
    status, out, err = (bytes.fromhex(line.decode()) for line in file.read().split(b"\\n"))
sys.stdout.buffer.write(out)
sys.stdout.buffer.flush()
sys.stderr.buffer.write(err)
sys.exit(int(status))
"""


def bytes_of(spelled):
    """The bytes that are written so in a line of stdin."""
    def escapes(part, number):
        part = re.sub(rb"\\#", str(number).encode(), part)
        return re.sub(rb"\\(n|x[0-9a-f]{2})", lambda m: b"\n" if m[1] == b"n" else bytes([int(m[1][1:], 16)]), part)

    first, *pieces = spelled.split(b"\\[")
    made = [escapes(first, 0)]
    for piece in pieces:
        repeated, rest = piece.split(b"\\]", 1)
        times, part = repeated.split(b" ", 1)
        made += [escapes(part, number) for number in range(int(times))] + [escapes(rest, 0)]
    return b"".join(made)


def spelled(text):
    """How a text is written in a line of stdin."""
    text = text.replace(b"\\", b"\\x5c").replace(b"\n", b"\\n")
    return "".join(chr(b) if 32 <= b < 127 else f"\\x{b:02x}" for b in text)


def shown_bytes(text):
    """The bytes that a line of stdout has between two quotes."""
    names = {b"n": b"\n", b"t": b"\t", b"r": b"\r", b"'": b"'", b'"': b'"', b"\\": b"\\"}
    return re.sub(rb"\\(x[0-9a-f]{2}|.)", lambda m: names.get(m[1]) or bytes([int(m[1][1:], 16)]), text)


class Cases:
    """The calls that are cases, by words and text, without those over streams with settings."""

    def __init__(self, index):
        self.index = index
        self.answers = {}
        lines = zip((CASES / "stdin").read_bytes().split(b"\n"), (CASES / "stdout").read_bytes().split(b"\n"))
        for case, answer in lines:
            call, _, text = case.partition(b" | ")
            if call.startswith(b"run ") and b" | " not in text:
                words = tuple(bytes_of(word) for word in call.split(b" ")[1:])
                self.add(words, bytes_of(text), answer)

    def add(self, words, text, answer):
        status, out, err = re.fullmatch(rb'(\d+) "(.*)" "(.*)"', answer).groups()
        entry = (int(status), shown_bytes(out), shown_bytes(err))
        for same in {text, text + b"\n", text[:-1] if text.endswith(b"\n") else text}:
            self.answers.setdefault((words, same), entry)
            name = hashlib.sha256(b"\0".join([*words, same])).hexdigest()
            fields = (str(entry[0]).encode(), entry[1], entry[2])
            (self.index / name).write_text("\n".join(field.hex() for field in fields))

    def missing_calls(self):
        """The calls that the stand-in did not find since the last question."""
        path = self.index / "missing"
        if not path.exists():
            return []
        calls = path.read_bytes().split(b"\0\n\0")[:-1]
        path.unlink()
        return [tuple(call.split(b"\0")) for call in calls]


class Report:
    """What is missing and what differs."""

    def __init__(self):
        self.looked_at = 0
        self.missing = {}
        self.different = []

    def miss(self, place, words, text):
        line = "run " + " ".join(word.decode() for word in words) + " | " + spelled(text)
        self.missing.setdefault(line, place)

    def compare(self, place, printed, wanted):
        if printed.strip() != wanted.strip():
            self.different.append((place, printed, wanted))

    def look(self, cases, place, words, text, wanted):
        """One call whose answer is known: what it prints to both sinks."""
        self.looked_at += 1
        found = cases.answers.get((words, text))
        if found is None:
            self.miss(place, words, text)
        else:
            self.compare(place, found[1] + found[2], wanted)


def blocks(text):
    """The blocks of a document: the line of the first fence, its word, and what stands inside."""
    return [
        (text.count("\n", 0, m.start()) + 1, m[1], m[2])
        for m in re.finditer(r"^```(\w*)\n(.*?)^```$", text, re.M | re.S)
    ]


def run_block(folder, command):
    """What a block prints in a folder with the stand-in, both sinks together."""
    command = command.replace("/tmp/", f"{folder}/")
    done = subprocess.run(["bash", "-c", command], cwd=folder, stdout=subprocess.PIPE, stderr=subprocess.STDOUT)
    return done.stdout


def look_at_blocks(report, cases, folder, path):
    """The commands of a document, each with the block behind it or the comments in it."""
    found = blocks(path.read_text())
    for number, (line, kind, inside) in enumerate(found):
        place = f"{path.relative_to(ROOT)}:{line}"
        behind = found[number + 1] if number + 1 < len(found) else None
        if kind == "" and path.name == "INVARIANTS.md":
            look_at_answer(report, cases, place, inside.encode())
        if kind != "sh" or "./leadsto" not in inside:
            continue
        if behind and behind[1] == "" and behind[0] == line + inside.count("\n") + 2:
            wanted = behind[2]
        else:
            calls = [row for row in inside.splitlines() if not row.startswith("rt ")]
            inside = "\n".join(calls)
            wanted = "\n".join(row.rsplit("# ", 1)[1] for row in calls if "./leadsto" in row and "# " in row)
        report.looked_at += 1
        printed = run_block(folder, inside)
        missing = cases.missing_calls()
        for *words, text in missing:
            report.miss(place, tuple(words), text)
        if not missing:
            report.compare(place, printed, wanted.encode())


def look_at_answer(report, cases, place, block):
    """A block that has the first line of an answer and some of its items."""
    report.looked_at += 1
    first, _, rest = block.partition(b"\n")
    items = re.findall(rb"\((?:[^()]|\([^()]*\))*\)", rest)
    for _, out, _ in cases.answers.values():
        lines = out.split(b"\n")
        if lines[0] == first and all(any(item in line for line in lines[1:]) for item in items):
            return
    report.different.append((place, b"no case with this answer", block))


def look_at_tables(report, cases, path):
    """The rows with a text that is refused, and those that tell what `prove` prints of an example."""
    header = ""
    for number, line in enumerate(path.read_text().splitlines(), 1):
        place = f"{path.relative_to(ROOT)}:{number}"
        if not line.startswith("|"):
            header = ""
            continue
        header = header or line
        cells = [cell.strip() for cell in line.strip("|").split(" | ")]
        if match := re.fullmatch(r"`(text refused at \d+: [a-z ]+)`", cells[-1].strip(" |")):
            text = cells[0].strip(" |").strip("`") + "\n"
            report.look(cases, place, (b"show",), text.encode(), match[1].encode())
        example = ROOT / "examples" / (cells[0].strip(" |`").removesuffix(".leadsto") + ".leadsto")
        if cells[0].strip(" |").startswith("`") and example.exists():
            look_at_row(report, cases, place, header, cells, example.read_bytes())


def look_at_row(report, cases, place, header, cells, text):
    """A row of a table of examples: the first line that `prove` prints, or how many obligations it proves."""
    report.looked_at += 1
    answer = cases.answers.get(((b"prove",), text))
    if answer is None:
        return report.miss(place, (b"prove",), text)
    first = answer[1].decode().splitlines()[0]
    names = [name.strip() for name in header.strip("|").split(" | ")]
    for name, cell in zip(names, cells):
        if name == "obligations":
            report.compare(place, first.encode(), f"proved {cell} obligations".encode())
        if name == "answer of `prove`":
            report.compare(place, first.encode(), cell.split("`")[1].encode())


def look_at_examples(report, cases):
    """The texts of examples/ and what stands beside them."""
    for path in sorted((ROOT / "examples").glob("*.leadsto")):
        text, place = path.read_bytes(), str(path.relative_to(ROOT))
        report.look(cases, place, (b"prove",), text, path.with_suffix(".expected").read_bytes())
        shown, lasso = path.with_suffix(".shown"), path.with_suffix(".lasso")
        if shown.exists():
            report.look(cases, str(shown.relative_to(ROOT)), (b"show",), text, shown.read_bytes())
        if lasso.exists():
            report.looked_at += 1
            replayed = b"(replay\n" + text + lasso.read_bytes() + b")\n"
            if ((b"replay",), replayed) not in cases.answers:
                report.miss(str(lasso.relative_to(ROOT)), (b"replay",), replayed)


def main():
    report = Report()
    with tempfile.TemporaryDirectory() as made:
        folder, index = Path(made) / "here", Path(made) / "index"
        folder.mkdir()
        index.mkdir()
        (folder / "examples").symlink_to(ROOT / "examples")
        (folder / "leadsto").write_text(STAND_IN.format(python=sys.executable, index=str(index)))
        os.chmod(folder / "leadsto", 0o755)
        cases = Cases(index)
        for path in [ROOT / "README.md", *sorted((ROOT / "docs").glob("*.md"))]:
            look_at_blocks(report, cases, folder, path)
            look_at_tables(report, cases, path)
        look_at_examples(report, cases)
    for line, place in report.missing.items():
        print(f"missing, {place}:\n{line}")
    for place, printed, wanted in report.different:
        print(f"different, {place}:\n  the case: {printed.decode()!r}\n  the text: {wanted.decode()!r}")
    print(f"looked at {report.looked_at}: {len(report.missing)} missing, {len(report.different)} different")
    sys.exit(bool(report.missing or report.different))


if __name__ == "__main__":
    main()
