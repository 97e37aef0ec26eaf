#!/usr/bin/env python3
"""Runs the program on the worst texts of each kind, and prints a table of their seconds and peak memory.

Usage: tools/hostile.py [--program PROGRAM] [--seconds N] [WORD..]

PROGRAM is the built program, else the one that `./leadsto` builds. With WORDs only the texts are run whose names have one of
them. A run that takes more than N (120) seconds is ended, and its row says so. Each takes at most 4 GiB of addresses.
The seconds are those of the processor, with the system's. Peak memory is the most that was resident; what is less than 20 MiB can't be told
from this script's own.
"""
import argparse
import os
import random
import resource
import subprocess
import sys
import tempfile
from pathlib import Path

ROOT = Path(__file__).resolve().parent.parent
MAX_BYTES = 1_048_576


def fill(start, part, end):
    """A part as often as the limit on bytes allows."""
    return start + part * ((MAX_BYTES - len(start) - len(end)) // len(part)) + end


def system(*items, label=""):
    return "(system a " + " ".join(items) + f" (property true){label})"


def symbols(kind, names, rest):
    return [f"({kind} {name} {rest})" for name in names]


def invariants(count, formula):
    return " ".join(f"(invariant i{n} {formula})" for n in range(count))


def full(sizes, arity):
    """All tuples of so many elements, as a structure lists them."""
    tuples = [()]
    for _ in range(arity):
        tuples = [t + (n,) for t in tuples for n in range(sizes)]
    return " ".join("(" + " ".join(map(str, t)) + ")" for t in tuples)


def pigeons(holes):
    """One pigeon more than there are holes, each in a hole and no two in one."""
    def seat(pigeon, hole):
        return f"h{pigeon}-{hole}"

    names = [seat(p, h) for p in range(holes + 1) for h in range(holes)]
    seated = [" ".join(f"(or {' '.join(seat(p, h) for h in range(holes))})" for p in range(holes + 1))]
    alone = [f"(not (and {seat(p, h)} {seat(q, h)}))" for h in range(holes) for p in range(holes + 1) for q in range(p)]
    axioms = [f"(axiom (and {' '.join(some)}))" for some in [seated, *chunks(alone, 150)]]
    return system(*symbols("relation", names, "() fixed"), *axioms)


def chunks(items, size):
    return [items[at:at + size] for at in range(0, len(items), size)]


def random_clauses(variables, seed):
    """Clauses of three different variables with random signs, as many for each as make them hard. The variables are the atoms of
    a relation of two arguments over constants."""
    generator = random.Random(seed)
    constants = range(1, 1 + next(n for n in range(300) if n * n >= variables))
    names = [f"(r c{i} c{j})" for i in constants for j in constants][:variables]
    clauses = ["(or " + " ".join(generator.choice([n, f"(not {n})"]) for n in generator.sample(names, 3)) + ")"
               for _ in range(426 * variables // 100)]
    axioms = [f"(axiom (and {' '.join(some)}))" for some in chunks(clauses, 145)]
    return system("(sort s)", "(relation r (s s) fixed)", *symbols("constant", [f"c{n}" for n in constants], "s fixed"), *axioms)


def quantified(places, count, arity, body):
    """An axiom with so many variables over one sort with so many constants, and one that names each constant."""
    names = [f"X{n}" for n in range(places)]
    inside = body.replace("VARS", " ".join(names[:arity]))
    for name in reversed(names):
        inside = f"(all {name} s {inside})"
    constants = [f"c{n}" for n in range(count)]
    return system("(sort s)", f"(relation r ({' '.join(['s'] * arity)}) fixed)", "(relation q (s) fixed)",
                  *symbols("constant", constants, "s fixed"), f"(axiom (or {' '.join(f'(q {c})' for c in constants)}))",
                  f"(axiom {inside})")


PAIRS = "(always (eventually (all A s (all B s (r A B)))))"


def full_replay(elements, steps, prop, update=""):
    loop = " ".join(["(stay)"] * steps)
    wide = f"(sort s) (relation r (s s)) (action stay () (guard true) {update})"
    return (f"(replay (system a {wide} (property {prop})) (lasso (structure (size s {elements}) "
            f"(relation r {full(elements, 2)})) (stem {loop}) (loop {loop or '(stay)'})))")


def labelled(count):
    """32 labels over a relation of four arguments, half of them in witnesses, and an action that sets it."""
    labels = [f"(label l{n} (A s B s C s D s) (always (or (r A B C D) (= A c{n % count}) {'p ' * n})))" for n in range(16)]
    witnesses = [f"(witness w{n} (X s) (always (or (r X X X c{n % count}) {'p ' * n})))" for n in range(16)]
    return ("(system a (sort s) (relation r (s s s s)) (relation p ()) " + " ".join(symbols("constant", [f"c{n}" for n in range(count)], "s"))
            + " (action go (X s Y s Z s U s) (guard true) (set r (A B C D) (or (r A B C D) (and (= A X) (= B Y) (= C Z) (= D U))))) "
            + " ".join(labels + witnesses) + " (property true) (invariant i (not saved)))")


def filled(elements):
    """A lasso whose first step fills a relation of four arguments."""
    return ("(replay (system a (sort s) (relation r (s s s s)) (action fill () (guard true) (set r (A B C D) true)) (property true)) "
            f"(lasso (structure (size s {elements}) (relation r)) (stem (fill)) (loop (fill))))")


def full_check(elements, arity, axiom):
    sorts = " ".join(["s"] * arity)
    return (f"(check (system a (sort s) (relation r ({sorts}) fixed) (axiom {axiom}) (property true)) 0 (structure "
            f"(size s {elements}) (relation r {full(elements, arity)}) (relation frozen) (relation saved ()) "
            "(relation touched.s) (relation kept.s)))")


def texts():
    """Each text with its name and the words of the command, in the order of the table."""
    show, prove, check, replay = ["show"], ["prove"], ["check"], ["replay"]
    five = ("(all A s (all B s (all C s (all D s (r A B C D)))))", "(all A s (all B s (all C s (or (r A B) (r B C)))))")
    labels = "(property " + "(always " * 32 + "p" + ")" * 33
    big = "(or " + " ".join(["p"] * 1023) + ")"
    both = "(iff (iff " + "(or " + " ".join(["p"] * 510) + ") " + "(and " + " ".join(["p"] * 508) + ")) p)"
    witnesses = [f"(witness w{n} (X s) (eventually (r X c{n})))" for n in range(16)]
    yield "one list of 524,000 words", show, fill("(", "a ", ")")
    yield "one list of 524,000 empty lists", show, fill("(", "()", ")")
    yield "lists nested 64 deep, 8,000 times", show, fill("(", "(" * 63 + ")" * 63, ")")
    yield "a million brackets that open", show, "(" * MAX_BYTES
    yield "a comment of a million bytes", show, fill("(system a (property true)) ;", "x", "")
    yield "words of 64 letters", show, fill("(", "a" * 64 + " ", ")")
    inv = f"(system a (relation p ()) (action go () (guard true)) (property true) {invariants(256, big)})"
    yield "256 invariants of 1,024 nodes", show, inv
    yield "256 invariants of 1,024 nodes, one action", prove, inv
    yield "256 invariants of 1,022 nodes with `iff` in `iff`", show, inv.replace(big, both)
    yield "16 invariants of 1,022 nodes with `iff` in `iff`, one action", prove, (
        f"(system a (relation p ()) (action go () (guard true)) (property true) {invariants(16, both)})")
    yield "`not` 58 deep in 256 invariants, 32 actions", prove, (
        "(system a (relation p ()) " + " ".join(f"(action g{n} () (guard true))" for n in range(32))
        + f" (property true) {invariants(256, '(or ' + '(not ' * 57 + 'p' + ')' * 57 + ' (not p))')})")
    yield "32 labels inside each other, 16 invariants", prove, (
        f"(system a (relation p ()) (action go () (guard true)) {labels} {invariants(16, '(not saved)')})")
    yield "16 witnesses, with labels of their own", prove, (
        "(system a (sort s) (relation r (s s)) " + " ".join(symbols("constant", [f"c{n}" for n in range(16)], "s"))
        + " (action go (X s) (guard true) (set r (A B) (or (r A B) (= A X)))) " + " ".join(witnesses)
        + " (property true) (invariant i (not saved)))")
    yield "16 labels of four variables, 16 more in witnesses", prove, labelled(2)
    yield "the same over 16 constants", prove, labelled(16)
    yield "near the limit of size: a relation of four arguments, 15 constants", prove, quantified(4, 15, 4, "(not (r VARS))")
    yield "the same with 16 constants", prove, quantified(4, 16, 4, "(not (r VARS))")
    yield "near the limit of size: two variables, 110 constants", prove, quantified(2, 110, 2, "(or (r VARS) (= X0 X1))")
    yield "near the limit of size: one variable, 158 constants", prove, quantified(1, 158, 1, "(or (r VARS) (= X0 c0))")
    yield "50 variables over 200 constants", prove, quantified(50, 200, 4, "(r VARS)")
    yield "pigeons, 9 in 8", prove, pigeons(8)
    yield "pigeons, 10 in 9", prove, pigeons(9)
    yield "pigeons, 11 in 10", prove, pigeons(10)
    yield "random clauses, 150 variables", prove, random_clauses(150, 1)
    yield "random clauses, 250 variables", prove, random_clauses(250, 1)
    yield "random clauses, 2,000 variables", prove, random_clauses(2000, 1)
    yield "the same, budget 1,000,000", prove + ["--budget", "1000000"], random_clauses(2000, 1)
    yield "a full relation of two, 256 elements", check, full_check(256, 2, "(all A s (all B s (r A B)))")
    yield "the same, three variables", check, full_check(256, 2, five[1])
    yield "a full relation of four, 16 elements", check, full_check(16, 4, five[0])
    yield "the same, eight variables", check, full_check(16, 4, "(all P s (all Q s (all U s (all V s " + five[0] + "))))")
    yield "a full relation of two, 256 elements, 1 step", replay, full_replay(256, 0, "true")
    yield "the same, 256 and 256 steps", replay, full_replay(256, 256, "true")
    yield "the same, each step sets the relation", replay, full_replay(256, 256, "true", "(set r (A B) (r A B))")
    yield "the same, and a property over all pairs at all times", replay, full_replay(
        256, 256, PAIRS, "(set r (A B) (r A B))")
    yield "no step sets it, the property over all pairs at all times", replay, full_replay(
        256, 256, PAIRS)
    yield "the same with 64 elements, a variable of the property for each", replay, full_replay(
        64, 256, "(all A s (all B s (always (eventually (r A B)))))")
    yield "a relation of four that each step fills, 16 elements", replay, filled(16)
    yield "the same, 32 elements", replay, filled(32)
    yield "the same, 64 elements", replay, filled(64)
    yield "the same, 256 elements", replay, filled(256)


def run(program, words, text, seconds):
    """The status, the first line of either sink, the processor time and the peak memory in MiB."""
    def limits():
        resource.setrlimit(resource.RLIMIT_CPU, (seconds, seconds + 1))
        resource.setrlimit(resource.RLIMIT_AS, (4 << 30, 4 << 30))

    with tempfile.TemporaryFile() as source, tempfile.TemporaryFile() as sink:
        source.write(text.encode())
        source.seek(0)
        child = subprocess.Popen([program, *words], stdin=source, stdout=sink, stderr=sink, preexec_fn=limits)
        _, status, usage = os.wait4(child.pid, 0)
        child.returncode = os.waitstatus_to_exitcode(status)
        sink.seek(0)
        first = sink.read().decode().split("\n")[0]
    return child.returncode, first, usage.ru_utime + usage.ru_stime, usage.ru_maxrss / 1024


def main():
    parser = argparse.ArgumentParser()
    parser.add_argument("--program", default=str(ROOT / "crates" / "leadsto" / "out" / "leadsto"))
    parser.add_argument("--seconds", type=int, default=120)
    parser.add_argument("words", nargs="*")
    chosen = parser.parse_args()
    if not os.access(chosen.program, os.X_OK):
        sys.exit(f"{chosen.program} isn't built: run ./leadsto show < examples/small.leadsto")
    print("| text | bytes | mode | answer | seconds | peak memory, MiB |\n|---|---|---|---|---|---|", flush=True)
    for name, words, text in texts():
        if chosen.words and not any(word in name for word in chosen.words):
            continue
        if len(text) > MAX_BYTES:
            sys.exit(f"{name}: the text has {len(text)} bytes")
        status, first, seconds, peak = run(chosen.program, words, text, chosen.seconds)
        answer = f"`{first[:70]}`" if status >= 0 else "ended before its answer"
        time_taken = f"{seconds:.2f}" if status >= 0 else f"more than {chosen.seconds}"
        memory = f"{peak:,.0f}" if peak >= 20 else "< 20"
        print(f"| {name} | {len(text):,} | {words[0]} | {answer} | {time_taken} | {memory} |", flush=True)


if __name__ == "__main__":
    main()
