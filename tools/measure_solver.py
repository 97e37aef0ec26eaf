#!/usr/bin/env python3
"""Times the solver beside minisat on pigeons and on random clauses, and prints a table.

Usage: tools/measure_solver.py [REPEATS]

It runs the program of the crate lv_solver_cases, which must have been built (`rt run` in its folder), and `minisat`, which
must be on the path. Each time is the processor time of a whole process, the best of REPEATS (5) runs, less that of a
process that is given an instance with no clause. The seeds are fixed, so each run measures the same instances.
"""

import glob
import os
import random
import subprocess
import sys
import tempfile

ROOT = os.path.dirname(os.path.dirname(os.path.abspath(__file__)))
BUDGET = 2_000_000_000
SEEDS = range(1, 11)


def pigeons(count, holes):
    """Each pigeon sits in a hole, and no two in the same one."""
    def seat(pigeon, hole):
        return pigeon * holes + hole + 1

    clauses = []
    for pigeon in range(count):
        clauses.append([seat(pigeon, hole) for hole in range(holes)])
        clauses += [
            [-seat(other, hole), -seat(pigeon, hole)] for other in range(pigeon) for hole in range(holes)
        ]
    return count * holes, clauses


def random_clauses(variables, count, seed):
    """Clauses of three different variables with random signs."""
    generator = random.Random(seed)
    return variables, [
        [variable * generator.choice((1, -1)) for variable in generator.sample(range(1, variables + 1), 3)]
        for _ in range(count)
    ]


def built_program():
    """The newest program that was built of the crate."""
    folder = os.path.join(ROOT, "crates", "lv_solver_cases", "out")
    found = [
        path
        for path in glob.glob(os.path.join(folder, "**", "*"), recursive=True)
        if os.path.basename(path) == "lv_solver_cases" and os.path.isfile(path) and os.access(path, os.X_OK)
    ]
    if not found:
        sys.exit("lv_solver_cases is not built: run `rt run` in crates/lv_solver_cases")
    return max(found, key=os.path.getmtime)


def case_line(instance):
    variables, clauses = instance
    numbers = " ".join(" ".join(map(str, clause)) + " 0" for clause in clauses)
    return f"solve set {BUDGET} {variables} {numbers}\n"


def dimacs(instance):
    variables, clauses = instance
    lines = [f"p cnf {variables} {len(clauses)}"]
    return "\n".join(lines + [" ".join(map(str, clause)) + " 0" for clause in clauses]) + "\n"


def run(command, source):
    """The processor time of a process in milliseconds, with its output and its status."""
    with open(source, "rb") as stdin:
        process = subprocess.Popen(command, stdin=stdin, stdout=subprocess.PIPE, stderr=subprocess.DEVNULL)
        output = process.stdout.read().decode().strip()
        _, status, usage = os.wait4(process.pid, 0)
    process.returncode = os.waitstatus_to_exitcode(status)
    return 1000 * (usage.ru_utime + usage.ru_stime), output, process.returncode


def ours(program, source):
    time, output, _ = run([program], source)
    return time, output


def theirs(source):
    time, _, status = run(["minisat", "-verb=0", source], os.devnull)
    return time, {10: "sat", 20: "unsat"}.get(status, "no answer")


def measure(program, folder, instance, repeats):
    """The least times of both and their common answer."""
    line, cnf = os.path.join(folder, "line"), os.path.join(folder, "cnf")
    with open(line, "w") as out:
        out.write(case_line(instance))
    with open(cnf, "w") as out:
        out.write(dimacs(instance))
    first = [ours(program, line) for _ in range(repeats)]
    second = [theirs(cnf) for _ in range(repeats)]
    answers = {answer for _, answer in first + second}
    if len(answers) != 1:
        sys.exit(f"the answers differ: {answers}")
    return min(time for time, _ in first), min(time for time, _ in second), answers.pop()


def main():
    repeats = int(sys.argv[1]) if len(sys.argv) > 1 else 5
    program = built_program()
    rows = [("pigeons, 6 in 5", pigeons(6, 5)), ("pigeons, 7 in 6", pigeons(7, 6))]
    rows += [(f"random, seed {seed}", random_clauses(100, 420, seed)) for seed in SEEDS]
    with tempfile.TemporaryDirectory() as folder:
        our_start, their_start, _ = measure(program, folder, (1, []), repeats)
        print(f"start of a process: lv_sat {our_start:.1f} ms, minisat {their_start:.1f} ms\n")
        print("| instance | answer | lv_sat, ms | minisat, ms |\n|---|---|---|---|")
        for name, instance in rows:
            our_time, their_time, answer = measure(program, folder, instance, repeats)
            print(f"| {name} | {answer} | {max(our_time - our_start, 0):.1f} | {max(their_time - their_start, 0):.1f} |")


if __name__ == "__main__":
    main()
