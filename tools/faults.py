"""What tools/refuse_memory.py and tools/refuse_io.py share: the runs that they try, and how each of their calls goes wrong.

tools/faults.c, which is compiled and preloaded, makes one call after the other go wrong in a process of its own.
"""
import os
import subprocess
import sys
import tempfile
from pathlib import Path

ROOT = Path(__file__).resolve().parent.parent

TICKETS_LASSO = """
(lasso
  (structure
    (size ticket 3)
    (relation le (0 0) (0 1) (0 2) (1 1) (1 2) (2 2))
    (constant serv 0)
    (constant nxt 0))
  (stem (arrive 1) (advance 1) (arrive 2) (advance 2))
  (loop (idle)))
"""


def example(name):
    return (ROOT / "examples" / f"{name}.leadsto").read_bytes()


def replay(text, lasso):
    return b"(replay\n" + text + lasso + b")\n"


def check(program, name):
    """A check of the countermodel that the program prints of an example."""
    done = subprocess.run([program, "prove"], input=example(name), capture_output=True, check=False)
    first, _, structure = done.stdout.partition(b"\n")
    return b"(check\n" + example(name) + first.split(b" ")[1] + b"\n" + structure + b")\n"


def runs(program):
    """The runs that are tried, by name: the words and the text of each."""
    return {
        "show tickets": (["show"], example("tickets")),
        "prove small": (["prove"], example("small")),
        "replay a lasso of tickets": (["replay"], replay(example("tickets"), TICKETS_LASSO.encode())),
        "prove wrong_unfair_scheduler, a countermodel": (["prove"], example("wrong_unfair_scheduler")),
        "check the countermodel of wrong_unfair_scheduler": (["check"], check(program, "wrong_unfair_scheduler")),
        "prove failure_detector": (["prove"], example("failure_detector")),
        "make 2": (["make", "2"], b""),
        "show a text that is refused": (["show"], b"(system a (property p))\n"),
        "words that are no command": (["twice"], b""),
    }


def built_program():
    """The program of the first word, or else the one that `./leadsto` builds."""
    program = Path(sys.argv[1] if len(sys.argv) > 1 else ROOT / "crates" / "leadsto" / "out" / "leadsto").resolve()
    if not os.access(program, os.X_OK):
        sys.exit(f"{program} isn't built: run ./leadsto show < examples/small.leadsto")
    return str(program)


class Ending:
    """A way in which calls of a kind made the run end: how many, the first, and what was seen."""

    def __init__(self, line):
        many, first, status, *sinks = line.split(" ")
        self.many, self.first, self.status = int(many), int(first), int(status)
        self.out, self.err = (bytes.fromhex(sink.split(":")[1]) for sink in sinks)


def endings(shim, program, kind, words, text):
    """The run as it ends without a fault, and the ways in which it ends where one call of the kind goes wrong."""
    with tempfile.TemporaryDirectory() as folder:
        paths = [os.path.join(folder, name) for name in ("stdin", "stdout", "stderr", "report")]
        Path(paths[0]).write_bytes(text)
        env = {"FAULT": kind, "FAULT_REPORT": paths[3], "LD_PRELOAD": shim}
        with open(paths[0], "rb") as source, open(paths[1], "wb") as out, open(paths[2], "wb") as err:
            status = subprocess.call([program, *words], stdin=source, stdout=out, stderr=err, env=env)
        plain = (status, Path(paths[1]).read_bytes(), Path(paths[2]).read_bytes())
        return plain, [Ending(line) for line in Path(paths[3]).read_text().splitlines()]


def compiled(folder):
    shim = os.path.join(folder, "faults.so")
    subprocess.run(["cc", "-O2", "-shared", "-fPIC", "-o", shim, str(ROOT / "tools" / "faults.c"), "-ldl"], check=True)
    return shim
