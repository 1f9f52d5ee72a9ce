#!/usr/bin/env python3
"""Runs the gate from nothing, and tells how many minutes of user time each crate takes for its proof, its tests and its
must-fail edits. With names, it does so for these crates and those below them alone. Run it on a machine that does nothing
else; what the gate says goes to gate.log."""
import collections
import os
import pathlib
import subprocess
import sys
import time

TOP = pathlib.Path(__file__).resolve().parent.parent
TICKS = os.sysconf("SC_CLK_TCK")


def lines_of(crate):
    """How many lines of code, definitions and proofs a crate has."""
    files = [f for f in (TOP / "crates" / crate).rglob("*") if f.suffix in (".rt", ".antt") and "out" not in f.parts]
    return sum(f.read_text().count("\n") for f in files)


def processes():
    """The machine's processes, by number: the words that each was started with, its parent, and the user time that it and its
    own processes had, in seconds."""
    found = {}
    for process in pathlib.Path("/proc").iterdir():
        try:
            words = (process / "cmdline").read_bytes().decode().split("\0")
            fields = (process / "stat").read_text().rsplit(")", 1)[1].split()
        except (OSError, UnicodeDecodeError, IndexError):
            continue
        found[process.name] = (words, fields[1], (int(fields[11]) + int(fields[13])) / TICKS)
    return found


def jobs(gate):
    """The prover's processes under the gate: their number, what they are for, and the user time that they had."""
    found = processes()

    def is_under(pid):
        while pid in found and pid != gate:
            pid = found[pid][1]
        return pid == gate

    for pid, (words, _, seconds) in found.items():
        if "--crate-name" in words and words[0].endswith("/rattle") and is_under(pid):
            kind = "tests" if "--test" in words else "edits" if words[1] == "check" else "proof"
            yield pid, (words[words.index("--crate-name") + 1], kind), seconds


def main():
    """Samples the processes while the gate runs: a process has had at least what it had when it was last seen."""
    seen = {}
    with open(TOP / "gate.log", "w") as log:
        gate = subprocess.Popen(["rt", "ci", "--anew", *sys.argv[1:]], cwd=TOP, stdout=log, stderr=subprocess.STDOUT)
        while gate.poll() is None:
            seen.update({pid: (job, seconds) for pid, job, seconds in jobs(str(gate.pid))})
            time.sleep(0.5)
    minutes = collections.Counter()
    for job, seconds in seen.values():
        minutes[job] += seconds / 60
    print("| Crate | Lines | Proof | Tests | Edits | Minutes for 1,000 lines |")
    print("|---|---|---|---|---|---|")
    for crate in sorted({crate for crate, _ in minutes}):
        parts = [minutes[crate, kind] for kind in ("proof", "tests", "edits")]
        lines = lines_of(crate)
        print(f"| `{crate}` | {lines:,} |", " | ".join(f"{m:.1f}" for m in parts), f"| {1000 * sum(parts) / lines:.1f} |")
    print(f"All: {sum(minutes.values()):.0f} minutes of user time; the gate ended with status {gate.returncode}")


if __name__ == "__main__":
    main()
