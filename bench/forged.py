#!/usr/bin/env python3
"""Checks a thousand forged logs with the program as it was built, and tells how many of each answer there were.

A forged log is a log of the examples or of the worked rows with a change at one place: a sign, a digit, a byte, a line left
out, moved or written twice, a cut, a false header. None may end otherwise than by a status of the program, take more than ten
seconds, or take more memory than the log that it was made from (and a tenth more). A forged log that is assured is printed with its
change. With a second checker, written apart from this program, each answer must be that of the second one too: its status, and what it
writes.

usage: bench/forged.py [COUNT [SEED [CHECKER WORD..]]]
CHECKER WORD.. is a command that takes the name of a log as its last word."""
import collections
import os
import pathlib
import random
import subprocess
import sys
import tempfile

TOP = pathlib.Path(__file__).resolve().parent.parent
PROGRAM = TOP / "crates/gclc/out/gclc"
SECONDS = 10


def sign(lines, chance):
    """Another sign between two terms."""
    return byte_of(lines, chance, "+-", {"+": "-", "-": "+"}.get)


def digit(lines, chance):
    """Another digit."""
    return byte_of(lines, chance, "0123456789", lambda old: chance.choice([d for d in "0123456789" if d != old]))


def byte(lines, chance):
    """Another byte anywhere."""
    return byte_of(lines, chance, None, lambda old: chance.choice("#\t\x00\x7fAux.;*^ "))


def byte_of(lines, chance, among, new):
    """The text with one of these characters changed."""
    text = "\n".join(lines) + "\n"
    places = [i for i, c in enumerate(text) if among is None or c in among]
    at = chance.choice(places)
    return text[:at] + new(text[at]) + text[at + 1:], f"byte {at} {text[at]!r}"


def left_out(lines, chance):
    """A line left out."""
    at = chance.randrange(len(lines))
    return "\n".join(lines[:at] + lines[at + 1:]) + "\n", f"line {at + 1} left out"


def twice(lines, chance):
    """A line written twice."""
    at = chance.randrange(len(lines))
    return "\n".join(lines[:at + 1] + lines[at:]) + "\n", f"line {at + 1} twice"


def moved(lines, chance):
    """A line that stands elsewhere."""
    at, to = chance.randrange(len(lines)), chance.randrange(len(lines))
    rest = lines[:at] + lines[at + 1:]
    return "\n".join(rest[:to] + [lines[at]] + rest[to:]) + "\n", f"line {at + 1} behind {to}"


def cut(lines, chance):
    """The text cut off somewhere."""
    text = "\n".join(lines) + "\n"
    at = chance.randrange(len(text))
    return text[:at], f"cut at byte {at}"


def header(lines, chance):
    """A false header."""
    heads = ["gclc-proof 0", "gclc-proof 3", "gclc-proof 01", "gclc-proof 18446744073709551617", "proves 1", "proves 16", "proves 99999", ""]
    at, head = chance.randrange(2), chance.choice(heads)
    return "\n".join(lines[:at] + [head] + lines[at + 1:]) + "\n", f"line {at + 1} is {head!r}"


CHANGES = [sign, digit, byte, left_out, twice, moved, cut, header]


def run(path, folder):
    """The status of `check` (that of a killed one past the limit of time), what it wrote, and its most resident kilobytes.

    A small program waits for it, since the memory of the one that starts a program counts as its own."""
    told = folder / "memory"
    done = subprocess.run(["time", "--quiet", "-f", "%M", "-o", told, "timeout", "--signal=KILL", str(SECONDS), PROGRAM, "check", path],
                          stdout=subprocess.PIPE, stderr=subprocess.STDOUT)
    return done.returncode, done.stdout, int(told.read_text().split()[-1])


def second(checker, path):
    """The status of another checker, and what it wrote."""
    done = subprocess.run([*checker, path], stdout=subprocess.PIPE, stderr=subprocess.STDOUT)
    return done.returncode, done.stdout


def forged(count, chance):
    """So many forged logs: the log that each was made from, the kind of change, what it is, and the text."""
    logs = sorted([*(TOP / "examples").glob("*.log"), *(TOP / "crates/runs/data/logs").glob("*.log")])
    texts = {log: log.read_text(encoding="latin-1") for log in logs}
    while count > 0:
        log, change = chance.choice(logs), chance.choice(CHANGES)
        text, what = change(texts[log].split("\n")[:-1], chance)
        if text != texts[log]:
            count -= 1
            yield log, change.__name__, what, text


def main():
    count = int(sys.argv[1]) if len(sys.argv) > 1 else 1000
    chance = random.Random(int(sys.argv[2]) if len(sys.argv) > 2 else 1)
    checker = sys.argv[3:]
    answers, faults, usual, most = collections.Counter(), 0, {}, 0
    with tempfile.TemporaryDirectory() as name:
        folder = pathlib.Path(name)
        path = folder / "forged.log"
        for log, change, what, text in forged(count, chance):
            if log not in usual:
                usual[log] = run(log, folder)[2]
            path.write_text(text, encoding="latin-1")
            status, wrote, memory = run(path, folder)
            most = max(most, memory - usual[log])
            word = wrote.split(b": ")[-1].split(b"\n")[0].decode("latin-1") if status == 2 else ""
            answers[f"{change}: {status} {word}".strip()] += 1
            told = f"{log.name}, {what}: status {status}, {memory} kB, {wrote}"
            if status not in (0, 2) or memory > usual[log] * 1.1 + 1000:
                faults += 1
                print(f"fault: {told}")
            elif checker and second(checker, path) != (status, wrote):
                faults += 1
                print(f"fault: another answer of the second checker: {told}")
            elif status == 0:
                print(f"assured: {told}")
    for answer, number in sorted(answers.items()):
        print(f"{number:6} {answer}")
    print(f"{sum(answers.values())} forged logs of {len(usual)} logs, {faults} faults; at most {most} kB more than the log changed")
    return 1 if faults else 0


if __name__ == "__main__":
    sys.exit(main())
