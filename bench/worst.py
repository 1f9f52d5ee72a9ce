#!/usr/bin/env python3
"""What a stranger's log or file costs at most: makes the dearest that were found, and measures the program over them.

Logs. `steep`: one node whose equations are reduced a degree at a time, each step by the product of a polynomial of 1,980 terms with
one term, of which one term is left. Two coefficients are so large that each row of the product is judged by itself: nothing was
found that takes more work for each unit of fuel. `long`: as many hypotheses as there may be, each as long as may be, listed
once more at an open leaf. `line`: one line without an end.
Files. `dashes`: dashed segments across a picture that is as wide as may be. `circles`, `lines` and `ratios`: random figures of about
as many points as a proof may have, of which the dearest of so many is taken.

usage: bench/worst.py [PROGRAM [SECONDS]]   a table of all; a run that takes more seconds (600) is ended, and told as `more`
       bench/worst.py make KIND SIZE        such a log or file, to standard output"""
import os
import pathlib
import random
import subprocess
import sys
import tempfile

PROGRAM = pathlib.Path(__file__).resolve().parent.parent / "crates/gclc/out/gclc"
FUEL = 320_000
MOST_LOG = 268_435_456
SEARCHED = 60


def term(coefficient, factors):
    """A term with the factors of these names and powers."""
    names = [name + (f"^{power}" if power > 1 else "") for name, power in factors if power]
    return "*".join(([str(coefficient)] if coefficient > 1 or not names else []) + names)


def box(width, height, behind):
    """The products of the powers of u1 below `width` and those of u2 below `height`, times what stands behind; the first two are large."""
    places = [(i, j) for i in reversed(range(height)) for j in reversed(range(width))]
    return " + ".join(term(2**126 if k < 2 else 1, [("u1", j), ("u2", i), *behind]) for k, (i, j) in enumerate(places))


def steep(size):
    """A log of about so many bytes, and at most as long as its fuel lasts."""
    last = 1 if size < 200_000 else 4 if size < 2_000_000 else 24
    width, height = (44, 45) if size >= 100_000 else (max(2, int((size / 60) ** 0.5)),) * 2
    known = box(width, height, [])
    hyps = [f"{box(width, height, [(f'x{k}', 1)])} + 1" for k in range(1, last + 1)]
    hyps += [term(1, [(f"x{k}", 63) for k in range(1, last + 1)])] * (48 - last)
    lines = ["gclc-proof 1", "proves 1", "prove 1", " ".join(["vars", "u1", "u2"] + [f"x{k}" for k in range(1, last + 1)])]
    lines += [f"hyp {h}" for h in hyps] + ["con u1", "node .", f"split 1 {known}", "node .+"]
    count = width * height
    left = (FUEL - 1 - count) * 7 // 8 - (4 + last * (count + 2) + (48 - last) * 2 + count + 1)
    length = sum(len(line) + 1 for line in lines)
    for g in range(last, 48):
        for k in range(1, last + 1):
            for power in reversed(range(63)):
                left -= 2
                if left < 0 or length > size:
                    return "\n".join(lines) + "\n"
                rest = term(1, [(f"x{k}", power), *((f"x{n}", 63) for n in range(k + 1, last + 1))])
                lines.append(f"red {g + 1} {k} -1 {rest}")
                length += len(lines[-1]) + 1
    return "\n".join(lines) + "\n"


def long(size):
    """A log whose node is open at a degree, with 48 hypotheses of terms of 700 bytes, of at most so many bytes."""
    tail = "*".join(f"u{v}^63" for v in range(3, 48)) + "*u48"
    terms = max(2, min(2000, size // (2 * 47 * 360)))

    def hypothesis(h):
        rows = (f"{17014118346046923173168730371588410}{h + 100}*u1^{t % 62 + 2}*u2^{2 + t // 62}*{tail}" for t in range(terms - 1, 0, -1))
        return " + ".join([*rows, "1"])

    first, rest = "u48 + u1^63", [hypothesis(h) for h in range(2, 49)]
    lines = ["gclc-proof 1", "proves 1", "prove 1", "vars " + " ".join(f"u{v}" for v in range(1, 49))]
    lines += [f"hyp {first}", *(f"hyp {h}" for h in rest), "con 0", "node .", "open degree red 2 1", f"eq {first}"]
    return "\n".join(lines + [f"eq {h}" for h in rest] + ["verdict left . degree", "end", ""])


def line(size):
    """One line that does not end."""
    return "x" * size


def dashes(size):
    """A picture as wide as may be, of dashed segments."""
    head = "dim 1000 1000\npoint A 0 0\npoint B 1000 1000\n"
    return head + "drawdashsegment A B\n" * min(19_997, (size - len(head)) // 20)


def figure(seed, kinds):
    """A random figure of 24 points beside the free ones, and a statement of the last."""
    chance = random.Random(seed)
    text, points, lines, circles = ["point A 10 15", "point B 90 20", "point C 40 80"], ["A", "B", "C"], [], []
    while len(points) < 3 + chance.randint(5, 22):
        n, kind = len(text), chance.choice(kinds)
        a, b, c = chance.sample(points, 3)
        if kind == "line":
            text.append(f"{chance.choice(['line', 'med'])} l{n} {a} {b}")
            lines.append(f"l{n}")
        elif kind == "perp" and lines:
            text.append(f"{chance.choice(['perp', 'parallel'])} l{n} {a} {chance.choice(lines)}")
            lines.append(f"l{n}")
        elif kind == "circle":
            text.append(f"circle k{n} {a} {b}")
            circles.append(f"k{n}")
        elif kind == "cut" and len(lines) > 1:
            text.append(f"intersec P{n} " + " ".join(chance.sample(lines, 2)))
            points.append(f"P{n}")
        elif kind == "cut2" and circles and len(circles + lines) > 1:
            k = chance.choice(circles)
            text.append(f"intersec2 P{n} Q{n} {k} " + chance.choice([o for o in circles + lines if o != k]))
            points += [f"P{n}", f"Q{n}"]
        elif kind == "foot" and lines:
            text.append(f"foot P{n} {a} {chance.choice(lines)}")
            points.append(f"P{n}")
        elif kind == "point":
            text.append(f"midpoint P{n} {a} {b}")
            points.append(f"P{n}")
        elif kind == "part":
            text.append(f"towards P{n} {a} {b} 0.{chance.randint(100_000, 999_999)}")
            points.append(f"P{n}")
    a, b, c = points[-1], points[-2], chance.choice(points[:-2])
    return "\n".join([*text, f"prove {{ {chance.choice(['collinear', 'perpendicular A', 'parallel A'])} {a} {b} {c} }}", ""])


def circles(seed):
    """Circles, and what they cut."""
    return figure(seed, ["line", "circle", "cut2", "cut2", "foot", "cut"])


def lines(seed):
    """Lines alone."""
    return figure(seed, ["line", "perp", "cut", "foot", "point"])


def ratios(seed):
    """Points at ratios of six digits, whose equations have large numbers."""
    return figure(seed, ["line", "perp", "cut", "part", "part", "circle", "cut2"])


def measure(program, words, limit):
    """The status (None past the limit), the seconds of processor time and the most resident MiB of a run, and the bytes that it wrote.

    A small program waits for it, since the memory of the one that starts a program counts as its own."""
    with tempfile.TemporaryFile() as wrote, tempfile.NamedTemporaryFile("r") as told:
        timed = ["time", "--quiet", "-f", "%U %S %M", "-o", told.name, "timeout", "--signal=KILL", str(limit)]
        done = subprocess.run([*timed, program, *words], stdout=wrote, stderr=wrote)
        user, system, memory = told.read().split()[-3:]
        status = None if done.returncode == 137 else done.returncode
        return status, float(user) + float(system), int(memory) / 1024, os.fstat(wrote.fileno()).st_size


def row(program, name, words, path, limit):
    """Measures a run, and tells it as a row of the table."""
    status, seconds, memory, wrote = measure(program, words, limit)
    told = "more" if status is None else f"{seconds:.2f}"
    print(f"| {name} | {os.path.getsize(path):,} | {status} | {wrote:,} | {told} | {memory:.0f} |", flush=True)


def dearest(program, maker, path, limit):
    """The seed of the figure whose proofs take the most time."""
    seconds = {}
    for seed in range(SEARCHED):
        path.write_text(maker(seed))
        seconds[seed] = measure(program, ["prove", path], limit)[1]
    return max(seconds, key=seconds.get)


def main():
    if sys.argv[1:2] == ["make"]:
        sys.stdout.write(MAKERS[sys.argv[2]](int(sys.argv[3])))
        return
    program = pathlib.Path(sys.argv[1]) if len(sys.argv) > 1 else PROGRAM
    limit = int(sys.argv[2]) if len(sys.argv) > 2 else 600
    print("| log or file | bytes | status | bytes written | seconds | MiB |\n|---|---|---|---|---|---|")
    with tempfile.TemporaryDirectory() as folder:
        path = pathlib.Path(folder) / "f"
        for maker, sizes in LOGS:
            for size in sizes:
                path.write_text(maker(size))
                row(program, f"check, {maker.__name__}", ["check", path], path, limit)
        for form in ("svg", "latex", "show"):
            for size in (10_000, 100_000, 1_000_000):
                path.write_text(dashes(size))
                row(program, f"{form}, dashes", [form, path], path, limit)
        for maker in (circles, lines, ratios):
            seed = dearest(program, maker, path, limit)
            path.write_text(maker(seed))
            row(program, f"prove, {maker.__name__} {seed}", ["prove", path], path, limit)


LOGS = [
    (steep, [10_000, 30_000, 100_000, 1_000_000, 20_000_000]),
    (long, [1_000_000, 10_000_000, 68_000_000]),
    (line, [1_000_000, 10_000_000, 100_000_000, MOST_LOG, MOST_LOG + 1]),
]
MAKERS = {made.__name__: made for made in (steep, long, line, dashes, circles, lines, ratios)}
if __name__ == "__main__":
    main()
