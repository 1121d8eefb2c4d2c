#!/usr/bin/env python3
"""Plays generated scripts with one or more built programs, and prints what they took.

    bench/run.py [PROGRAM ...]

Without a program it takes crates/worldrun/out/worldrun. With several, as the builds of two commits,
each script is played by one after the other in turn, so that all see the same machine. A time is the
processor time of the whole program, user and system, the best of some runs; the outputs have to be
the same. Scripts are made from fixed numbers: every run plays the same ones.
"""

import hashlib
import os
import resource
import subprocess
import sys
import tempfile
import time

RUNS = 5
LANES = 4
HEADER = ["class Node Object", "field Node next ref Node 4", "field Node tag int"]


class Draws:
    """A linear congruential generator: the same numbers on every machine."""

    def __init__(self, seed):
        self.state = seed

    def below(self, n):
        self.state = (self.state * 6364136223846793005 + 1442695040888963407) % 2**64
        return (self.state >> 33) % n


def collections(count):
    return ["gc full"] * count


def chains(objects, count):
    """Each lane makes one chain of its objects, whose first one is rooted."""
    lines = list(HEADER)
    for lane in range(LANES):
        lines += [f"{lane} open", f"{lane} new a Node", f"{lane} root a on"]
        for k in range(1, objects // LANES):
            last, new = ("a", "b") if k % 2 == 1 else ("b", "a")
            lines += [f"{lane} new {new} Node", f"{lane} set {last}.next {new}"]
        lines.append(f"{lane} close")
    return lines + collections(count)


def graphs(objects, count):
    """Each object is referred to by one before it, and has references to three others at random."""
    draws = Draws(1)
    lines = list(HEADER)
    for lane in range(LANES):
        size = objects // LANES
        lines.append(f"{lane} open")
        for k in range(size):
            lines.append(f"{lane} new v{k} Node")
            if k == 0:
                lines.append(f"{lane} root v0 on")
            else:
                lines.append(f"{lane} set v{(k - 1) // 2}.next[{(k - 1) % 2}] v{k}")
        for k in range(size):
            for slot in (2, 3):
                lines.append(f"{lane} set v{k}.next[{slot}] v{draws.below(size)}")
        lines.append(f"{lane} close")
    return lines + collections(count)


def churn(objects, count):
    """In each of the rounds so many objects are made, each eighth a root for a while, and all are removed."""
    lines = list(HEADER)
    for turn in range(count):
        for lane in range(LANES):
            lines.append(f"{lane} open")
            for k in range(objects // LANES // 8):
                lines += [f"{lane} new k Node", f"{lane} root k on"]
                lines += [f"{lane} new d Node", f"{lane} set d.next k"] * 7
                lines.append(f"{lane} root k off")
            lines.append(f"{lane} close")
        lines.append("gc full")
    return lines


def clusters(size, count):
    """Each lane is filled with clusters of so many members; the first is rooted, and the last member of each refers to the next."""
    lines = list(HEADER)
    for lane in range(LANES):
        lines.append(f"{lane} open")
        for k in range(8192 // size):
            new, last = ("a", "b") if k % 2 == 0 else ("b", "a")
            lines.append(f"{lane} cluster " + " ".join(f"{new}{m}:Node" for m in range(size)))
            lines.append(f"{lane} set {last}{size - 1}.next {new}0" if k > 0 else f"{lane} root {new}0 on")
        lines.append(f"{lane} close")
    return lines + collections(count)


def short_lines(total, _):
    """Stores and loads over a few variables."""
    lines = HEADER + ["0 open"] + [f"0 new v{k} Node" for k in range(16)]
    draws = Draws(2)
    while len(lines) < total - 1:
        a, b, slot = draws.below(16), draws.below(16), draws.below(4)
        lines.append(
            (
                f"0 set v{a}.next[{slot}] v{b}",
                f"0 get t v{a}.next[{slot}]",
                f"0 put v{a}.tag {b}",
                f"0 take v{a}.tag",
            )[draws.below(4)]
        )
    return lines + ["0 close"]


def new_names(total, _):
    """As many new variables as lines."""
    lines = HEADER + ["0 open"]
    for k in range((total - 5) // 2):
        lines += [f"0 new n{k} Node", f"0 put n{k}.tag {k}"]
        if k % 8000 == 7999:
            lines += ["0 close", "gc full", "0 open"]
    return lines[: total - 1] + ["0 close"]


def strong_lines(count, _):
    """A strong pointer is set so often to the same object."""
    return HEADER + ["0 open", "0 new a Node"] + ["0 hold 0 a"] * count + ["0 close"]


def weak_lines(count, _):
    """An object is asked so often for the weak pointer that it has."""
    return HEADER + ["0 open", "0 new a Node"] + ["0 weak w a"] * count + ["0 close"]


def drawn_lines(count, total):
    """So many objects are made, and the first ones of them are asked for their first weak pointers."""
    lines = HEADER + ["0 open"]
    for k in range(total):
        lines.append("0 new a Node")
        if k < count:
            lines.append("0 weak w a")
    return lines + ["0 close"]


def resolve_live(count, _):
    """The weak pointer of an object that lives is resolved so often."""
    return HEADER + ["0 open", "0 new a Node", "0 weak w a"] + ["0 resolve r w"] * count + ["0 close"]


def resolve_free(count, _):
    """The same where the object was destroyed, and its index is free."""
    lines = HEADER + ["0 open", "0 new a Node", "0 weak w a", "0 close", "gc full", "0 open"]
    return lines + ["0 resolve r w"] * count + ["0 close"]


def resolve_again(count, _):
    """The same where an object with a weak pointer of its own was made at that index since."""
    lines = HEADER + ["0 open", "0 new a Node", "0 weak w a", "0 close", "gc full", "0 open"]
    return lines + ["0 new b Node", "0 weak v b"] + ["0 resolve r w"] * count + ["0 close"]


# What one line of a command costs: the difference of two scripts that differ in one number.
POINTERS = (
    ("hold", strong_lines, 100_000, 0),
    ("weak again", weak_lines, 100_000, 0),
    ("weak first", drawn_lines, 8_000, 8_000),
    ("live", resolve_live, 100_000, 0),
    ("dead, free", resolve_free, 100_000, 0),
    ("dead, again", resolve_again, 100_000, 0),
)


def spent(program, script):
    """Processor seconds of one run, and the hash of what it wrote."""
    with open(script, "rb") as source:
        before = resource.getrusage(resource.RUSAGE_CHILDREN)
        done = subprocess.run([program, "play"], stdin=source, stdout=subprocess.PIPE, check=True)
        after = resource.getrusage(resource.RUSAGE_CHILDREN)
    took = after.ru_utime - before.ru_utime + after.ru_stime - before.ru_stime
    return took, hashlib.sha256(done.stdout).hexdigest()


def best(programs, lines):
    """The best time of each program on these lines."""
    with tempfile.NamedTemporaryFile("w", suffix=".script", delete=False) as file:
        file.write("\n".join(lines) + "\n")
    try:
        times = [[] for _ in programs]
        outputs = set()
        for _ in range(RUNS):
            for i, program in enumerate(programs):
                took, output = spent(program, file.name)
                times[i].append(took)
                outputs.add(output)
        if len(outputs) != 1:
            sys.exit("bench: the programs write different outputs")
        return [min(t) for t in times]
    finally:
        os.unlink(file.name)


def show(name, size, lines, times, unit, each):
    print(f"{name:12} {size:>8,} {lines:>9,}", *(f"{t * 1e3:>9.1f} {t / each * 1e9:>8.1f}" for t in times), f" {unit}")


def main():
    root = os.path.join(os.path.dirname(os.path.abspath(__file__)), "..")
    programs = sys.argv[1:] or [os.path.join(root, "crates/worldrun/out/worldrun")]
    print("best of", RUNS, "runs, processor time;", time.strftime("%Y-%m-%d"))
    for i, program in enumerate(programs):
        print(f"  {i + 1}: {program}")
    print(f"{'script':12} {'size':>8} {'lines':>9}", *(f"{'ms':>9} {'ns':>8}" for _ in programs), " per")
    for total in (20_000, 200_000):
        for name, make in (("lines", short_lines), ("names", new_names)):
            lines = make(total, 0)
            show(name, total, len(lines), best(programs, lines), "line", len(lines))
    for name, make in (("chains", chains), ("graphs", graphs)):
        for objects in (1_000, 8_000, 30_000):
            count = 200
            some, few = make(objects, count + 1), make(objects, 1)
            times = [max(a - b, 0) for a, b in zip(best(programs, some), best(programs, few))]
            show(name, objects, len(few), times, f"live object and collection, of {count}", objects * count)
    for size in (1, 8, 64, 1_024):
        count = 200
        some, few = clusters(size, count + 1), clusters(size, 1)
        times = [max(a - b, 0) for a, b in zip(best(programs, some), best(programs, few))]
        show("clusters", size, len(few), times, f"live object and collection, of {count}", 32_768 * count)
    for objects in (800, 8_000):
        count = 80_000 // objects
        lines = churn(objects, count)
        show("churn", objects, len(lines), best(programs, lines), f"line, with {count} collections", len(lines))
    for name, make, count, other in POINTERS:
        some, none = make(count, other), make(0, other)
        times = [max(a - b, 0) for a, b in zip(best(programs, some), best(programs, none))]
        show(name, count, len(some), times, "line more", count)


if __name__ == "__main__":
    main()
