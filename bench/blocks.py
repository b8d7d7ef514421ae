#!/usr/bin/env python3
"""Times `copar blocks`, or another command, on made files, and prints a table in Markdown.

usage: bench/blocks.py [--program P] [--command C] [--seconds S] [--sizes N,N,..] [--kinds K,K,..]

Kinds, each made anew from a seed. Of sets of states: `random` has 1.5 elements a state; `tree` is a full
binary tree; `alike` has one class; `chain` is one long chain. Of other functors: `lts` has up to three
labelled steps a state, `markov` a mark and two next states with eighths, `sums` a mark and up to three
whole weights from -3 to 3, `dfa` a mark and a next state for each of two letters; `fibonacci` is a cycle
with the letters of a Fibonacci word for marks, of the Fibonacci number of states below the size. A run of
more than S seconds is stopped. Files and outputs stand in a folder of the system's temporary files while
it runs.
"""
import argparse
import os
import random
import resource
import subprocess
import tempfile
import time


def members(kind, n, chance):
    """For each state the members of its set."""
    if kind == "random":
        sets = [[] for _ in range(n)]
        for _ in range(n * 3 // 2):
            sets[chance.randrange(n)].append(chance.randrange(n))
        return sets
    if kind == "tree":
        return [[child for child in (2 * i + 1, 2 * i + 2) if child < n] for i in range(n)]
    if kind == "chain":
        return [[i + 1] if i + 1 < n else [] for i in range(n)]
    return [[(i + 1) % n] for i in range(n)]


def drawn(kind, n, chance):
    """A functor, and for each state its structure."""
    def state():
        return f"s{chance.randrange(n)}"

    if kind == "lts":
        return "P({a,b,c} x X)", ["{" + ", ".join(
            f"({chance.choice('abc')}, {state()})" for _ in range(chance.randrange(4))) + "}"
            for _ in range(n)]
    if kind == "markov":
        eighths = [chance.randrange(1, 8) for _ in range(n)]
        return "2 x D X", [f"({chance.randrange(2)}, {{{state()}: {k}/8, {state()}: {8 - k}/8}})"
                           for k in eighths]
    if kind == "sums":
        return "2 x Z^(X)", [f"({chance.randrange(2)}, {{" + ", ".join(
            f"{state()}: {chance.randrange(-3, 4)}" for _ in range(chance.randrange(4))) + "})"
            for _ in range(n)]
    if kind == "dfa":
        return "2 x X^{a,b}", [f"({chance.randrange(2)}, {{a: {state()}, b: {state()}}})"
                               for _ in range(n)]
    word, longer = "0", "01"
    while len(longer) <= n:
        word, longer = longer, longer + word
    return "2 x X", [f"({mark}, s{(i + 1) % len(word)})" for i, mark in enumerate(word)]


def write_file(path, kind, n):
    chance = random.Random(7)
    with open(path, "w", encoding="ascii") as out:
        if kind in ("lts", "markov", "sums", "dfa", "fibonacci"):
            functor, structures = drawn(kind, n, chance)
            out.write(functor + "\n")
            out.writelines(f"s{i}: {structure}\n" for i, structure in enumerate(structures))
            return
        out.write("P X\n")
        for i, targets in enumerate(members(kind, n, chance)):
            out.write(f"s{i}: {{{', '.join(f's{t}' for t in targets)}}}\n")


def measured(program, command, path, seconds):
    """Wall seconds, processor seconds and peak megabytes of one run, or None where it took too long."""
    begun = time.perf_counter()
    with open(os.devnull, "w") as sink:
        child = subprocess.Popen([program, command, path], stdout=sink,
                                 preexec_fn=lambda: resource.setrlimit(resource.RLIMIT_CPU, (seconds, seconds)))
        _, status, used = os.wait4(child.pid, 0)
    child.returncode = os.waitstatus_to_exitcode(status)
    if child.returncode != 0:
        return None
    return time.perf_counter() - begun, used.ru_utime + used.ru_stime, used.ru_maxrss / 1024


def main():
    here = os.path.dirname(os.path.abspath(__file__))
    args = argparse.ArgumentParser(description=__doc__, formatter_class=argparse.RawDescriptionHelpFormatter)
    args.add_argument("--program", default=os.path.join(here, "..", "crates", "copar", "out", "copar"))
    args.add_argument("--command", default="blocks")
    args.add_argument("--seconds", type=int, default=60)
    args.add_argument("--sizes", default="25000,50000,100000,200000")
    args.add_argument("--kinds", default="random,tree,alike,chain")
    args = args.parse_args()
    print("| file | states | wall s | processor s | growth | peak MB |")
    print("|---|---|---|---|---|---|")
    with tempfile.TemporaryDirectory() as folder:
        path = os.path.join(folder, "system.copar")
        for kind in args.kinds.split(","):
            before = None
            for size in map(int, args.sizes.split(",")):
                write_file(path, kind, size)
                run = measured(args.program, args.command, path, args.seconds)
                if run is None:
                    print(f"| {kind} | {size:,} | > {args.seconds} | | | |", flush=True)
                    break
                wall, cpu, peak = run
                growth = "" if before is None else f"{cpu / before:.2f}"
                print(f"| {kind} | {size:,} | {wall:.2f} | {cpu:.2f} | {growth} | {peak:.0f} |", flush=True)
                before = cpu


if __name__ == "__main__":
    main()
