#!/usr/bin/env python3
"""Times copar on nine families of systems at three sizes, checks how many classes it finds, and prints a
table in Markdown.

usage: bench/table.py [--program P] [--seconds S] [--kinds K,K,..] [--sizes small|large]

Families. `lts`, `chain`, `sums` and `dfa` are drawn: up to three labelled steps a state; a mark and a
distribution of two next states in eighths; a mark and up to three whole weights from -3 to 3; a mark and a
next state for each of two letters. `fibonacci` is a cycle with the letters of a Fibonacci word for marks,
`line` one long line, `counters` three bounded counters side by side whose steps do not tell which of them
moved, `tenfold` a Markov chain that lumps tenfold, and `philosophers` the reachable states of dining
philosophers, whose steps do not tell whose they are.

The number of classes is compared with one that was not copar's: by theory (no two positions of a Fibonacci
cycle or of a line are equivalent; counters are equivalent if their sums are; ten copies of a state are one)
or by the slow program of bench/slow.py, and on complete automata with what OpenFst's fstminimize and foma
find, where they are installed. These two get the states that the first one reaches, so the classes of
those are counted.

`growth` is the exponent to which the processor time grew with the states since the row above, `labels an
edge` the counted steps of the refiner by the edges between sorted states. A run of more than S seconds is
stopped. The end is 1 where two numbers of classes differ.
"""
import argparse
import math
import os
import resource
import shutil
import subprocess
import sys
import tempfile
import time

import slow

SIZES = {"small": {"": (500, 1_000, 2_000), "fibonacci": (600, 1_000, 1_600),
                   "counters": (7, 9, 11), "philosophers": (4, 5, 6)},
         "large": {"": (50_000, 100_000, 200_000), "fibonacci": (50_000, 100_000, 200_000),
                   "counters": (36, 46, 58), "philosophers": (11, 12, 13)}}


class Draws:
    """Numbers by a linear congruence from a seed."""

    def __init__(self, seed):
        self.x = seed

    def below(self, k):
        self.x = (6364136223846793005 * self.x + 1442695040888963407) % (1 << 64)
        return (self.x >> 33) % k


def lts(n, draws):
    def steps():
        return [f"({'abc'[draws.below(3)]}, s{draws.below(n)})" for _ in range(draws.below(4))]
    return "P({a,b,c} x X)", ["{" + ", ".join(steps()) + "}" for _ in range(n)], None


def chain(n, draws):
    lines = []
    for _ in range(n):
        mark, t, u, k = draws.below(2), draws.below(n), draws.below(n), 1 + draws.below(7)
        lines.append(f"({mark}, {{s{t}: {k}/8, s{u}: {8 - k}/8}})")
    return "2 x D X", lines, None


def sums(n, draws):
    lines = []
    for _ in range(n):
        mark, count = draws.below(2), draws.below(4)
        entries = []
        for _ in range(count):
            target = draws.below(n)
            entries.append(f"s{target}: {draws.below(7) - 3}")
        lines.append(f"({mark}, {{{', '.join(entries)}}})")
    return "2 x Z^(X)", lines, None


def dfa(n, draws):
    lines = []
    for _ in range(n):
        mark, a, b = draws.below(2), draws.below(n), draws.below(n)
        lines.append(f"({mark}, {{a: s{a}, b: s{b}}})")
    return "2 x X^{a,b}", lines, None


def fibonacci(n, _):
    word, longer = "0", "01"
    while len(longer) <= n:
        word, longer = longer, longer + word
    lines = [f"({mark}, {{a: s{(i + 1) % len(word)}}})" for i, mark in enumerate(word)]
    return "2 x X^{a}", lines, len(lines)


def line(n, _):
    return "P X", [f"{{s{i + 1}}}" for i in range(n - 1)] + ["{}"], n


def counters(side, _):
    """Three counters from 0 below the side, each of which a step moves up or down."""
    lines = []
    for state in range(side ** 3):
        steps = []
        for place in (1, side, side * side):
            value = state // place % side
            if value + 1 < side:
                steps.append(f"(up, s{state + place})")
            if value > 0:
                steps.append(f"(down, s{state - place})")
        lines.append("{" + ", ".join(steps) + "}")
    return "P({up,down} x X)", lines, 3 * (side - 1) + 1


def tenfold(n, draws):
    """A line of n/10 states, each in ten copies, which goes on or begins again with a half each."""
    last = n // 10 - 1
    lines = []
    for state in range(n):
        at = min(state // 10 + 1, last)
        k, copies = 1 + draws.below(3), [draws.below(10) for _ in range(3)]
        lines.append(f"({int(state // 10 == last)}, {{s{10 * at + copies[0]}: {k}/8, "
                     f"s{10 * at + copies[1]}: {4 - k}/8, s{copies[2]}: 1/2}})")
    return "2 x D X", lines, last + 1


def philosophers(count, _):
    """States reached by so many: each thinks (0), has its left fork (1) or eats with both (2)."""
    start = (0,) * count
    numbers, order, lines = {start: 0}, [start], []
    for state in order:
        steps = []
        for i, phase in enumerate(state):
            # the right fork of i is the left one of the next, and the left one the right of the one before
            left_free = state[i - 1] != 2
            right_free = state[(i + 1) % count] == 0
            for word, holds, after in (("take", phase == 0 and left_free, 1),
                                       ("eat", phase == 1 and right_free, 2),
                                       ("leave", phase == 2, 0)):
                if holds:
                    target = state[:i] + (after,) + state[i + 1:]
                    if target not in numbers:
                        numbers[target] = len(order)
                        order.append(target)
                    steps.append(f"({word}, s{numbers[target]})")
        lines.append("{" + ", ".join(steps) + "}")
    return "P({take,eat,leave} x X)", lines, None


FAMILIES = {"lts": lts, "chain": chain, "sums": sums, "dfa": dfa, "fibonacci": fibonacci,
            "line": line, "counters": counters, "tenfold": tenfold, "philosophers": philosophers}


def measured(words, seconds, out_path):
    """Wall seconds, processor seconds and peak megabytes of a run, or None where it took too long."""
    begun = time.perf_counter()
    with open(out_path, "wb") as out:
        child = subprocess.Popen(words, stdout=out, stdin=subprocess.DEVNULL, preexec_fn=lambda:
                                 resource.setrlimit(resource.RLIMIT_CPU, (seconds, seconds)))
        _, status, used = os.wait4(child.pid, 0)
    child.returncode = os.waitstatus_to_exitcode(status)
    if child.returncode != 0:
        return None
    return time.perf_counter() - begun, used.ru_utime + used.ru_stime, used.ru_maxrss / 1024


def blocks_in(path):
    """The block of each state, and the counts of structures, edges and steps."""
    with open(path, encoding="ascii") as lines:
        *blocks, last = lines.read().splitlines()
    words = last.split()
    return [line.split()[1] for line in blocks], (int(words[2]), int(words[4]), int(words[6]))


class Automaton:
    """The part of a complete automaton that its first state reaches, as other programs read it."""

    def __init__(self, structures, folder):
        self.reached, waiting = {0}, [0]
        while waiting:
            new = set(structures[waiting.pop()][1]) - self.reached
            self.reached |= new
            waiting.extend(new)
        self.path = os.path.join(folder, "automaton.att")
        with open(self.path, "w", encoding="ascii") as out:
            for i in sorted(self.reached):
                mark, targets = structures[i]
                out.writelines(f"{i}\t{t}\t{letter}\t{letter}\n"
                               for letter, t in enumerate(targets, 1))
                if mark:
                    out.write(f"{i}\n")

    def minimised(self, seconds, folder):
        """For each other program that is installed: its name, its states and its processor time."""
        first, second, out = (os.path.join(folder, name) for name in ("a.fst", "b.fst", "other"))
        if shutil.which("fstminimize"):
            read = measured(["fstcompile", self.path, first], seconds, out)
            made = measured(["fstminimize", first, second], seconds, out)
            if read and made and measured(["fstinfo", second], seconds, out):
                with open(out, encoding="ascii") as lines:
                    states = [int(l.split()[-1]) for l in lines if l.startswith("# of states")]
                yield "OpenFst", states[0], read[1] + made[1]
        if shutil.which("foma"):
            words = ["foma", "-q", "-e", f"read att {self.path}", "-e", "minimize net", "-e",
                     "print size", "-s"]
            made = measured(words, seconds, out)
            with open(out, encoding="utf8", errors="replace") as lines:
                said = [l.split() for l in lines if "states" in l and "arcs" in l]
            if made and said:
                states = said[-1][said[-1].index("states,") - 1]
                yield "foma", int(states), made[1]


def automaton_of(kind, functor, lines, folder):
    """The same system for other programs, if it is a complete automaton."""
    if kind not in ("dfa", "fibonacci"):
        return None
    system = slow.read_file("\n".join([functor] + [
        f"s{i}: {line}" for i, line in enumerate(lines)]).encode())
    return Automaton([(mark, targets) for mark, targets in system.structures], folder)


def compared(kind, text, known, blocks, others):
    """Whether the classes are as many as elsewhere, and what they were compared with."""
    count = len(set(blocks))
    if known is None:
        known, name = len(set(slow.read_file(text).classes())), "the slow program"
    else:
        name = "theory"
    right, names = known == count, [name]
    for name, states, reached in others:
        right &= states == reached
        names.append(name)
    if not right:
        print(f"{kind}: {count} classes, and elsewhere {known}, {others}", file=sys.stderr)
    return right, ", ".join(names)


def row(args, kind, size, folder, before):
    """Prints a row; the states, processor time, and whether the numbers of classes are the same."""
    functor, lines, known = FAMILIES[kind](size, Draws(7))
    text = (functor + "\n" + "".join(f"s{i}: {l}\n" for i, l in enumerate(lines))).encode()
    path, out = os.path.join(folder, "system.copar"), os.path.join(folder, "blocks")
    with open(path, "wb") as file:
        file.write(text)
    runs = [measured([args.program, "blocks", "--stats", path], args.seconds, out) for _ in range(2)]
    if None in runs:
        print(f"| {kind} | `{functor}` | {len(lines):,} | | > {args.seconds} | | | | | |", flush=True)
        return None
    wall, cpu, peak = (min(values) for values in zip(*runs))
    blocks, (_, edges, labels) = blocks_in(out)
    automaton, others, times = automaton_of(kind, functor, lines, folder), [], ""
    if automaton:
        reached = len({blocks[state] for state in automaton.reached})
        found = list(automaton.minimised(args.seconds, folder))
        others = [(name, states, reached) for name, states, _ in found]
        times = ", ".join(f"{name} {used:.2f}" for name, _, used in found)
    right, names = compared(kind, text, known, blocks, others)
    growth = ""
    if before:
        growth = f"{math.log(cpu / before[1]) / math.log(len(lines) / before[0]):.2f}"
    print(f"| {kind} | `{functor}` | {len(lines):,} | {len(set(blocks)):,} | {wall:.2f} | {cpu:.2f} | "
          f"{growth} | {peak:.0f} | {labels / max(edges, 1):.2f} | {names} | {times} |", flush=True)
    return len(lines), cpu, right


def main():
    here = os.path.dirname(os.path.abspath(__file__))
    args = argparse.ArgumentParser(description=__doc__,
                                   formatter_class=argparse.RawDescriptionHelpFormatter)
    args.add_argument("--program", default=os.path.join(here, "..", "crates", "copar", "out", "copar"))
    args.add_argument("--seconds", type=int, default=60)
    args.add_argument("--kinds", default=",".join(FAMILIES))
    args.add_argument("--sizes", choices=list(SIZES), default="large")
    args = args.parse_args()
    print("| family | functor | states | classes | wall s | processor s | growth | peak MB | "
          "labels an edge | classes compared with | others, processor s |")
    print("|---|---|---|---|---|---|---|---|---|---|---|")
    right = True
    with tempfile.TemporaryDirectory() as folder:
        for kind in args.kinds.split(","):
            before = None
            for size in SIZES[args.sizes].get(kind, SIZES[args.sizes][""]):
                before = row(args, kind, size, folder, before)
                if before is None:
                    break
                right &= before[2]
    sys.exit(0 if right else 1)


if __name__ == "__main__":
    main()
