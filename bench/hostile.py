#!/usr/bin/env python3
"""Runs copar on made files, whole and broken, and compares each run with the slow program.

usage: bench/hostile.py [--program P] [--seconds S] [--seed N] [--findings FOLDER]

Each file is made from a seed: a functor, states with structures of it, and then up to four mutations (bytes
changed, cut out, doubled or put in, lines doubled or swapped, numbers at and past the bounds, deep
brackets). All commands run on it; the answers that `check` and `verify` read are what `certify` printed,
as it is or mutated too. A run is as it should be if it ends within ten seconds with the status, the output
and the line that bench/slow.py says, and for `explain` and `certify` with formulas that are right by it.
What is not so is printed, and its file kept in FOLDER. The end is 0 where nothing was found.
"""
import argparse
import collections
import math
import os
import random
import re
import resource
import subprocess
import sys
import tempfile
import time

import slow

NAMES = [b"a", b"b", b"c", b"s0", b"x'", b"-", b"0", b"1/2", b"f0", b"injured", b"\xc3\x97", b"true"]
NUMERALS = [b"1099511627776", b"1099511627777", b"9" * 30, b"0" * 30, b"1/3", b"1/1099511627776",
            b"0.5", b"-1", b"-0", b"1/0", b"0.0000000000001", b"1/7", b"-1099511627777", b"007/014"]
PIECES = NUMERALS + [
          b"inj", b"inj 0 ", b"(", b")", b"{", b"}", b"^", b"x",
          b"P", b"D", b"+", b":", b",", b"#", b"\r", b"\n", b"\r\n", b"\t", b"\x00", b"\xff",
          b"\xef\xbb\xbf", b"65536", b"65537", b"f1", b"=", b"true", b"not", b"and", b"at 0 ", b"block",
          b"separates", b"equivalent", b"{0,2}", b"[0,1/2,-1]", b"(2,1)", b"0:2", b"=1"]


class Maker:
    """Makes files from a seed."""

    def __init__(self, seed):
        self.chance = random.Random(seed)

    def blank(self):
        return self.chance.choice([b"", b"", b"", b" ", b" ", b"\t", b"  "])

    def labels(self):
        if self.chance.random() < 0.5:
            return b"%d" % self.chance.randint(1, 3)
        words = self.chance.sample(NAMES, self.chance.randint(1, 3))
        return b"{" + b",".join(self.blank() + w + self.blank() for w in words) + b"}"

    def functor(self, depth):
        """The text of a functor of at most this depth."""
        kind = self.chance.choice("XXXPPBDZQcN^x+" if depth > 1 else "XXXXcN")
        if kind in "XN":
            return kind.encode()
        if kind == "c":
            return self.labels()
        if kind in "PBD":
            inner = self.functor(depth - 1)
            return kind.encode() + self.blank() + (b"(" + inner + b")" if len(inner) > 1 else inner)
        if kind in "ZQ":
            return kind.encode() + b"^(" + self.functor(depth - 1) + b")"
        if kind == "^":
            return b"(" + self.functor(depth - 1) + b")^" + self.labels()
        sign = self.chance.choice([b"x", b"*", b"\xc3\x97"]) if kind == "x" else b"+"
        parts = [self.functor(depth - 1) for _ in range(self.chance.randint(2, 3))]
        return (self.blank() + sign + self.blank()).join(b"(" + p + b")" for p in parts)

    def structure(self, term, names):
        """The text of a structure at a node."""
        kind, parts, chance = term.kind, term.parts, self.chance
        if kind == "X":
            return chance.choice(names)
        if kind == "N":
            return chance.choice([b"0", b"1", b"02", b"1099511627776"])
        if kind == "constant":
            return self.label(term, chance.randrange(term.places()))
        if kind == "product":
            return b"(" + b", ".join(self.structure(p, names) for p in parts) + b")"
        if kind == "sum":
            index = chance.randrange(len(parts))
            return b"inj %d " % index + self.structure(parts[index], names)
        if kind == "power":
            order = list(range(term.places()))
            chance.shuffle(order)
            entries = [self.label(term, n) + b": " + self.structure(parts[0], names) for n in order]
        elif kind == "P":
            entries = [self.structure(parts[0], names) for _ in range(chance.randrange(4))]
        else:
            entries = [self.structure(parts[0], names) + w for w in self.weights(kind)]
        return b"{" + (self.blank() + b"," + self.blank()).join(entries) + b"}"

    @staticmethod
    def label(term, number):
        return b"%d" % number if isinstance(term.labels, int) else term.labels[number]

    def weights(self, kind):
        """The weights of a list, each behind its colon."""
        chance, count = self.chance, self.chance.randrange(4)
        if kind == "B":
            return [chance.choice([b"", b": 1", b": 2", b": 0", b": 4/2"]) for _ in range(count)]
        if kind == "Z":
            return [b": %d" % chance.randint(-2, 2) for _ in range(count)]
        if kind == "Q":
            return [b": " + chance.choice([b"1/2", b"-1/2", b"0.25", b"-1", b"2/3", b"1/3", b"0"])
                    for _ in range(count)]
        whole = chance.choice([1, 2, 3, 4, 10])
        cuts = sorted(chance.randint(0, whole) for _ in range(max(count, 1) - 1))
        return [b": %d/%d" % (high - low, whole) for low, high in zip([0] + cuts, cuts + [whole])]

    def file(self):
        """A file without a fault."""
        functor = self.functor(self.chance.randint(1, 4))
        term = slow.TermReader(functor).read()
        names = self.chance.sample(NAMES, self.chance.randint(1, 7))
        lines = [functor]
        for name in names:
            if self.chance.random() < 0.1:
                lines.append(self.chance.choice([b"", b"# a note", b" \t"]))
            lines.append(name + self.blank() + b":" + self.blank() + self.structure(term, names))
        end = self.chance.choice([b"\n", b"\n", b"\r\n"])
        return end.join(lines) + self.chance.choice([end, b""])

    def mutated(self, data):
        """The same with one change."""
        chance = self.chance
        at, to = sorted(chance.randint(0, len(data)) for _ in range(2))
        to = min(to, at + chance.choice([1, 3, 30]))
        kind = chance.randrange(14)
        if kind == 0 and data:
            at = chance.randrange(len(data))
            return data[:at] + bytes([chance.randrange(256)]) + data[at + 1:]
        if kind == 1:
            return data[:at] + data[to:]
        if kind == 2:
            return data[:to] + data[at:to] * chance.choice([1, 2, 40]) + data[to:]
        if kind == 3:
            return data[:at]
        if kind == 4:
            return data[:at] + chance.choice(PIECES) + data[at:]
        if kind == 5:
            return data[:at] + chance.choice(PIECES) + data[to:]
        if kind == 6:
            word = chance.choice(list(slow.WORD.finditer(data)) or [re.match(b"", data)])
            depth = chance.choice([1, 2, 31, 32, 33, 63, 64, 65, 500])
            return (data[:word.start()] + b"(" * depth + word.group() + b")" * depth
                    + data[word.end():])
        if kind > 8:
            words = list(slow.WORD.finditer(data)) or [re.match(b"", data)]
            word, other = chance.choice(words), chance.choice(words).group()
            return (data[:word.start()] + chance.choice([other, chance.choice(NUMERALS)])
                    + data[word.end():])
        lines = data.split(b"\n")
        one, other = (chance.randrange(len(lines)) for _ in range(2))
        if kind == 7:
            lines.insert(other, lines[one])
        else:
            lines[one], lines[other] = lines[other], lines[one]
        return b"\n".join(lines)

    def broken(self, data, most):
        for _ in range(self.chance.choice([0, 1, 1, 2, most])):
            data = self.mutated(data)
        return data[:20_000]


class Runs:
    """Runs the program in a folder, and keeps what was found."""

    def __init__(self, program, folder, findings):
        self.program, self.folder, self.findings = os.path.abspath(program), folder, findings
        self.seen, self.found = collections.Counter(), 0

    def put(self, name, data):
        with open(os.path.join(self.folder, name), "wb") as out:
            out.write(data)

    def run(self, *words):
        """The status of a run, what it printed, and its line without `copar: `."""
        try:
            ended = subprocess.run(
                [self.program, *words], cwd=self.folder, capture_output=True, timeout=10, check=False,
                preexec_fn=lambda: resource.setrlimit(resource.RLIMIT_AS, (4 << 30, 4 << 30)))
        except subprocess.TimeoutExpired:
            return "no end", b"", b""
        self.seen[words[0], ended.returncode] += 1
        return ended.returncode, ended.stdout, ended.stderr

    def expect(self, seed, words, wanted, is_right=None):
        """Compares a run with what is wanted: a status and an output, or a fault."""
        status, out, err = self.run(*words)

        def holds():
            return result_of(lambda: is_right(out)) is True

        if isinstance(wanted, slow.Fault):
            right = (status, out, err) == (wanted.status, b"", b"copar: %s\n" % wanted.text.encode())
        elif "--stats" in words:
            text, line = out[:out[:-1].rfind(b"\n") + 1], out[out[:-1].rfind(b"\n") + 1:]
            counts = re.fullmatch(rb"# sorted (\d+) places (\d+) labels (\d+)\n", line)
            right = status == 0 and err == b"" and counts is not None and is_counted(counts)
            right = right and (holds() if is_right else text == wanted[1])
        else:
            right = status == wanted[0] and err == b""
            right = right and (holds() if is_right else out == wanted[1])
        if not right:
            self.found += 1
            print(f"seed {seed}: {' '.join(words)}: status {status}, {out[:300]!r}, {err[:200]!r}; "
                  f"wanted {wanted!r:.300}", flush=True)
            if self.findings:
                os.makedirs(self.findings, exist_ok=True)
                for name in ("F", "G"):
                    with open(os.path.join(self.folder, name), "rb") as data:
                        with open(os.path.join(self.findings, f"{seed}.{name}"), "wb") as copy:
                            copy.write(data.read())
        return out


def is_counted(counts):
    structures, edges, steps = map(int, counts.groups())
    return edges <= steps <= edges * (1 + int(math.log2(structures or 1)))


def result_of(call):
    try:
        return call()
    except slow.Fault as fault:
        return fault


def round_of(runs, seed):
    """Makes a file, and compares the runs of all commands on it."""
    maker = Maker(seed)
    data = maker.broken(maker.file(), 4)
    runs.put("F", data)
    runs.put("G", b"f0 = true\n")
    system = result_of(lambda: slow.read_file(data))
    stats = ["--stats"] if maker.chance.random() < 0.3 else []
    if isinstance(system, slow.Fault):
        for words in (["blocks", "F"], ["minimise", "F"], ["certify", "F"], ["explain", "F", "a", "b"],
                      ["check", "F", "G", "a"], ["verify", "F", "G"]):
            runs.expect(seed, words, system)
        return
    runs.expect(seed, ["blocks", "F", *stats], (0, system.blocks_text()))
    quotient = system.quotient_text()
    runs.expect(seed, ["minimise", "F", *stats], (0, quotient))
    answer = runs.expect(seed, ["certify", "F", *stats], (0, None),
                         lambda out: slow.is_certified(system, out))
    words = [word for word in system.names + [b"strange"] if is_text(word)]
    states = [maker.chance.choice(words) for _ in range(4)]
    strangers = [word for word in states if word not in system.numbers]
    wanted = slow.Fault(7, "unknown state strange") if strangers else (0, None)
    pairs = [(states[0], states[1]), (states[2], states[3])]
    shown = [word.decode() for word in states]
    runs.expect(seed, ["explain", "F", "--", *shown], wanted,
                lambda out: slow.is_explained(system, out, pairs))
    answer = maker.broken(answer, 3)
    runs.put("G", answer)
    wanted = result_of(lambda: (0, slow.check_text(system, answer, states)))
    runs.expect(seed, ["check", "F", "G", "--", *shown], wanted)
    wanted = result_of(lambda: slow.verdict(system, answer))
    if not isinstance(wanted, slow.Fault):
        wanted = (0 if wanted == b"right\n" else 1, wanted)
    runs.expect(seed, ["verify", "F", "G"], wanted)
    runs.put("F", quotient)
    again = result_of(lambda: (0, slow.read_file(quotient).quotient_text()))
    if not isinstance(again, slow.Fault) and again[1] != quotient:
        print(f"seed {seed}: the slow program minimises its own quotient")
    runs.expect(seed, ["minimise", "F"], again)


def is_text(word):
    try:
        return b"\x00" not in word and word.decode() != ""
    except UnicodeDecodeError:
        return False


def main():
    here = os.path.dirname(os.path.abspath(__file__))
    args = argparse.ArgumentParser(description=__doc__,
                                   formatter_class=argparse.RawDescriptionHelpFormatter)
    args.add_argument("--program", default=os.path.join(here, "..", "crates", "copar", "out", "copar"))
    args.add_argument("--seconds", type=float, default=60)
    args.add_argument("--seed", type=int, default=0)
    args.add_argument("--findings", default="")
    args = args.parse_args()
    end, seed = time.monotonic() + args.seconds, args.seed
    with tempfile.TemporaryDirectory() as folder:
        runs = Runs(args.program, folder, args.findings)
        while time.monotonic() < end:
            round_of(runs, seed)
            seed += 1
    print(f"{seed - args.seed} files, {sum(runs.seen.values())} runs, {runs.found} findings")
    for (command, status), count in sorted(runs.seen.items()):
        print(f"{command} {status}: {count}")
    sys.exit(1 if runs.found else 0)


if __name__ == "__main__":
    main()
