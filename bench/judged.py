#!/usr/bin/env python3
"""Compares copar with a plain program of its definitions (bench/plain.py) on drawn files.

usage: bench/judged.py PATH/TO/copar [FILES]

Draws FILES files (500 if none is said) of up to seven states, over 25 functors in turn. Of each:

- each pair of states, a state with itself too, is explained in one run: the pairs that are called
  equivalent are those that rounds leave in one class; the formula of each other pair holds at the
  first state and fails at the second; each formula is cited; there are at most 6N + 1 of them, N as
  `--stats` has it;
- `check` of what was printed has the truths of the plain program at each state, and so has `check`
  of formulas that are drawn for the file;
- `verify` of what `certify` prints is right; and of that, changed a little in one of 30 ways, it
  says what the plain judge of the three rules says, with the same line and status.

The draws of a file depend on the seed below and on its number alone. Prints how many there were of
each, and a line for each difference, with the file; ends with 1 where there is one. The files stand
in a folder of the system's temporary files while it runs.
"""
import collections
import os
import random
import re
import subprocess
import sys
import tempfile
import time

import plain

SEED = 20261201

# functors, and forms of their structures: `?` is a state, and `#` a digit below 3
FAMILIES = [
    ("P X", ["{}", "{?}", "{?, ?}", "{?, ?, ?}"]),
    ("P({a,b} x X)", ["{}", "{(a, ?)}", "{(b, ?), (a, ?)}", "{(a, ?), (a, ?)}"]),
    ("B X", ["{}", "{?}", "{?, ?}", "{?: #, ?: 2}", "{?: #}"]),
    ("D X", ["{?: 1}", "{?: 1/2, ?: 0.5}", "{?: 1/3, ?: 2/3}", "{?: 1/4, ?: 1/4, ?: 1/2}"]),
    ("2 x D X", ["(0, {?: 1})", "(1, {?: 1/2, ?: 0.5})", "(0, {?: 1/3, ?: 2/3})"]),
    ("Z^(X)", ["{}", "{?: #}", "{?: 1, ?: -1}", "{?: #, ?: -#}", "{?: -2, ?: 1, ?: 1}"]),
    ("2 x Z^(X)", ["(0, {})", "(1, {?: #})", "(0, {?: 1, ?: -1})", "(1, {?: #, ?: -#})"]),
    ("Q^(X)", ["{}", "{?: 1/2}", "{?: 1/3, ?: -1/3}", "{?: #/3, ?: 2/3}"]),
    ("X", ["?"]),
    ("2 x X^{a,b}", ["(0, {a: ?, b: ?})", "(1, {b: ?, a: ?})"]),
    ("1 + X", ["inj 0 0", "inj 1 ?"]),
    ("1 + {u,v} x X", ["inj 0 0", "inj 1 (u, ?)", "inj 1 (v, ?)"]),
    ("N x X", ["(#, ?)", "(00#, ?)"]),
    ("P D X", ["{}", "{{?: 1}}", "{{?: 1/2, ?: 1/2}, {?: 1}}"]),
    ("P({coin, tea} x D X)",
     ["{}", "{(coin, {?: 9/10, ?: 0.1})}", "{(tea, {?: 1}), (coin, {?: 1})}"]),
    ("D P X", ["{{}: 1}", "{{?}: 1/2, {?, ?}: 1/2}", "{{?}: 1}"]),
    ("P P X", ["{}", "{{}}", "{{?}, {?, ?}}", "{{?}, {}}"]),
    ("Z^(P X)", ["{}", "{{?}: 1, {?}: -1}", "{{}: #, {?}: 1}"]),
    ("(P X)^2", ["{0: {}, 1: {?}}", "{1: {}, 0: {?, ?}}"]),
    ("(X + 2) x (1 + X)", ["(inj 0 ?, inj 0 0)", "(inj 1 0, inj 1 ?)", "(inj 0 ?, inj 1 ?)"]),
    ("B (2 x X)", ["{}", "{(0, ?)}", "{(0, ?): #, (1, ?): 1}"]),
    ("X x (B X)^{l,r}", ["(?, {l: {}, r: {?}})", "(?, {r: {?: #}, l: {?, ?}})"]),
    ("Q^(1 + X)", ["{}", "{inj 0 0: #, inj 1 ?: 1/2}", "{inj 1 ?: -1/2, inj 1 ?: 0.5}"]),
    ("P(X x X)", ["{}", "{(?, ?)}", "{(?, ?), (?, ?)}"]),
    ("P N + D(2 x X)", ["inj 0 {#, #}", "inj 0 {}", "inj 1 {(0, ?): 1}",
                        "inj 1 {(1, ?): 2/3, (0, ?): 1/3}"]),
]
# texts of values, right and wrong, that a modality may get
VALUES = ("{} {0,2} {1} {2} {2,1} {1,1} (2,1) (0,0) (2) (3,0) () 0:2 1:1 2:0 256:0 =0 =1 =7 =01 = "
          "0 2 3 [0,0,1] [1/2,0,1/2] [2/4,0,0] [-0,0,0] [0,0] [-1,1,0] true").split()
# a file, an answer for it that was made by hand, and what `check` says of two of its states
BY_HAND = (
    "P X\na: {b}\nb: {a}\nc: {}\nd: {c, a}\n",
    "f0 = true\nf1 = at 0 {2} f0 f0\nf2 = not f1\nf3 = at 0 {1} f2 f0\nf4 = at 0 {1,2} f2 f0\n"
    "block f3 a b\nblock f2 c\nblock f4 d\n",
    "a f0 true\na f1 true\na f2 false\na f3 true\na f4 false\n"
    "d f0 true\nd f1 true\nd f2 false\nd f3 false\nd f4 true\n",
)


class Certificate:
    """A certificate as lists of words: its formula lines and its block lines, with draws."""

    def __init__(self, text, draw):
        lines = [line.split(" ") for line in text.rstrip("\n").split("\n")]
        self.formulas = [line for line in lines if line[0] != "block"]
        self.blocks = [line for line in lines if line[0] == "block"]
        self.draw = draw

    def text(self):
        return "".join(" ".join(line) + "\n" for line in self.formulas + self.blocks).encode()

    def block(self):
        return self.draw.choice(self.blocks)

    def two(self):
        """Two block lines, which are one where there is one alone."""
        return self.draw.sample(self.blocks, 2) if len(self.blocks) > 1 else self.blocks * 2

    def place(self, block):
        """The place of a name in a block line."""
        return self.draw.randrange(2, len(block))

    def formula(self):
        return self.draw.randrange(len(self.formulas))

    def modality(self):
        """The words of a modality, or some that stand in no line where there is none."""
        found = [line for line in self.formulas if line[2] == "at"]
        return self.draw.choice(found) if found else ["f0", "=", "at", "0", "{}", "f0", "f0"]

    def add(self, *body):
        """Puts a formula behind the others, and answers its name."""
        name = f"f{len(self.formulas)}"
        self.formulas.append([name, "=", *body])
        return name


def a_state_moves(c):
    source, target = c.two()
    target.append(source.pop(c.place(source)))


def a_state_stands_twice_in_its_line(c):
    block = c.block()
    block.append(block[c.place(block)])


def a_state_stands_in_another_line_too(c):
    source, target = c.two()
    target.append(source[c.place(source)])


def a_state_is_left_out(c):
    block = c.block()
    block.pop(c.place(block))


def a_name_is_no_state(c):
    block = c.block()
    block[c.place(block)] = "zz"


def two_states_trade_places(c):
    one, other = c.two()
    i, j = c.place(one), c.place(other)
    one[i], other[j] = other[j], one[i]


def a_state_stands_for_another(c):
    one, other = c.two()
    other[c.place(other)] = one[c.place(one)]


def one_state_twice_and_one_never(c):
    one, other = c.two()
    other.append(other[c.place(other)])
    one.pop(c.place(one))


def a_line_is_left_out(c):
    c.blocks.remove(c.block())


def two_lines_trade_formulas(c):
    one, other = c.two()
    one[1], other[1] = other[1], one[1]


def two_lines_become_one(c):
    one, other = c.two()
    if one is not other:
        one += other[2:]
        c.blocks.remove(other)


def a_state_gets_its_own_line(c):
    block = c.block()
    c.blocks.insert(c.blocks.index(block) + c.draw.randrange(2), ["block", block[1], block.pop()])


def a_line_is_denied(c):
    block = c.block()
    block[1] = c.add("not", block[1])


def lines_and_states_are_reversed(c):
    c.blocks = [block[:2] + block[:1:-1] for block in c.blocks[::-1]]


def a_formula_is_left_out(c):
    c.formulas.pop(c.formula())


def a_number_has_a_needless_zero(c):
    k = c.formula()
    c.formulas[k][0] = f"f0{k}"


def a_formula_cites_itself(c):
    k = c.formula()
    c.formulas[k] = [f"f{k}", "=", "not", f"f{k}"]


def a_formula_becomes_true(c):
    k = c.formula()
    c.formulas[k] = [f"f{k}", "=", "true"]


def a_formula_becomes_a_denial(c):
    k = c.formula()
    c.formulas[k] = [f"f{k}", "=", "not", f"f{c.draw.randrange(max(1, k))}"]


def a_formula_is_added(c):
    c.add("and", f"f{c.formula()}", "f0")


def a_conjunction_cites_another(c):
    found = [k for k, line in enumerate(c.formulas) if line[2] == "and"]
    if found:
        k = c.draw.choice(found)
        c.formulas[k][c.draw.randrange(3, 5)] = f"f{c.draw.randrange(k)}"


def a_modality_has_its_formulas_swapped(c):
    words = c.modality()
    words[5], words[6] = words[6], words[5]


def a_modality_has_another_node(c):
    c.modality()[3] = str(c.draw.randrange(4))


def a_modality_has_another_value(c):
    c.modality()[4] = c.draw.choice(VALUES)


def a_modality_has_another_digit(c):
    words = c.modality()
    places = [i for i, byte in enumerate(words[4]) if byte.isdigit()]
    if places:
        i = c.draw.choice(places)
        words[4] = words[4][:i] + str(c.draw.randrange(3)) + words[4][i + 1:]


def a_modality_cites_another(c):
    words = c.modality()
    words[c.draw.randrange(5, 7)] = f"f{c.draw.randrange(int(words[0][1:]) + 1)}"


def a_pair_is_put_in(c):
    c.blocks.insert(c.draw.randrange(len(c.blocks) + 1), ["equivalent", "s0", "s0"])


def a_block_comes_before_its_formula(c):
    block = c.block()
    c.blocks.remove(block)
    c.formulas.insert(c.formula(), block)


def blanks_and_comments_are_put_in(c):
    for lines in (c.formulas, c.blocks):
        lines.insert(c.draw.randrange(len(lines) + 1), ["\t", "#", "block"])
        lines[:] = [words + ["\t\r"] for words in lines]
        lines.insert(c.draw.randrange(len(lines) + 1), [""])


def nothing_is_left(c):
    c.formulas, c.blocks = [], []


CHANGES = [
    a_state_moves, a_state_stands_twice_in_its_line, a_state_stands_in_another_line_too,
    a_state_is_left_out, a_name_is_no_state, two_states_trade_places, a_state_stands_for_another,
    one_state_twice_and_one_never, a_line_is_left_out, two_lines_trade_formulas,
    two_lines_become_one, a_state_gets_its_own_line, a_line_is_denied,
    lines_and_states_are_reversed, a_formula_is_left_out, a_number_has_a_needless_zero,
    a_formula_cites_itself, a_formula_becomes_true, a_formula_becomes_a_denial,
    a_formula_is_added, a_conjunction_cites_another,
    a_modality_has_its_formulas_swapped, a_modality_has_another_node, a_modality_has_another_value,
    a_modality_has_another_digit, a_modality_cites_another, a_pair_is_put_in,
    a_block_comes_before_its_formula, blanks_and_comments_are_put_in, nothing_is_left,
]


def drawn_file(draw, functor, forms):
    """The text of a file of one to seven states."""
    count, lines = draw.randint(1, 7), [functor]
    fill = {"?": lambda: f"s{draw.randrange(count)}", "#": lambda: str(draw.randrange(3))}
    for i in range(count):
        form = draw.choice(forms)
        lines.append(f"s{i}: " + "".join(fill.get(byte, lambda b=byte: b)() for byte in form))
    return "\n".join(lines) + "\n"


def drawn_formulas(draw, file):
    """Formulas of all kinds; a modality has the value that some structure of the file has."""
    layers = []

    def gather(node, value):
        layers.append((node, value))
        for child, below, _ in file.children(node, value):
            if child[0] != "state":
                gather(below, child)

    for value in file.values:
        gather(file.nodes[0], value)
    formulas = []
    truths = plain.Truths(file, formulas)
    for k in range(draw.randint(10, 29)):
        kind, earlier = draw.randrange(10) if k else 0, lambda k=k: draw.randrange(max(1, k))
        if kind == 0:
            formulas.append(("true",))
        elif kind < 3:
            formulas.append(("not", earlier()))
        elif kind == 3:
            formulas.append(("and", earlier(), earlier()))
        else:
            node, value = draw.choice(layers)
            i, j = earlier(), earlier()
            # one in four has the value for other formulas, which the structure itself may not have
            a, b = (i, j) if draw.randrange(4) else (earlier(), earlier())
            formulas.append(("at", node.number, truths.layer(node, value, a, b), i, j))
    return formulas


def written(formulas):
    """The text of formulas."""
    lines = []
    for k, (kind, *rest) in enumerate(formulas):
        shown = rest[:2] if kind == "at" else []
        words = [kind, *map(str, shown), *(f"f{i}" for i in rest[len(shown):])]
        lines.append(f"f{k} = {' '.join(words)}\n")
    return "".join(lines)


def checked(file, formulas):
    """What `check` is to print of formulas at each state of a file."""
    truths = plain.Truths(file, formulas)
    return "".join(f"{name} f{k} {str(truths.at_state(k, x)).lower()}\n"
                   for x, name in enumerate(file.names) for k in range(len(formulas)))


def uncited(formulas, wanted):
    """The formulas that no wanted one cites, directly or through others."""
    cited = set(wanted)
    for k in range(len(formulas) - 1, -1, -1):
        if k in cited:
            kind, *rest = formulas[k]
            cited.update(rest[2:] if kind == "at" else rest)
    return set(range(len(formulas))) - cited


class Comparison:
    """Runs of the program, what they are compared with, and how often each came."""

    def __init__(self, program):
        self.program, self.counts, self.changed = program, {}, {}
        self.differences, self.runs, self.shown = 0, 0, ""

    def run(self, *words):
        """The status of a run, and the bytes on its output and on its other output."""
        self.runs += 1
        done = subprocess.run([self.program, *words], capture_output=True, check=False)
        return done.returncode, done.stdout, done.stderr

    def count(self, what, times=1):
        self.counts[what] = self.counts.get(what, 0) + times

    def same(self, what, found, wanted, answer=b""):
        """Counts a difference, and prints it with the file and the answer."""
        if found != wanted:
            self.differences += 1
            print(f"DIFFERS: {what}\n  found  {found!r}\n  wanted {wanted!r}\n"
                  f"{self.shown}{answer.decode(errors='replace')}", flush=True)

    def explained(self, file):
        """All pairs of states in one run, and `check` of what it prints."""
        pairs = [(x, y) for x in range(len(file.names)) for y in range(len(file.names))]
        words = [file.names[i] for pair in pairs for i in pair]
        status, text, said = self.run("explain", "file", *words, "--stats")
        self.same("explain", (status, said), (0, b""))
        lines = plain.read_answer(text, True)
        if isinstance(lines, int):
            self.same("a line of explain", lines, "none is bad", text)
            return
        formulas = [rest[0] for _, kind, *rest in lines if kind == "formula"]
        verdicts = [rest for _, *rest in lines if rest[0] != "formula"]
        truths, wanted = plain.Truths(file, formulas), set()
        self.same("pairs", [v[1:3] for v in verdicts],
                  [[file.names[i].encode() for i in pair] for pair in pairs], text)
        for (x, y), (kind, _, _, *k) in zip(pairs, verdicts):
            alike = file.first[x] == file.first[y]
            self.same("equivalent", kind, "equivalent" if alike else "separates", text)
            self.count(f"pairs: {kind}")
            if k:
                wanted.add(k[0])
                self.same("separates", (truths.at_state(k[0], x), truths.at_state(k[0], y)),
                          (True, False), text)
        self.same("fits", all(plain.fits(file.nodes, f) for f in formulas), True, text)
        self.same("uncited", uncited(formulas, wanted), set(), text)
        counted = re.search(rb"^# sorted ([0-9]+) places [0-9]+ labels [0-9]+$", text, re.M)
        self.same("sorted", counted and int(counted.group(1)), file.structures, text)
        self.same("at most 6N + 1", len(formulas) <= 6 * file.structures + 1, True, text)
        self.count("formulas of explanations", len(formulas))
        self.told(file, formulas, text)

    def told(self, file, formulas, text):
        """`check` of a text of formulas, at each state."""
        with open("formulas", "wb") as out:
            out.write(text)
        wanted = checked(file, formulas)
        self.same("check", self.run("check", "file", "formulas", *file.names),
                  (0, wanted.encode(), b""), text)
        for truth in ("true", "false"):
            self.count(f"truths: {truth}", wanted.count(truth))

    def judged(self, file, text):
        """`verify` of an answer; answers the word of the verdict."""
        with open("answer", "wb") as out:
            out.write(text)
        word, line, status = plain.verdict(file, text)
        wanted = (status, b"", line.encode()) if status == 8 else (status, line.encode(), b"")
        self.same(f"verify, {word}", self.run("verify", "file", "answer"), wanted, text)
        self.count(f"verdicts: {word}")
        return word

    def by_hand(self):
        """The file and the answer made by hand; and an explanation put through `check`."""
        text, answer, wanted = BY_HAND
        file = self.stored(text)
        self.same("by hand: verify", self.judged(file, answer.encode()), "right")
        self.same("by hand: check", self.run("check", "file", "answer", "a", "d"),
                  (0, wanted.encode(), b""))
        _, found, _ = self.run("explain", "file", "a", "d")
        with open("formulas", "wb") as out:
            out.write(found)
        _, truths, _ = self.run("check", "file", "formulas", "a", "d")
        k = found.rstrip(b"\n").split(b" ")[-1]
        self.same("by hand: explain, check",
                  [line for line in truths.splitlines() if b" " + k + b" " in line],
                  [b"a " + k + b" true", b"d " + k + b" false"], found)

    def stored(self, text):
        """Writes a file, and answers what the plain program reads."""
        self.shown = text
        with open("file", "w", encoding="ascii") as out:
            out.write(text)
        return plain.File(text)

    def compare(self, number):
        """All that is compared of one drawn file."""
        draw = random.Random(f"{SEED} {number}")
        file = self.stored(drawn_file(draw, *FAMILIES[number % len(FAMILIES)]))
        self.count("states", len(file.names))
        self.explained(file)
        formulas = drawn_formulas(draw, file)
        self.count("formulas drawn", len(formulas))
        self.told(file, formulas, written(formulas).encode())
        status, text, said = self.run("certify", "file")
        self.same("certify", (status, said), (0, b""))
        self.same("verify of certify", self.judged(file, text), "right", text)
        for change in CHANGES:
            certificate = Certificate(text.decode(), draw)
            change(certificate)
            name = change.__name__.replace("_", " ")
            counts = self.changed.setdefault(name, collections.Counter())
            counts[self.judged(file, certificate.text())] += 1


def main():
    if len(sys.argv) not in (2, 3):
        sys.exit(__doc__.split("\n\n")[1])
    comparison, begun = Comparison(os.path.abspath(sys.argv[1])), time.perf_counter()
    files = int(sys.argv[2]) if len(sys.argv) > 2 else 500
    with tempfile.TemporaryDirectory() as folder:
        os.chdir(folder)
        comparison.by_hand()
        for number in range(files):
            comparison.compare(number)
        os.chdir("/")
    print(f"files: {files} over {min(files, len(FAMILIES))} functors, seed {SEED}")
    print(f"runs: {comparison.runs} in {time.perf_counter() - begun:.0f} s")
    for what, times in sorted(comparison.counts.items()):
        print(f"{what}: {times}")
    for name, counts in comparison.changed.items():
        print(f"{name}: " + ", ".join(f"{n} {word}" for word, n in counts.most_common()))
    print(f"differences: {comparison.differences}")
    sys.exit(1 if comparison.differences else 0)


if __name__ == "__main__":
    main()
