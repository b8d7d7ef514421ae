"""The definitions as a slow program, for runs of copar to be compared with.

It says of bytes what a file is read as, of states which are equivalent, of formulas where they hold, and
of answers whether they are right, and what copar prints of it all. It was written from docs/FORMAT.md and
shares nothing with the program: weights are Python's fractions, and the classes come by rounds in which
each value is computed anew.
"""
import re
from fractions import Fraction
from math import gcd, lcm

MOST = 1 << 40  # a numerator, a denominator, a whole number, a common denominator
MOST_BYTES = 1 << 26
WORD = re.compile(rb"[A-Za-z0-9_'.\-/@$!?\x80-\xff]+")
TOKEN = re.compile(WORD.pattern + rb"|[(){},:]")
NUMERAL = re.compile(rb"(-?)([0-9]+)(?:/([0-9]+)|\.([0-9]+))?")


class Fault(Exception):
    """Why a run is refused: its status, and what its line says."""

    def __init__(self, status, text):
        super().__init__(text)
        self.status, self.text = status, text


def grammar(line):
    return Fault(3, f"grammar fault on line {line}")


class Misfit(Exception):
    """The kind of the first misfit of a tree."""


class NoTree(Exception):
    """The bytes spell no term, no tree, or no answer."""


def whole(digits):
    """The number of a decimal text, or one past every bound where it is long."""
    digits = digits.lstrip(b"0")
    return int(digits or b"0") if len(digits) <= 40 else 10 ** 40


def lines_of(data):
    """The lines that are not skipped, with their numbers."""
    for number, line in enumerate(data.split(b"\n"), 1):
        line = line[:-1] if line.endswith(b"\r") else line
        if line.strip(b" \t") and not line.lstrip(b" \t").startswith(b"#"):
            yield number, line


class Term:
    """A node of a functor, with its parts. A constant or a power has its labels: a number or words."""

    def __init__(self, kind, parts=(), labels=None):
        self.kind, self.parts, self.labels = kind, tuple(parts), labels
        self.depth = 1 + max((p.depth for p in parts), default=0)
        self.size = 1 + sum(p.size for p in parts)
        self.number = 0

    def numbered(self, number=0):
        self.number = number
        for part in self.parts:
            part.numbered(number + 1)
            number += part.size
        return self

    def nodes(self):
        yield self
        for part in self.parts:
            yield from part.nodes()

    def label(self, word):
        """The number of a label, or None."""
        if isinstance(self.labels, int):
            number = whole(word) if word.isdigit() else self.labels
            return number if number < self.labels else None
        return self.labels.index(word) if word in self.labels else None

    def places(self):
        return self.labels if isinstance(self.labels, int) else len(self.labels)


class TermReader:
    """Reads a functor line."""

    def __init__(self, line):
        self.tokens, self.at, self.opened = list(self.cut(line)), 0, 0

    @staticmethod
    def cut(line):
        at = 0
        while at < len(line):
            byte = line[at:at + 1]
            if byte in (b" ", b"\t"):
                at += 1
            elif line[at:at + 2] == b"\xc3\x97":
                at += 2
                yield "x"
            elif byte in (b"X", b"P", b"B", b"D", b"N", b"Z", b"Q", b"x", b"(", b")", b"^", b"+", b"*"):
                at += 1
                yield "x" if byte == b"*" else byte.decode()
            elif byte.isdigit():
                digits = re.match(rb"[0-9]+", line[at:]).group()
                at += len(digits)
                if not 1 <= whole(digits) <= 65536:
                    raise NoTree
                yield whole(digits)
            elif byte == b"{" and b"}" in line[at:]:
                end = line.index(b"}", at)
                words = tuple(w.strip(b" \t") for w in line[at + 1:end].split(b","))
                if not all(WORD.fullmatch(w) and w != b"inj" for w in words):
                    raise NoTree
                if len(set(words)) != len(words) or len(words) > 65536:
                    raise NoTree
                at = end + 1
                yield words
            else:
                raise NoTree

    def peek(self, ahead=0):
        return self.tokens[self.at + ahead] if self.at + ahead < len(self.tokens) else None

    def take(self, token):
        if self.peek() != token:
            raise NoTree
        self.at += 1

    def chain(self, sign, kind, part):
        parts = [part()]
        while self.peek() == sign:
            self.at += 1
            parts.append(part())
        return parts[0] if len(parts) == 1 else Term(kind, parts)

    def sum(self):
        return self.chain("+", "sum", lambda: self.chain("x", "product", self.power))

    def inside(self):
        self.take("(")
        self.opened += 1
        if self.opened > 32:
            raise NoTree
        term = self.sum()
        self.take(")")
        self.opened -= 1
        return term

    def power(self):
        term = self.prefix()
        while self.peek() == "^":
            self.at += 1
            if not isinstance(self.peek(), (int, tuple)):
                raise NoTree
            term = Term("power", [term], self.peek())
            self.at += 1
            if term.depth > 32:
                raise NoTree
        return term

    def prefix(self):
        letters = []
        while self.peek() in ("P", "B", "D"):
            letters.append(self.peek())
            self.at += 1
        if len(letters) > 32:
            raise NoTree
        term = self.atom()
        for letter in reversed(letters):
            term = Term(letter, [term])
        return term

    def atom(self):
        token = self.peek()
        if token in ("N", "Z", "Q") and (self.peek(1), self.peek(2)) == ("^", "("):
            self.at += 2
            return Term({"N": "B"}.get(token, token), [self.inside()])
        if token == "(":
            return self.inside()
        self.at += 1
        if token in ("X", "N"):
            return Term(token)
        if isinstance(token, (int, tuple)):
            return Term("constant", labels=token)
        raise NoTree

    def read(self):
        term = self.sum()
        if self.peek() is not None or term.depth > 32 or term.size > 256:
            raise NoTree
        return term.numbered()


class TreeReader:
    """Reads a state line. A word is bytes, and every other tree a tuple that begins with its kind."""

    def __init__(self, line):
        self.tokens, self.at = [], 0
        at = 0
        while at < len(line):
            found = TOKEN.match(line, at)
            if found:
                self.tokens.append(found.group())
                at = found.end()
            elif line[at] in b" \t":
                at += 1
            else:
                raise NoTree

    def next(self):
        self.at += 1
        return self.tokens[self.at - 1] if self.at <= len(self.tokens) else b""

    def peek(self):
        return self.tokens[self.at] if self.at < len(self.tokens) else b""

    def word(self):
        token = self.next()
        if not WORD.fullmatch(token) or token == b"inj":
            raise NoTree
        return token

    def tree(self, opened=0):
        token = self.peek()
        if token not in (b"(", b"{", b"inj"):
            return self.word()
        if opened == 64:
            raise NoTree
        self.at += 1
        if token == b"inj":
            index = self.next()
            if not index.isdigit():
                raise NoTree
            return ("inj", index, self.tree(opened + 1))
        if token == b"(":
            parts = self.parts(b")", lambda: self.tree(opened + 1))
            return parts[0] if len(parts) == 1 else ("tuple", parts)
        if self.peek() == b"}":
            self.at += 1
            return ("braces", [])
        return ("braces", self.parts(b"}", lambda: self.entry(opened + 1)))

    def parts(self, end, part):
        found = [part()]
        while self.peek() == b",":
            self.at += 1
            found.append(part())
        if self.next() != end:
            raise NoTree
        return found

    def entry(self, opened):
        first = self.tree(opened)
        if self.peek() != b":":
            return first, None
        self.at += 1
        return first, self.tree(opened)

    def read(self):
        head = self.word()
        if self.next() != b":":
            raise NoTree
        tree = self.tree()
        if self.at != len(self.tokens):
            raise NoTree
        return head, tree


class Notes:
    """What the fitting of a line leaves to later stages."""

    def __init__(self):
        self.over, self.denominators, self.short = False, [], False


def braces(tree):
    if isinstance(tree, bytes) or tree[0] != "braces":
        raise Misfit("wrong shape")
    return tree[1]


def weight(kind, tree, notes):
    """The value of a weight, by the tests in their order."""
    if not isinstance(tree, bytes):
        raise Misfit("wrong shape")
    found = NUMERAL.fullmatch(tree)
    if not found or (found.group(3) is not None and not found.group(3).strip(b"0")):
        raise Misfit("not a number")
    minus, digits, below, behind = found.groups()
    behind = (behind or b"").rstrip(b"0")
    top = (digits + behind).lstrip(b"0")
    bottom = (below or b"1").lstrip(b"0") if below is not None else b"1" + b"0" * len(behind)
    if minus and top and kind in ("B", "D"):
        raise Misfit("negative")
    if whole(top) > MOST or whole(bottom) > MOST or len(behind) > 12:
        notes.over = True
        return Fraction(0)
    value = Fraction(whole(top), whole(bottom)) * (-1 if minus else 1)
    if kind in ("B", "Z") and value.denominator != 1:
        raise Misfit("not a number")
    notes.denominators.append(value.denominator)
    return value


def fitted(term, tree, names, notes):
    """The structure that a tree is at a node, with sets and weights as they are written."""
    kind = term.kind
    if kind in ("X", "constant", "N"):
        return fitted_word(term, tree, names, notes)
    if kind == "product":
        if isinstance(tree, bytes) or tree[0] != "tuple":
            raise Misfit("wrong shape")
        if len(tree[1]) != len(term.parts):
            raise Misfit("wrong count")
        return [fitted(p, t, names, notes) for p, t in zip(term.parts, tree[1])]
    if kind == "sum":
        if isinstance(tree, bytes) or tree[0] != "inj":
            raise Misfit("wrong shape")
        if whole(tree[1]) >= len(term.parts):
            raise Misfit("bad index")
        index = whole(tree[1])
        return index, fitted(term.parts[index], tree[2], names, notes)
    entries, part = braces(tree), term.parts[0]
    if kind == "power":
        return fitted_power(term, entries, names, notes)
    if kind == "P":
        if any(second is not None for _, second in entries):
            raise Misfit("wrong shape")
        return [fitted(part, first, names, notes) for first, _ in entries]
    if kind != "B" and any(second is None for _, second in entries):
        raise Misfit("wrong shape")
    found = []
    for first, second in entries:
        inner = fitted(part, first, names, notes)
        found.append((inner, Fraction(1) if second is None else weight(kind, second, notes)))
    notes.short |= kind == "D" and sum(w for _, w in found) != 1
    return found


def fitted_word(term, tree, names, notes):
    if not isinstance(tree, bytes):
        raise Misfit("wrong shape")
    if term.kind == "X":
        if tree not in names:
            raise Misfit("unknown state")
        return names[tree]
    if term.kind == "N":
        if not tree.isdigit():
            raise Misfit("not a label")
        notes.over |= whole(tree) > MOST
        return whole(tree)
    if term.label(tree) is None:
        raise Misfit("not a label")
    return term.label(tree)


def fitted_power(term, entries, names, notes):
    if any(second is None or not isinstance(first, bytes) for first, second in entries):
        raise Misfit("wrong shape")
    found = {}
    for first, second in entries:
        label = term.label(first)
        if label is None:
            raise Misfit("not a label")
        if label in found:
            raise Misfit("repeated key")
        found[label] = fitted(term.parts[0], second, names, notes)
    if len(found) != term.places():
        raise Misfit("missing key")
    return [found[label] for label in range(term.places())]


class System:
    """A coalgebra: a functor, the names of the states, and the structure of each."""

    def __init__(self, term, names, structures):
        self.term, self.names, self.structures = term, names, structures
        self.numbers = {name: number for number, name in enumerate(names)}
        self.truths = {}

    def classes(self):
        """The class of each state; classes are numbered in the order of their first states."""
        block, count = [0] * len(self.names), min(1, len(self.names))
        while True:
            numbers = {}
            block = [numbers.setdefault(relabelled(self.term, s, block), len(numbers))
                     for s in self.structures]
            if len(numbers) == count:
                return block
            count = len(numbers)

    def firsts(self):
        """The first state of each class."""
        first = {}
        for state, number in enumerate(self.classes()):
            first.setdefault(number, state)
        return list(first.values())

    def blocks_text(self):
        firsts = self.firsts()
        return b"".join(name + b" " + self.names[firsts[number]] + b"\n"
                        for name, number in zip(self.names, self.classes()))

    def quotient_text(self):
        firsts, block = self.firsts(), self.classes()
        names = [self.names[state] for state in firsts]
        lines = [term_text(self.term)]
        lines += [self.names[state] + b": " + value_text(
            self.term, relabelled(self.term, self.structures[state], block), names)
                  for state in firsts]
        return b"".join(line + b"\n" for line in lines)

    def holds(self, formulas, number, term, structure):
        """Whether a formula holds at a structure at a node."""
        key = (number, term.number, repr(structure))
        if key not in self.truths:
            self.truths[key] = self.held(formulas, formulas[number], term, structure)
        return self.truths[key]

    def held(self, formulas, formula, term, structure):
        kind = formula[0]
        if kind == "true":
            return True
        if kind == "not":
            return not self.holds(formulas, formula[1], term, structure)
        if kind == "and":
            return all(self.holds(formulas, f, term, structure) for f in formula[1:])
        _, node, value, splitter, coarse = formula
        if node != term.number:
            return False

        def trit(part, child):
            if part.kind == "X":
                part, child = self.term, self.structures[child]
            return 2 * (self.holds(formulas, splitter, part, child)
                        and self.holds(formulas, coarse, part, child)) or int(
                            self.holds(formulas, coarse, part, child))

        return layer_value(term, structure, trit) == value

    def at_state(self, formulas, number, state):
        return self.holds(formulas, number, self.term, self.structures[state])


def layer_value(term, structure, trit):
    """The value of one layer, where each child has a number from 0 to 2."""
    kind, parts = term.kind, term.parts
    if kind in ("constant", "N"):
        return ("label", structure)
    if kind == "X":
        return ("trit", trit(term, structure))
    if kind == "product":
        return ("trits", tuple(trit(p, s) for p, s in zip(parts, structure)))
    if kind == "power":
        return ("trits", tuple(trit(parts[0], s) for s in structure))
    if kind == "sum":
        return ("tagged", structure[0], trit(parts[structure[0]], structure[1]))
    if kind == "P":
        return ("members", tuple(sorted({trit(parts[0], s) for s in structure})))
    sums = [Fraction(0)] * 3
    for inner, amount in structure:
        sums[trit(parts[0], inner)] += amount
    return ("triple", tuple(sums))


def relabelled(term, structure, block):
    """The normal form of a structure whose states are replaced by their blocks."""
    kind, parts = term.kind, term.parts
    if kind == "X":
        return block[structure]
    if kind in ("constant", "N"):
        return structure
    if kind == "product":
        return tuple(relabelled(p, s, block) for p, s in zip(parts, structure))
    if kind == "power":
        return tuple(relabelled(parts[0], s, block) for s in structure)
    if kind == "sum":
        return structure[0], relabelled(parts[structure[0]], structure[1], block)
    if kind == "P":
        return tuple(sorted({relabelled(parts[0], s, block) for s in structure}))
    sums = {}
    for inner, amount in structure:
        inner = relabelled(parts[0], inner, block)
        sums[inner] = sums.get(inner, 0) + amount
    return tuple(sorted((inner, amount) for inner, amount in sums.items() if amount != 0))


def term_text(term):
    def inner(part, kinds):
        text = term_text(part)
        return b"(" + text + b")" if part.kind in kinds else text

    kind, parts, labels = term.kind, term.parts, term.labels
    if labels is not None:
        labels = b"%d" % labels if isinstance(labels, int) else b"{" + b",".join(labels) + b"}"
    if kind == "constant":
        return labels
    if kind in ("P", "B", "D"):
        return kind.encode() + b" " + inner(parts[0], ("power", "product", "sum"))
    if kind in ("Z", "Q"):
        return kind.encode() + b"^(" + term_text(parts[0]) + b")"
    if kind == "power":
        return inner(parts[0], ("product", "sum")) + b"^" + labels
    if kind == "product":
        return b" x ".join(inner(p, ("product", "sum")) for p in parts)
    if kind == "sum":
        return b" + ".join(inner(p, ("sum",)) for p in parts)
    return kind.encode()


def fraction_text(amount):
    return b"%d" % amount.numerator + (
        b"/%d" % amount.denominator if amount.denominator != 1 else b"")


def label_text(labels, number):
    return b"%d" % number if isinstance(labels, int) else labels[number]


def value_text(term, value, names):
    """The canonical text of a normal value."""
    kind, parts = term.kind, term.parts
    if kind == "X":
        return names[value]
    if kind == "N":
        return b"%d" % value
    if kind == "constant":
        return label_text(term.labels, value)
    if kind == "product":
        return b"(" + b", ".join(value_text(p, v, names) for p, v in zip(parts, value)) + b")"
    if kind == "sum":
        return b"inj %d " % value[0] + value_text(parts[value[0]], value[1], names)
    if kind == "power":
        shown = (label_text(term.labels, label) + b": " + value_text(parts[0], v, names)
                 for label, v in enumerate(value))
    elif kind == "P":
        shown = (value_text(parts[0], v, names) for v in value)
    else:
        shown = (value_text(parts[0], v, names) + b": " + fraction_text(w) for v, w in value)
    return b"{" + b", ".join(shown) + b"}"


def read_file(data):
    """The system that a file is read as. Raises the fault of the first stage that finds one."""
    if len(data) > MOST_BYTES:
        raise Fault(12, f"file longer than {MOST_BYTES} bytes")
    lines = list(lines_of(data))
    if not lines:
        raise grammar(data.count(b"\n") + 1)
    term = read_line(lines[0], TermReader)
    rows = [(line[0],) + read_line(line, TreeReader) for line in lines[1:]]
    names = {}
    for _, head, _ in rows:
        names.setdefault(head, len(names))
    seen, structures, notes = set(), [], []
    for number, head, tree in rows:
        notes.append((number, Notes()))
        try:
            if head in seen:
                raise Misfit("repeated state")
            structures.append(fitted(term, tree, names, notes[-1][1]))
        except Misfit as kind:
            raise Fault(4, f"type fault on line {number}: {kind}") from None
        seen.add(head)
    common = 1
    for number, note in notes:
        common = lcm(common, *note.denominators)
        if note.over or common > MOST:
            raise Fault(5, f"weight bound on line {number}")
    for number, note in notes:
        if note.short:
            raise Fault(6, f"distribution sum on line {number}")
    return System(term, list(names), structures)


def read_line(line, reader):
    try:
        return reader(line[1]).read()
    except NoTree:
        raise grammar(line[0]) from None


# ---- answers


def decimal(text, bound):
    """The number below the bound whose decimal text this is."""
    if not text.isdigit() or (text.startswith(b"0") and text != b"0") or whole(text) >= bound:
        raise NoTree
    return whole(text)


def cited(text, count):
    if text[:1] != b"f":
        raise NoTree
    return decimal(text[1:], count)


def fraction_in(text):
    minus, text = text[:1] == b"-", text.lstrip(b"-") if text.count(b"-") == 1 else text
    top, slash, bottom = text.partition(b"/")
    n, d = decimal(top, (1 << 106) + 1), decimal(bottom, MOST + 1) if slash else 1
    if (minus and n == 0) or (slash and (d < 2 or gcd(n, d) != 1)):
        raise NoTree
    return Fraction(-n if minus else n, d)


def trit_in(text):
    if text not in (b"0", b"1", b"2"):
        raise NoTree
    return int(text)


def value_in(text):
    """The value of a layer that a part of a line spells."""
    if text[:1] == b"=":
        return ("label", decimal(text[1:], MOST + 1))
    if text[:1] == b"(" and text[-1:] == b")":
        return ("trits", tuple(map(trit_in, text[1:-1].split(b","))))
    if text[:1] == b"[" and text[-1:] == b"]" and text.count(b",") == 2:
        return ("triple", tuple(map(fraction_in, text[1:-1].split(b","))))
    if text in (b"{}", b"{0}", b"{1}", b"{2}", b"{0,1}", b"{0,2}", b"{1,2}", b"{0,1,2}"):
        return ("members", tuple(int(t) for t in text[1:-1].split(b",") if t))
    if b":" in text:
        index, _, trit = text.partition(b":")
        return ("tagged", decimal(index, 256), trit_in(trit))
    return ("trit", trit_in(text))


def answer_in(parts, count):
    """What a line of an answer says, behind so many formulas."""
    if parts[0] in (b"block", b"separates", b"equivalent"):
        kind, names, formula = parts[0].decode(), parts[1:], None
        if kind == "block":
            formula, names = cited(names[0] if names else b"", count), names[1:]
        if kind == "separates":
            formula, names = cited(names[-1] if names else b"", count), names[:-1]
        if not all(map(WORD.fullmatch, names)) or len(names) < 1 or (
                kind != "block" and len(names) != 2):
            raise NoTree
        return (kind, formula, names)
    if parts[0] != b"f%d" % count or parts[1:2] != [b"="] or len(parts) < 3:
        raise NoTree
    word, rest = parts[2], parts[3:]
    shape = (word, len(rest))
    if shape == (b"true", 0):
        return ("true",)
    if shape == (b"not", 1) or shape == (b"and", 2):
        return (word.decode(), *(cited(f, count) for f in rest))
    if shape == (b"at", 4):
        return ("at", decimal(rest[0], 256), value_in(rest[1]), cited(rest[2], count),
                cited(rest[3], count))
    raise NoTree


def answers_in(data, pairs):
    """The lines of an answer, with their numbers. Raises the fault of the first bad line."""
    found, count = [], 0
    for number, line in lines_of(data):
        parts = [p for p in re.split(rb"[ \t]", line) if p]
        try:
            answer = answer_in(parts, count)
            if not pairs and answer[0] in ("separates", "equivalent"):
                raise NoTree
        except NoTree:
            raise Fault(8, f"answer text on line {number}") from None
        count += answer[0] in ("true", "not", "and", "at")
        found.append((number, answer))
    return found


def fits(term, formula):
    """Whether a formula is no modality, or one of the functor."""
    if formula[0] != "at":
        return True
    nodes = list(term.nodes())
    if formula[1] >= len(nodes) or (nodes[formula[1]].kind == "X" and formula[1] != 0):
        return False
    node, value = nodes[formula[1]], formula[2]
    kind = {"constant": "label", "N": "label", "X": "trit", "product": "trits", "power": "trits",
            "sum": "tagged", "P": "members"}.get(node.kind, "triple")
    if value[0] != kind:
        return False
    if kind == "trits":
        return len(value[1]) == (node.places() if node.kind == "power" else len(node.parts))
    if kind == "tagged":
        return value[1] < len(node.parts)
    return node.kind != "constant" or value[1] < node.places()


def read_answer(system, data, pairs):
    """The formulas and the other lines of an answer that fits the system."""
    if len(data) > MOST_BYTES:
        raise Fault(12, f"file longer than {MOST_BYTES} bytes")
    answers = answers_in(data, pairs)
    for number, answer in answers:
        strange = not pairs and answer[0] == "block" and any(
            name not in system.numbers for name in answer[2])
        if strange or not fits(system.term, answer):
            raise Fault(8, f"answer text on line {number}")
    kinds = ("block", "separates", "equivalent")
    system.truths = {}
    return ([a for _, a in answers if a[0] not in kinds], [a for _, a in answers if a[0] in kinds])


def check_text(system, data, words):
    """What `check` prints."""
    for word in words:
        if word not in system.numbers:
            raise Fault(7, "unknown state " + word.decode())
    formulas, _ = read_answer(system, data, True)
    return b"".join(
        b"%s f%d %s\n" % (word, number, b"true" if system.at_state(
            formulas, number, system.numbers[word]) else b"false")
        for word in words for number in range(len(formulas)))


def verdict(system, data):
    """What `verify` prints."""
    formulas, blocks = read_answer(system, data, False)
    names, where = system.names, {}
    for number, (_, _, members) in enumerate(blocks):
        for member in members:
            where.setdefault(member, []).append(number)
    for name in names:
        if len(where.get(name, [])) != 1:
            return b"wrong %s %s\n" % (b"twice" if name in where else b"missing", name)
    block, first = [where[name][0] for name in names], {}
    for state, number in enumerate(block):
        x = first.setdefault(number, state)
        if relabelled(system.term, system.structures[x], block) != relabelled(
                system.term, system.structures[state], block):
            return b"wrong unstable %s %s\n" % (names[x], names[state])
    for number, (_, formula, _) in enumerate(blocks):
        for state, name in enumerate(names):
            if system.at_state(formulas, formula, state) != (block[state] == number):
                return b"wrong formula f%d %s\n" % (formula, name)
    return b"right\n"


def is_explained(system, data, pairs):
    """Whether what `explain` printed is right for the pairs of names."""
    formulas, lines = read_answer(system, data, True)
    block, wanted = system.classes(), []
    if len(lines) != len(pairs) or not is_only_cited(formulas, lines):
        return False
    for (x, y), line in zip(pairs, lines):
        x, y = system.numbers[x], system.numbers[y]
        wanted.append(line[2] == [system.names[x], system.names[y]] and (
            line[0] == "equivalent" if block[x] == block[y] else
            line[0] == "separates" and system.at_state(formulas, line[1], x)
            and not system.at_state(formulas, line[1], y)))
    return all(wanted)


def is_certified(system, data):
    """Whether what `certify` printed has each class, in order, with a right formula."""
    formulas, lines = read_answer(system, data, False)
    block = system.classes()
    classes = [[name for name, b in zip(system.names, block) if b == number]
               for number in range(len(system.firsts()))]
    return [line[2] for line in lines] == classes and is_only_cited(
        formulas, lines) and verdict(system, data) == b"right\n"


def is_only_cited(formulas, lines):
    """Whether each formula is cited from a line, directly or through others."""
    used = {line[1] for line in lines if line[1] is not None}
    for number in reversed(range(len(formulas))):
        formula = formulas[number]
        if number in used:
            used |= set({"not": formula[1:], "and": formula[1:], "at": formula[3:]}.get(
                formula[0], ()))
    return used == set(range(len(formulas)))
