"""copar's definitions as a plain program, written from docs/FORMAT.md and docs/CERTIFICATES.md.

It reads files that have no fault, and any answer; it tells at which states formulas hold, which
states are equivalent, and what `verify` prints for an answer. Nothing here is fast: equality is
asked of whole structures, classes come by rounds, and each formula is asked of each state.
`bench/judged.py` compares the program with it.

Values are tuples that begin with their kind:

    ("state", i)          the state of number i
    ("label", n)          a label of a constant by its number, or a whole number
    ("tuple", [v, ..])    the parts of a product, or the places of a power in order
    ("part", k, v)        part k of a sum
    ("set", [v, ..])      a set, as it is written: elements may be equal
    ("weights", [(v, w), ..])   weights as fractions, as they are written: elements may be equal

Formulas are tuples too: ("true",), ("not", i), ("and", i, j), ("at", node, value, i, j), where the
value is its text.
"""
import collections
import math
import re
from fractions import Fraction

WEIGHTED = {"B": "bag", "D": "distribution", "N": "bag", "Z": "integers", "Q": "rationals"}


class Node:
    """A node of a functor: its kind, its labels where it has some, its children, and its number,
    which counts the nodes from 0 in the order in which the line opens them."""

    def __init__(self, kind, labels=(), children=()):
        self.kind, self.labels, self.children, self.number = kind, labels, list(children), None


class FunctorLine:
    """The functor line, read by descent: `nodes` has the nodes by their numbers."""

    def __init__(self, text):
        self.text, self.place, self.nodes = text.replace("×", "x").replace("*", "x"), 0, []
        root = self.chain("+", "sum", self.product)
        if self.next() != "":
            raise ValueError(f"no functor: {text}")
        self.count(root)

    def count(self, node):
        node.number = len(self.nodes)
        self.nodes.append(node)
        for child in node.children:
            self.count(child)

    def next(self):
        """The next byte that is no blank, or nothing at the end."""
        while self.text[self.place:self.place + 1] in (" ", "\t"):
            self.place += 1
        return self.text[self.place:self.place + 1]

    def take(self, byte):
        if self.next() != byte:
            raise ValueError(f"no {byte} at {self.place}: {self.text}")
        self.place += 1

    def chain(self, sign, kind, part):
        parts = [part()]
        while self.next() == sign:
            self.take(sign)
            parts.append(part())
        return parts[0] if len(parts) == 1 else Node(kind, (), parts)

    def product(self):
        return self.chain("x", "product", self.power)

    def power(self):
        base = self.prefix()
        while self.next() == "^":
            self.take("^")
            base = Node("power", self.labels(), [base])
        return base

    def inside(self):
        self.take("(")
        node = self.chain("+", "sum", self.product)
        self.take(")")
        return node

    def prefix(self):
        sign = self.next()
        if sign in ("P", "B", "D"):
            self.take(sign)
            return Node(WEIGHTED.get(sign, "sets"), (), [self.prefix()])
        weights = re.compile(r"[NZQ][ \t]*\^[ \t]*(?=\()").match(self.text, self.place)
        if weights:
            self.place = weights.end()
            return Node(WEIGHTED[sign], (), [self.inside()])
        if sign in ("N", "X"):
            self.take(sign)
            return Node({"N": "naturals", "X": "states"}[sign])
        return self.inside() if sign == "(" else Node("constant", self.labels())

    def labels(self):
        self.next()
        shape = re.compile(r"\{([^}]*)\}|([0-9]+)").match(self.text, self.place)
        self.place = shape.end()
        if shape.group(2):
            return [str(i) for i in range(int(shape.group(2)))]
        return [label.strip(" \t") for label in shape.group(1).split(",")]


def tree_of(text):
    """The tree of a state line: a word, ("tuple", trees), ("braces", pairs of a tree and another or
    None), or ("inj", k, tree)."""
    tokens = re.findall(r"[A-Za-z0-9_'.\-/@$!?]+|[(){},:]", text)[::-1]

    def several(close, read):
        found = []
        while tokens[-1] != close:
            found.append(read())
            if tokens[-1] == ",":
                tokens.pop()
        tokens.pop()
        return found

    def entry():
        key = tree()
        if tokens[-1] != ":":
            return key, None
        tokens.pop()
        return key, tree()

    def tree():
        token = tokens.pop()
        if token == "(":
            parts = several(")", tree)
            return parts[0] if len(parts) == 1 else ("tuple", parts)
        if token == "{":
            return "braces", several("}", entry)
        if token == "inj":
            return "inj", int(tokens.pop()), tree()
        return token

    return tree()


def fitted(node, tree, numbers):
    """The value that a tree is at a node; `numbers` has the number of each state by its name."""
    if node.kind == "states":
        return "state", numbers[tree]
    if node.kind == "naturals":
        return "label", int(tree)
    if node.kind == "constant":
        if tree not in node.labels and int(tree) >= len(node.labels):
            raise ValueError(f"no label: {tree}")
        return "label", node.labels.index(tree) if tree in node.labels else int(tree)
    if node.kind == "product":
        return "tuple", [fitted(c, t, numbers) for c, t in zip(node.children, tree[1])]
    if node.kind == "sum":
        return "part", tree[1], fitted(node.children[tree[1]], tree[2], numbers)
    below = node.children[0]
    if node.kind == "power":
        places = dict(tree[1])
        return "tuple", [fitted(below, places[label], numbers) for label in node.labels]
    if node.kind == "sets":
        return "set", [fitted(below, t, numbers) for t, _ in tree[1]]
    return "weights", [(fitted(below, t, numbers), Fraction(w or 1)) for t, w in tree[1]]


def relabelled(value, labels):
    """The value with the label of each state for the state, in one form: two are the same exactly
    where they are equal as Python values."""
    kind = value[0]
    if kind == "state":
        return "state", labels[value[1]]
    if kind == "label":
        return value
    if kind == "tuple":
        return "tuple", tuple(relabelled(v, labels) for v in value[1])
    if kind == "part":
        return "part", value[1], relabelled(value[2], labels)
    if kind == "set":
        return "set", frozenset(relabelled(v, labels) for v in value[1])
    sums = collections.defaultdict(Fraction)
    for v, w in value[1]:
        sums[relabelled(v, labels)] += w
    return "weights", frozenset((v, w) for v, w in sums.items() if w != 0)


def structures_in(form):
    """How many structures at nodes other than `X` a value in one form has, with itself."""
    if form[0] == "state":
        return 0
    if form[0] in ("tuple", "set"):
        return 1 + sum(map(structures_in, form[1]))
    if form[0] == "weights":
        return 1 + sum(structures_in(v) for v, _ in form[1])
    return 1 + (structures_in(form[2]) if form[0] == "part" else 0)


class File:
    """A file without fault: the nodes of its functor, the names of its states, their values, for
    each state the number of the first that is equivalent to it, and the number of structures."""

    def __init__(self, text):
        functor, *lines = text.strip("\n").split("\n")
        self.nodes = FunctorLine(functor).nodes
        heads = [line.split(":", 1) for line in lines]
        self.names = [name.strip() for name, _ in heads]
        numbers = {name: i for i, name in enumerate(self.names)}
        self.values = [fitted(self.nodes[0], tree_of(tree), numbers) for _, tree in heads]
        self.first = [0] * len(self.names)
        for _ in self.names:
            forms = [relabelled(value, self.first) for value in self.values]
            self.first = [forms.index(form) for form in forms]
        same = range(len(self.names))
        self.structures = sum(max(1, structures_in(relabelled(v, same))) for v in self.values)

    def children(self, node, value):
        """The children of a structure at a node, each with its node and its weight."""
        if value[0] == "state":
            return [(value, node, 1)]
        if value[0] == "label":
            return []
        if value[0] == "tuple":
            below = node.children if node.kind == "product" else node.children * len(value[1])
            return [(v, c, 1) for v, c in zip(value[1], below)]
        if value[0] == "part":
            return [(value[2], node.children[value[1]], 1)]
        if value[0] == "set":
            return [(v, node.children[0], 1) for v in value[1]]
        return [(v, node.children[0], w) for v, w in value[1]]


class Truths:
    """At which structures of a file the formulas of a list hold. The list may grow meanwhile."""

    def __init__(self, file, formulas):
        self.file, self.formulas, self.known = file, formulas, {}

    def at_state(self, k, state):
        """Whether formula k holds at a state."""
        return self.at(k, self.file.nodes[0], self.file.values[state])

    def at(self, k, node, value):
        """Whether formula k holds at a structure at a node."""
        key = k, node.number, id(value)
        if key not in self.known:
            kind, *rest = self.formulas[k]
            if kind == "true":
                self.known[key] = True
            elif kind == "not":
                self.known[key] = not self.at(rest[0], node, value)
            elif kind == "and":
                self.known[key] = self.at(rest[0], node, value) and self.at(rest[1], node, value)
            else:
                self.known[key] = (rest[0] == node.number
                                   and self.layer(node, value, rest[2], rest[3]) == rest[1])
        return self.known[key]

    def layer(self, node, value, splitter, coarse):
        """The text of the value of a structure, once each child is 2, 1 or 0 by two formulas."""
        found = []
        for child, below, weight in self.file.children(node, value):
            if child[0] == "state":
                child, below = self.file.values[child[1]], self.file.nodes[0]
            inner, outer = self.at(splitter, below, child), self.at(coarse, below, child)
            found.append((2 if inner and outer else 1 if outer else 0, weight))
        if node.kind in ("constant", "naturals"):
            return f"={value[1]}"
        if node.kind == "states":
            return str(found[0][0])
        if node.kind in ("product", "power"):
            return "(" + ",".join(str(t) for t, _ in found) + ")"
        if node.kind == "sum":
            return f"{value[1]}:{found[0][0]}"
        if node.kind == "sets":
            return "{" + ",".join(str(t) for t in sorted({t for t, _ in found})) + "}"
        sums = [sum((w for t, w in found if t == which), Fraction(0)) for which in range(3)]
        return "[" + ",".join(map(str, sums)) + "]"


NAME = re.compile(rb"[A-Za-z0-9_'.\-/@$!?\x80-\xff]+\Z")
DIGITS = re.compile(rb"(0|[1-9][0-9]*)\Z")
TRITS = (b"0", b"1", b"2")


def number(word, most):
    """The number that a word spells with no needless zero, if it is at most `most`; else None."""
    return int(word) if DIGITS.match(word) and int(word) <= most else None


def cited(word, count):
    """The number of an earlier formula that a word cites, of so many; else None."""
    return number(word[1:], count - 1) if word[:1] == b"f" else None


def is_fraction(word):
    """Whether a word spells a fraction in lowest terms within its bounds."""
    negative = word[:1] == b"-"
    upper, slash, lower = word[negative:].partition(b"/")
    above = number(upper, 2 ** 106)
    if above is None or not slash:
        return above is not None and not (negative and above == 0)
    below = number(lower, 2 ** 40)
    return below is not None and below >= 2 and math.gcd(above, below) == 1


def form_of(word):
    """What the text of a value is, as its kind and a number, which is the label, the number of
    places or the part; None where it is no value."""
    inner = word[1:-1].split(b",")
    ends = word[:1] + word[-1:] if len(word) > 1 else b""
    if word[:1] == b"=":
        label = number(word[1:], 2 ** 40)
        return None if label is None else ("label", label)
    if word in TRITS:
        return "one", 0
    if ends == b"()" and all(t in TRITS for t in inner):
        return "places", len(inner)
    if word == b"{}" or (ends == b"{}" and all(t in TRITS for t in inner)
                         and inner == sorted(set(inner))):
        return "members", 0
    if ends == b"[]" and len(inner) == 3 and all(map(is_fraction, inner)):
        return "sums", 0
    part, colon, trit = word.partition(b":")
    if colon and trit in TRITS and number(part, 255) is not None:
        return "part", int(part)
    return None


def body_of(words, count):
    """The formula of the words behind `=`, where so many formulas stand before it; else None."""
    kind, *rest = words
    if words == [b"true"]:
        return ("true",)
    places = {b"not": 1, b"and": 2, b"at": 4}.get(kind)
    if len(rest) != places:
        return None
    numbers = [cited(word, count) for word in rest[-2:]]
    if None in numbers:
        return None
    if kind != b"at":
        return (kind.decode(), *numbers)
    node = number(rest[0], 255)
    if node is None or form_of(rest[1]) is None:
        return None
    return ("at", node, rest[1].decode(), *numbers)


def read_answer(text, pairs):
    """The lines of an answer that say something, each as its number, its kind and what it says:

        (n, "formula", formula)          (n, "separates", x, y, k)
        (n, "block", k, [name, ..])      (n, "equivalent", x, y)

    or the number of the first bad line. Lines of pairs are good where `pairs` says so."""
    found, count = [], 0
    for n, line in enumerate(text.split(b"\n"), 1):
        words = [w for w in re.split(rb"[ \t]", line[:-1] if line[-1:] == b"\r" else line) if w]
        if not words or words[0][:1] == b"#":
            continue
        said, kind = None, words[0]
        if kind == b"block":
            named = len(words) > 2 and all(map(NAME.match, words[2:]))
            if named and cited(words[1], count) is not None:
                said = "block", cited(words[1], count), words[2:]
        elif kind in (b"separates", b"equivalent"):
            names, rest = words[1:3], words[3:]
            formulas = [cited(word, count) for word in rest]
            wanted = 1 if kind == b"separates" else 0
            if (pairs and len(names) == 2 and all(map(NAME.match, names))
                    and len(rest) == wanted and None not in formulas):
                said = (kind.decode(), *names, *formulas)
        elif kind == b"f%d" % count and words[1:2] == [b"="] and len(words) > 2:
            body = body_of(words[2:], count)
            if body:
                said, count = ("formula", body), count + 1
        if said is None:
            return n
        found.append((n, *said))
    return found


def fits(nodes, formula):
    """Whether a formula is no modality, or one of a node that is there, with a value of it."""
    if formula[0] != "at":
        return True
    if formula[1] >= len(nodes):
        return False
    node, (kind, size) = nodes[formula[1]], form_of(formula[2].encode())
    return {
        "states": kind == "one" and node.number == 0,
        "constant": kind == "label" and size < len(node.labels),
        "naturals": kind == "label",
        "product": kind == "places" and size == len(node.children),
        "power": kind == "places" and size == len(node.labels),
        "sum": kind == "part" and size < len(node.children),
        "sets": kind == "members",
    }.get(node.kind, kind == "sums")


def first_fault(file, lines):
    """Of lines of an answer, the number and the kind of fault of the first that does not fit the
    file; None where each fits."""
    names = {name.encode() for name in file.names}
    for n, kind, *rest in lines:
        if kind == "formula" and not fits(file.nodes, rest[0]):
            return n, "misfit"
        if kind == "block" and any(name not in names for name in rest[1]):
            return n, "stranger"
    return None


def verdict(file, text):
    """What `verify` is to say of an answer: a word for the verdict, the line that is printed, and
    the status. The words are `right`, `missing`, `twice`, `unstable`, `formula`, `bad line`,
    `misfit` and `stranger`."""
    lines = read_answer(text, False)
    fault = (lines, "bad line") if isinstance(lines, int) else first_fault(file, lines)
    if fault:
        return fault[1], f"copar: answer text on line {fault[0]}\n", 8
    formulas = [rest[0] for _, kind, *rest in lines if kind == "formula"]
    blocks = [rest for _, kind, *rest in lines if kind == "block"]
    places = []
    for name in file.names:
        found = [i for i, (_, names) in enumerate(blocks) for n in names if n == name.encode()]
        if len(found) != 1:
            why = "twice" if found else "missing"
            return why, f"wrong {why} {name}\n", 1
        places += found
    forms = [relabelled(value, places) for value in file.values]
    for y, place in enumerate(places):
        x = places.index(place)
        if forms[x] != forms[y]:
            return "unstable", f"wrong unstable {file.names[x]} {file.names[y]}\n", 1
    truths = Truths(file, formulas)
    for i, (k, _) in enumerate(blocks):
        for x, place in enumerate(places):
            if truths.at_state(k, x) != (place == i):
                return "formula", f"wrong formula f{k} {file.names[x]}\n", 1
    return "right", "right\n", 0
