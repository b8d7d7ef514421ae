#!/usr/bin/env python3
"""Holds the pages to the code. Silent where all is well; else a line for each finding, and 1.

    docs/check.py

What it looks at: each wrong body that a page names is an edit of the crate that the page is about, and
each edit is named on its crate's page; each label in a table of a crate's page is one of that crate's;
the map of the README has the crates of crates.txt in their order; what the README shows of a run is
what the stored run of the program prints, and so are the examples and what their page shows; each word of
docs/WORDS.md stands in a file of the crate that its row names, and each file that it names is there.
"""
import os
import re
import sys

ROOT = os.path.dirname(os.path.dirname(os.path.realpath(__file__)))
NAME = re.compile(r"`([a-z][a-z0-9_]*)`")


def text_of(*parts):
    with open(os.path.join(ROOT, *parts)) as lines:
        return lines.read()


def crates():
    lines = [line.split("#")[0].partition(":") for line in text_of("crates.txt").splitlines()]
    return [name.split()[0] for name, colon, _ in lines if colon]


def edits_of(crate):
    folder = os.path.join(ROOT, "crates", crate, "must-fail")
    return {f[:-5] for f in os.listdir(folder)} if os.path.isdir(folder) else set()


def labels_of(crate):
    found = set()
    for folder, _, files in os.walk(os.path.join(ROOT, "crates", crate, "src")):
        for file in files:
            with open(os.path.join(folder, file)) as lines:
                text = lines.read()
            found |= set(re.findall(r"(?:ensures|requires|law|ghost) ([a-z_0-9]+) [{:=]", text))
    specs = os.path.join(ROOT, "crates", crate, "specs")
    for file in os.listdir(specs) if os.path.isdir(specs) else []:
        # the parts of a record that a clause says
        found |= set(re.findall(r"^ +pub ([a-z_0-9]+) :", text_of(specs, file), re.M))
    return found


def rows(text):
    """The cells of each row of each table."""
    for line in text.splitlines():
        if line.startswith("|") and not re.match(r"^[|\s:-]+$", line):
            yield [cell.strip() for cell in line.strip("|").split("|")]


def crate_page(crate, labels):
    page, edits = os.path.join("crates", crate, "README.md"), edits_of(crate)
    if not os.path.isfile(os.path.join(ROOT, page)):
        yield f"{page}: there is none"
        return
    named = set()
    for cells in rows(text_of(page)):
        if len(cells) != 4 or cells[0] == "Call" or cells[3].startswith("Wrong body"):
            continue
        for name in NAME.findall(cells[3]):
            named.add(name)
            if "_" in name and name not in edits and name not in crates():
                yield f"{page}: no edit `{name}`"
        for name in NAME.findall(cells[2]):
            if name not in labels:
                yield f"{page}: no label `{name}`"
    for name in sorted(edits - named):
        yield f"{page}: the edit `{name}` is not named"


def top_page(page, edits):
    for cells in rows(text_of(*page.split("/"))):
        if len(cells) > 2 and not cells[-1].startswith("Wrong body"):
            for name in NAME.findall(cells[-1]):
                if "_" in name and name not in edits and name not in crates():
                    yield f"{page}: no edit `{name}`"


def shown_run():
    readme = text_of("README.md")
    for shown, where in (
            (r"\$ cat examples/vending\.copar\n(.*?)\$ ", ("examples", "vending.copar")),
            (r"\$ \./copar blocks examples/vending\.copar\n(.*?)```", ("crates", "copar", "stdout")),
            (r"\$ \./copar minimise examples/vending\.copar\n(.*?)\$ ",
             ("examples", "vending.minimised"))):
        found = re.search(shown, readme, re.S)
        if not found or found.group(1) != text_of(*where):
            yield f"README.md: what it shows is not {'/'.join(where)}"
    stored = text_of("crates", "copar_runs", "stdout")
    for words, printed in re.findall(r"^\$ \./copar ((?:explain|verify) .*)\n((?:(?!\$ |```).*\n)*)",
                                     readme, re.M):
        if f"$ copar {words.replace('examples/', '')}\n{printed}ends with " not in stored:
            yield f"README.md: not a stored run of crates/copar_runs: {words}"


def examples():
    """Each example has its stored runs."""
    stored = text_of("crates", "copar_runs", "stdout")
    for file in sorted(os.listdir(os.path.join(ROOT, "examples"))):
        name, dot, kind = file.partition(".")
        if kind in ("copar", "answer", "wrong"):
            for crate in ("copar", "copar_runs"):
                data = os.path.join(ROOT, "crates", crate, "data", file)
                if os.path.isfile(data) and text_of("crates", crate, "data", file) != text_of(
                        "examples", file):
                    yield f"crates/{crate}/data/{file}: not the example"
        elif kind in ("blocks", "minimised"):
            command = {"blocks": "blocks", "minimised": "minimise"}[kind]
            shown = f"$ copar {command} {name}.copar\n{text_of('examples', file)}ends with 0\n"
            if shown not in stored:
                yield f"examples/{file}: not a stored run of crates/copar_runs"
    page = text_of("examples", "README.md")
    for command, printed in re.findall(r"^(\$ copar .*)\n((?:(?!\$ |```).*\n)*)", page, re.M):
        if f"{command}\n{printed}ends with " not in stored:
            yield f"examples/README.md: not a stored run of crates/copar_runs: {command}"


def words(names):
    """Each word of the page of words stands in its crate, and each file of definitions is there."""
    for cells in rows(text_of("docs", "WORDS.md")):
        if cells[0] == "In the field":
            continue
        text = ""
        for place in cells[2].split(";"):
            crate, *files = [part.strip() for part in place.split(",")]
            if crate not in names:
                yield f"docs/WORDS.md: no crate {crate}"
                continue
            for kind in ("specs", "src"):
                folder = os.path.join(ROOT, "crates", crate, kind)
                for file in sorted(os.listdir(folder)) if os.path.isdir(folder) else []:
                    if file.endswith((".antt", ".rt")):
                        text += text_of("crates", crate, kind, file)
            for file in files:
                if not file.startswith("`") and not os.path.isfile(
                        os.path.join(ROOT, "crates", crate, "specs", file + ".antt")):
                    yield f"docs/WORDS.md: no file {file} of {crate}"
        for word in re.findall(r"`([A-Za-z_0-9]+)`", cells[1]):
            if not re.search(rf"\b{word}\b", text):
                yield f"docs/WORDS.md: no word `{word}` in {cells[2]}"


def findings():
    names = crates()
    edits = set().union(*(edits_of(name) for name in names))
    labels = set().union(*(labels_of(name) for name in names))
    for name in names:
        yield from crate_page(name, labels)
    for page in ("README.md", "docs/THEOREMS.md"):
        yield from top_page(page, edits)
    mapped = re.findall(r"^\| \[(\w+)\]\(crates/", text_of("README.md"), re.M)
    if mapped != names:
        yield "README.md: the map has not the crates of crates.txt in their order"
    yield from shown_run()
    yield from examples()
    yield from words(names)


if __name__ == "__main__":
    FOUND = list(findings())
    print("\n".join(FOUND), end="\n" if FOUND else "")
    sys.exit(1 if FOUND else 0)
