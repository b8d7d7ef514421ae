#!/usr/bin/env python3
"""Prints every public word of every `specs/` file, with the sentence above it.

    tools/words.py

The layers and their order are those of crates.txt. Lemmas that stand in `specs/` have no sentence
and are left out.
"""
import os
import re

ROOT = os.path.dirname(os.path.dirname(os.path.realpath(__file__)))
WORD = re.compile(r"^ {0,2}(?:(?:abbrev|unfoldable) pub|pub (?:record|data)|pub) ([\w◌×≡-]+)")
HEAD = """# All words

Every public word of every `specs/` file in one line, `word == meaning`, grouped by layer and file. The
meaning is the sentence that stands above the word in its file.
"""


def layers():
    """The layers of crates.txt: the comment above each, and its crates."""
    found, title = [], None
    with open(os.path.join(ROOT, "crates.txt")) as lines:
        for line in lines.readlines()[1:]:
            if line.startswith("#"):
                title = line[1:].strip()
                found.append((title[0].upper() + title[1:], []))
            elif ":" in line:
                found[-1][1].append(line.split(":")[0].split()[0])
    return found


def words(path):
    """The public words of a file in order, each with its sentence."""
    found, above = [], []
    with open(path) as lines:
        for line in lines:
            text = line.strip()
            if text.startswith("--"):
                above.append(text[2:].strip())
                continue
            match = WORD.match(line)
            if match and not text.startswith("pub use") and not text.startswith("pub mod"):
                indented = line.startswith("  pub ") and ":" in line and "record" not in line
                if not indented or above:
                    found.append((match.group(1), " ".join(above)))
            above = []
    return found


def main():
    print(HEAD, end="")
    for title, crates in layers():
        shown = False
        for crate in crates:
            folder = os.path.join(ROOT, "crates", crate, "specs")
            for name in sorted(os.listdir(folder)) if os.path.isdir(folder) else []:
                if name == "Lib.antt" or not name.endswith(".antt"):
                    continue
                found = [w for w in words(os.path.join(folder, name)) if w[1]]
                if not found:
                    continue
                if not shown:
                    print(f"\n## {title}")
                    shown = True
                print(f"\n### {crate}, {name[:-5]}\n\n```text")
                for word, meaning in found:
                    print(f"{word} == {meaning}")
                print("```")


if __name__ == "__main__":
    main()
