#!/usr/bin/env python3
"""Runs copar where files cannot be read, writers cannot be written and memory is short, and compares each
run with the status that it is to end with.

usage: bench/outsides.py [--program P] [--megabytes N]

With N the files of so many megabytes are run too, of each shape that is hard on a reader. It prints
Markdown: for each case the statuses that came, and for each large file the time and the memory. The end is
0 where each run ended as it is to. It wants bash, setpriv and mkfifo, and root for the file without leave.
"""
import argparse
import os
import resource
import subprocess
import sys
import tempfile
import time

FOUR = b"P X\na: {b}\nb: {a}\nc: {}\nd: {c, a}\n"
ANSWER = (b"f0 = true\nf1 = at 0 {2} f0 f0\nf2 = not f1\nf3 = at 0 {1} f2 f0\n"
          b"f4 = at 0 {1,2} f2 f0\nblock f3 a b\nblock f2 c\nblock f4 d\n")
COMMANDS = [["blocks", "F"], ["minimise", "F"], ["explain", "F", "a", "c"], ["certify", "F"],
            ["check", "F", "G", "a"], ["verify", "F", "G"], ["verify", "F", "W"]]
READ, WRITE, MEMORY = b"copar: read fault\n", b"copar: write fault\n", b"copar: no memory\n"
NOBODY = "setpriv --reuid=65534 --regid=65534 --clear-groups "

# what stands around the command, the status, and the line
WRITERS = [("a full device", "{} > /dev/full", 10, WRITE),
           ("closed output", "{} >&-", 10, WRITE),
           ("a reader that is gone", "( sleep 0.2; {}; echo $? > status ) | true; exit $(cat status)",
            10, WRITE),
           ("closed complaints", "{} 2>&-", None, b""),
           ("full complaints", "{} 2> /dev/full", None, b""),
           ("closed output and complaints", "{} >&- 2>&-", 10, b"")]
# the name in place of the first or the second file
READERS = [("an absent file", "", "absent", 9), ("a folder", "", ".", 9),
           ("a file without leave", NOBODY, "secret", 9), ("a device without an end", "", "/dev/zero", 12),
           ("a pipe", "(cat F > fifo &) ; ", "fifo", None)]


def in_bash(folder, script):
    ended = subprocess.run(["bash", "-c", script], cwd=folder, capture_output=True, timeout=60,
                           check=False)
    return ended.returncode, ended.stdout, ended.stderr


class Cases:
    """Runs each command in a case, and says which statuses came."""

    def __init__(self, program, folder):
        self.program, self.folder, self.wrong = program, folder, 0

    def report(self, about, runs):
        """Prints a row: of each run its words, its status and whether it is right."""
        shown = ", ".join(f"{words[0]} {status}{'' if right else ' **wrong**'}"
                          for words, status, right in runs)
        self.wrong += sum(not right for _, _, right in runs)
        print(f"| {about} | {shown} |", flush=True)

    def writers(self):
        for about, around, wanted, line in WRITERS:
            runs = []
            for words in COMMANDS:
                usual = int(words[-1] == "W")
                status, _, err = in_bash(self.folder, around.format(" ".join([self.program] + words)))
                runs.append((words, status, status == (usual if wanted is None else wanted)
                             and err == line))
            self.report(about, runs)

    def readers(self):
        for about, before, name, wanted in READERS:
            for place in (1, 2):
                runs = []
                for words in COMMANDS:
                    if place == 2 and words[0] not in ("check", "verify"):
                        continue
                    usual, changed = int(words[-1] == "W"), list(words)
                    changed[place] = name
                    if name == "fifo" and place == 2:
                        before, usual = f"(cat {words[2]} > fifo &) ; ", int(words[2] == "W")
                    status, out, err = in_bash(
                        self.folder, before + " ".join([self.program] + changed))
                    right = status == (usual if wanted is None else wanted)
                    if wanted is not None:
                        right = right and out == b"" and err == (
                            READ if wanted == 9 else b"copar: file longer than 67108864 bytes\n")
                    runs.append((changed, status, right))
                self.report(about + (", for the second file" if place == 2 else ""), runs)

    def limits(self):
        """Address space from 3 to 64 megabytes: the usual end, or no memory and no output."""
        for megabytes in (3, 4, 5, 6, 7, 8, 12, 16, 32, 64):
            runs = []
            for words in COMMANDS:
                status, out, err = limited([self.program] + words, self.folder, megabytes)
                whole = status == int(words[-1] == "W") and err == b""
                runs.append((words, status, whole or (status, out, err) == (11, b"", MEMORY)))
            self.report(f"{megabytes} MB of address space", runs)


def limited(words, folder, megabytes):
    limit = megabytes << 20
    ended = subprocess.run(words, cwd=folder, capture_output=True, timeout=60, check=False,
                           preexec_fn=lambda: resource.setrlimit(resource.RLIMIT_AS, (limit, limit)))
    return ended.returncode, ended.stdout, ended.stderr


def repeated(size, head, unit, tail=b""):
    return head + unit * ((size - len(head) - len(tail)) // len(unit)) + tail


def numbered(size, head, line, most=None):
    parts, length, number = [head], len(head), 0
    while most is None or number < most:
        text = line(number)
        if length + len(text) > size:
            break
        parts.append(text)
        length += len(text)
        number += 1
    return b"".join(parts)


def shapes(size):
    """Large files: what each is, and its bytes."""
    yield "one word", b"w" * size
    yield "one line of `P`", b"P" * size
    yield "one line of `(`", b"(" * size
    yield "one name of a state", repeated(size, b"P X\n", b"w", b": {}\n")
    yield "one set", repeated(size, b"P X\na: {a", b",a", b"}\n")
    yield "one bag", repeated(size, b"B X\na: {a", b",a: 1099511627776", b"}\n")
    yield "60 parentheses on each line", numbered(
        size, b"X\n", lambda i: b"%d: " % i + b"(" * 60 + b"%d" % i + b")" * 60 + b"\n")
    yield "60 braces on each line", numbered(
        size, b"P X\n", lambda i: b"%d: " % i + b"{" * 60 + b"}" * 60 + b"\n")
    yield "31 sets on each line", numbered(
        size, b"P" * 31 + b" X\n", lambda i: b"%d: " % i + b"{" * 31 + b"%d" % i + b"}" * 31 + b"\n")
    yield "three million states", numbered(
        size, b"P X\n", lambda i: b"%d: {%d}\n" % (i, i), 3_000_000)
    yield "a line of states", numbered(size, b"P X\n", lambda i: b"%x:{%x}\n" % (i, max(i - 1, 0)))
    yield "automata", numbered(size, b"2 x X^{a,b}\n", lambda i: b"%x: (%d, {a: %x, b: %x})\n" % (
        i, i & 1, i // 2, i // 3))
    yield "notes", b"P X\n" + b"#aaaaaaaaaaaaaaaaa\n" * min(3_000_000, size // 19 - 1)
    yield "line feeds", b"\n" * size
    yield "bytes 0", b"\x00" * size


def answers(size):
    """Large answers for a file of four states."""
    first = b"f0 = true\n"
    yield "one word", b"w" * size
    yield "formulas that are true", numbered(size, b"", lambda i: b"f%d = true\n" % i)
    yield "negations one behind another", numbered(
        size, first, lambda i: b"f%d = not f%d\n" % (i + 1, i))
    yield "modalities one behind another", numbered(
        size, first, lambda i: b"f%d = at 0 {2} f%d f%d\n" % (i + 1, i, i))
    yield "one block with one name", repeated(size, first + b"block f0", b" a", b"\n")
    yield "blocks", repeated(size, first, b"block f0 a\n")
    yield "blocks of no state", repeated(size, first, b"block f0 zz\n")
    yield "one value", repeated(size, first + b"f1 = at 0 (", b"2,", b"2) f0 f0\n")


def measured(program, words, folder):
    """Status, wall and processor seconds, and peak megabytes, within 4 GB of address space."""
    begun = time.perf_counter()
    with open(os.devnull, "wb") as sink:
        child = subprocess.Popen(
            [program] + words, cwd=folder, stdout=sink, stderr=sink, preexec_fn=lambda:
            resource.setrlimit(resource.RLIMIT_AS, (4 << 30, 4 << 30)))
        _, status, used = os.wait4(child.pid, 0)
    child.returncode = os.waitstatus_to_exitcode(status)
    return (child.returncode, time.perf_counter() - begun, used.ru_utime + used.ru_stime,
            used.ru_maxrss / 1024)


def large(program, folder, size):
    """Prints a row for each large file and command. How many runs ended with no status of ours."""
    print("\n| file | command | status | wall s | processor s | peak MB |\n|---|---|---|---|---|---|")
    wrong = 0

    def rows(about, name, data, commands):
        put(folder, name, data)
        found = 0
        for words in commands:
            status, wall, cpu, peak = measured(program, words, folder)
            found += not 0 <= status <= 12
            print(f"| {about} | {words[0]} | {status} | {wall:.1f} | {cpu:.1f} | {peak:.0f} |",
                  flush=True)
            if status in (3, 4, 5, 6, 12):
                break
        return found

    for about, data in shapes(size):
        wrong += rows(about, "F", data, [["blocks", "F"], ["minimise", "F"], ["certify", "F"],
                                         ["verify", "F", "G"]])
    put(folder, "F", FOUR)
    for about, data in answers(size):
        wrong += rows("an answer: " + about, "G", data, [["check", "F", "G", "a"], ["verify", "F", "G"]])
    return wrong


def put(folder, name, data):
    with open(os.path.join(folder, name), "wb") as out:
        out.write(data)


def main():
    here = os.path.dirname(os.path.abspath(__file__))
    args = argparse.ArgumentParser(description=__doc__,
                                   formatter_class=argparse.RawDescriptionHelpFormatter)
    args.add_argument("--program", default=os.path.join(here, "..", "crates", "copar", "out", "copar"))
    args.add_argument("--megabytes", type=int, default=0)
    args = args.parse_args()
    program = os.path.abspath(args.program)
    with tempfile.TemporaryDirectory() as folder:
        os.chmod(folder, 0o755)
        for name, data in (("F", FOUR), ("G", ANSWER), ("W", ANSWER.replace(b"f4 d", b"f4 d a")),
                           ("secret", FOUR)):
            put(folder, name, data)
        os.chmod(os.path.join(folder, "secret"), 0)
        os.mkfifo(os.path.join(folder, "fifo"))
        cases = Cases(program, folder)
        print("| outside | command and status |\n|---|---|")
        cases.writers()
        cases.readers()
        cases.limits()
        wrong = cases.wrong
        if args.megabytes:
            wrong += large(program, folder, min(args.megabytes << 20, 1 << 26))
    sys.exit(1 if wrong else 0)


if __name__ == "__main__":
    main()
