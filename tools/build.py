#!/usr/bin/env python3
"""Proves and builds a program of this repository, with all that it stands on.

    tools/build.py [PROGRAM]      copar, if no program is named

Crates that do not stand on one another are proved side by side. Progress goes to standard error:
one line that changes on a terminal, and a line for each crate elsewhere. What rt prints goes to
crates/PROGRAM/out/build.log. The end is 0 where the program stands and is up to date, 126 where the
build failed or the checkout cannot be written, and 127 where rt is not on the path.
"""
import fcntl
import os
import shutil
import subprocess
import sys
import time

ROOT = os.path.dirname(os.path.dirname(os.path.realpath(__file__)))
MEMORY_OF_ONE = 3 << 30  # bytes that the proof of a large crate may take


def say(text):
    print(f"copar: {text}", file=sys.stderr, flush=True)


def stands_on():
    """For each crate of crates.txt the crates of the repository that it stands on."""
    crates = {}
    with open(os.path.join(ROOT, "crates.txt")) as lines:
        for line in lines:
            name, colon, others = line.split("#")[0].partition(":")
            if colon:
                crates[name.split()[0]] = others.split()
    return {name: [o for o in others if o in crates] for name, others in crates.items()}


def needed_by(crates, program):
    """The program and the crates below it, each behind those that it stands on."""
    order = []

    def visit(name):
        if name not in order:
            for other in crates[name]:
                visit(other)
            order.append(name)

    visit(program)
    return order


def newest(names):
    """The time of the last change of a source, definition, proof or crate list."""
    last = os.stat(os.path.join(ROOT, "crates.txt")).st_mtime_ns
    for name in names:
        for part in ("src", "specs", "proofs"):
            for folder, _, files in os.walk(os.path.join(ROOT, "crates", name, part)):
                last = max(last, os.stat(folder).st_mtime_ns)
                for file in files:
                    last = max(last, os.stat(os.path.join(folder, file)).st_mtime_ns)
    return last


def is_fresh(out, program, names):
    """Whether the program stands and was built after the last change."""
    try:
        built = os.stat(os.path.join(out, "built")).st_mtime_ns
        return os.access(os.path.join(out, program), os.X_OK) and newest(names) < built
    except FileNotFoundError:
        return False


def jobs():
    """How many proofs run side by side: one for each processor, as far as memory goes."""
    try:
        with open("/proc/meminfo") as lines:
            free = {l.split(":")[0]: int(l.split()[1]) << 10 for l in lines}["MemAvailable"]
    except (OSError, KeyError):
        free = MEMORY_OF_ONE
    return max(1, min(len(os.sched_getaffinity(0)), free // MEMORY_OF_ONE))


class Progress:
    """Says how far the build is."""

    def __init__(self, count):
        self.count, self.start = count, time.monotonic()
        self.on_terminal = sys.stderr.isatty()

    def minutes(self):
        return f"{(time.monotonic() - self.start) / 60:.1f} minutes so far"

    def running(self, done, names):
        if self.on_terminal:
            text = f"copar: {done} of {self.count} proved; {', '.join(names)}; {self.minutes()}"
            width = shutil.get_terminal_size().columns - 1
            print("\r" + text[:width].ljust(width), end="", file=sys.stderr, flush=True)

    def proved(self, done, name):
        if not self.on_terminal:
            say(f"{done} of {self.count} proved: {name}; {self.minutes()}")

    def end(self):
        if self.on_terminal:
            print(file=sys.stderr, flush=True)


def prove(crates, names, log):
    """Proves the crates, as many side by side as there is room for. The first that fails, if any."""
    progress, done, running = Progress(len(names)), [], {}
    while len(done) < len(names):
        for name in names:
            ready = all(other in done for other in crates[name] if other in names)
            if ready and name not in done and name not in running and len(running) < jobs():
                running[name] = subprocess.Popen(
                    ["rt", "lib"], cwd=os.path.join(ROOT, "crates", name),
                    stdin=subprocess.DEVNULL, stdout=log, stderr=log)
        progress.running(len(done), list(running))
        time.sleep(0.2)
        for name in [n for n, p in running.items() if p.poll() is not None]:
            if running.pop(name).returncode != 0:
                for other in running.values():
                    other.terminate()
                    other.wait()
                progress.end()
                return name
            done.append(name)
            progress.proved(len(done), name)
    progress.end()
    return None


def link(out, program, log):
    """Links the program, and runs it once. Whether that ended well."""
    example = os.path.join(ROOT, "examples", "game.copar")
    return subprocess.call(
        ["rt", "run", "--", "blocks", example], cwd=os.path.join(ROOT, "crates", program),
        stdin=subprocess.DEVNULL, stdout=log, stderr=log) == 0 and os.access(
        os.path.join(out, program), os.X_OK)


def failed(what, path):
    say(f"{what} failed; the last lines of {path}:")
    with open(path, errors="replace") as lines:
        for line in lines.readlines()[-15:]:
            print("  " + line.rstrip()[:200], file=sys.stderr)
    return 126


def build(program):
    crates = stands_on()
    names = needed_by(crates, program)
    out = os.path.join(ROOT, "crates", program, "out")
    try:
        os.makedirs(out, exist_ok=True)
        lock = open(os.path.join(out, "build.lock"), "w")
    except OSError as fault:
        say(f"cannot write below {ROOT}: {fault.strerror}")
        return 126
    try:
        fcntl.flock(lock, fcntl.LOCK_EX | fcntl.LOCK_NB)
    except OSError:
        say("another build runs in this checkout; waiting for it")
        fcntl.flock(lock, fcntl.LOCK_EX)
    if is_fresh(out, program, names):
        return 0
    if shutil.which("rt") is None:
        say("this builds with rt, the command of Rattle, and finds none on the path")
        return 127
    path = os.path.join(out, "build.log")
    say(f"proving and building; this takes some minutes. The log is {path}")
    # what changes from here on is newer than the program
    begun = time.time_ns()
    with open(path, "wb") as log:
        wrong = prove(crates, names[:-1], log)
        if wrong is not None:
            return failed(f"the proof of {wrong}", path)
        if not link(out, program, log):
            return failed("the build", path)
    with open(os.path.join(out, "built"), "w"):
        pass
    os.utime(os.path.join(out, "built"), ns=(begun, begun))
    say("built")
    return 0


if __name__ == "__main__":
    try:
        sys.exit(build(sys.argv[1] if len(sys.argv) > 1 else "copar"))
    except KeyboardInterrupt:
        sys.exit(130)
