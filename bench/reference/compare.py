#!/usr/bin/env python3
"""Runs a program and the reference on generated inputs and compares all they give.

compare.py PROGRAM COUNT SEED0 [COMMAND] [--faulty F] [--covered] [--keep DIR] [--most N]

Status, standard output and every file are compared byte for byte.  The first differences are
printed, and the inputs of each differing case are kept in DIR/SEED.
"""

import argparse
import collections
import os
import shutil
import subprocess
import sys
import tempfile
import traceback

import cli
import gen

TIME = 60


def reference(words, files):
    """Status, standard output and files of the reference."""
    depot = cli.MemoryFiles(files)
    line, status = cli.run(words, depot)
    return status, b"" if line is None else line + b"\n", depot.files


def program(command, words, files):
    """Status, standard output and files of the program, in a fresh directory."""
    directory = tempfile.mkdtemp(prefix="lvs-compare-")
    try:
        for name, data in files.items():
            with open(os.path.join(directory, name), "wb") as file:
                file.write(data)
        done = subprocess.run(command + words, cwd=directory, stdout=subprocess.PIPE,
                              stderr=subprocess.PIPE, timeout=TIME, check=False)
        found = {}
        for name in os.listdir(directory):
            with open(os.path.join(directory, name), "rb") as file:
                found[name] = file.read()
        return done.returncode, done.stdout, found
    except subprocess.TimeoutExpired:
        return "no end in %d seconds" % TIME, b"", dict(files)
    finally:
        shutil.rmtree(directory)


def first_difference(one, other):
    """Where two byte strings part, with what stands there."""
    place = next((k for k, (a, b) in enumerate(zip(one, other)) if a != b),
                 min(len(one), len(other)))
    if b"\0" in one + other:
        start = max(0, place - 8)
        return "at byte %d: reference %s, program %s" % (
            place, one[start:place + 24].hex(), other[start:place + 24].hex())
    line = one[:place].count(b"\n")
    lines = [text.split(b"\n") + [b""] * (line + 1) for text in (one, other)]
    return "at line %d: reference %r, program %r" % (line + 1, lines[0][line], lines[1][line])


def differences(ours, theirs):
    """A list of texts, empty where both answers are the same."""
    out = []
    if ours[0] != theirs[0]:
        out.append("status: reference %s, program %s" % (ours[0], theirs[0]))
    if ours[1] != theirs[1]:
        out.append("output: reference %r, program %r" % (ours[1], theirs[1]))
    for name in sorted(set(ours[2]) | set(theirs[2])):
        one, other = ours[2].get(name), theirs[2].get(name)
        if one is None or other is None:
            out.append("%s: only in the %s" % (name, "program" if one is None else "reference"))
        elif one != other:
            out.append("%s %s" % (name, first_difference(one, other)))
    return out


def keep(directory, seed, words, files, ours):
    """Stores a differing case with what the reference gives."""
    target = os.path.join(directory, str(seed))
    os.makedirs(os.path.join(target, "expected"), exist_ok=True)
    for name, data in list(files.items()) + [("words", "\n".join(words).encode())]:
        with open(os.path.join(target, name), "wb") as file:
            file.write(data)
    if ours:
        for name, data in list(ours[2].items()) + [("stdout", ours[1])]:
            with open(os.path.join(target, "expected", os.path.basename(name)), "wb") as file:
                file.write(data)


def main():
    """Compares so many cases; answers 1 where one differs."""
    parser = argparse.ArgumentParser()
    parser.add_argument("program")
    parser.add_argument("count", type=int)
    parser.add_argument("seed0", type=int)
    parser.add_argument("command", nargs="?", default="any")
    parser.add_argument("--faulty")
    parser.add_argument("--covered", action="store_true", help="all rules have keep_covered")
    parser.add_argument("--selected", action="store_true", help="all rules choose regions")
    parser.add_argument("--keep")
    parser.add_argument("--most", type=int, default=5, help="differing cases to print")
    options = parser.parse_args()
    sys.setrecursionlimit(100000)
    path = options.program
    command = [os.path.abspath(path) if os.path.exists(path) else path]
    if path.endswith(".py"):
        command.insert(0, sys.executable)
    kinds, differing = collections.Counter(), 0
    for seed in range(options.seed0, options.seed0 + options.count):
        words, files = gen.generate(seed, options.command, options.faulty, options.covered,
                                    options.selected)
        ours = None
        try:
            ours = reference(words, files)
            kinds[b" ".join(ours[1].split()[:3 if ours[0] == 2 else 1])] += 1
            found = differences(ours, program(command, words, files))
        except Exception:       # a fault of the reference is a difference too
            found = ["the reference failed:\n" + traceback.format_exc()]
        if found:
            differing += 1
            if differing <= options.most:
                print("seed %d: %s" % (seed, " ".join(words)))
                for text in found:
                    print("   ", text)
            if options.keep:
                keep(options.keep, seed, words, files, ours)
    for kind, count in sorted(kinds.items()):
        print("%6d %s" % (count, kind.decode()))
    print("%d of %d cases differ" % (differing, options.count))
    return 1 if differing else 0


if __name__ == "__main__":
    sys.exit(main())
