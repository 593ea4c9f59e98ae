#!/usr/bin/env python3
"""Runs a program and the reference on damaged inputs and compares all they give.

hostile.py PROGRAM MINUTES SEED0 [--keep DIR] [--most N]

Each case is a generated one (gen.py) whose layout, rules or schematic was damaged one to four
times: bytes and bits changed, the end cut off, records or lines dropped, doubled, exchanged, or
spliced from another case's file, lengths made false.  The program must end within 60 seconds of a
processor and not by a signal, with the reference's status, standard output and files: so it leaves
no file behind where the reference refuses.  The inputs of each differing case are kept in DIR/SEED.
"""

import argparse
import collections
import os
import random
import signal
import sys
import time
import traceback

import compare
import gen

FILES = {"l.gds": 6, "r.lvs": 2, "c.cir": 3}
SECONDS = 60                # of a processor
compare.TIME = 10 * SECONDS  # by the clock, on a machine with other work
TRIES = 20


class Slow(Exception):
    """The reference takes too long for this case."""


def _alarm(_number, _frame):
    raise Slow()


# -- damage -----------------------------------------------------------------------------------


def records(data):
    """The pieces of a stream: whole records, and as the last one what is left of it."""
    out, place = [], 0
    while len(data) - place >= 4:
        size = int.from_bytes(data[place:place + 2], "big")
        if size < 4 or size > len(data) - place:
            break
        out.append(data[place:place + size])
        place += size
    return out + [data[place:]]


def pieces(name, data):
    """The records of a layout, the lines of a text."""
    return records(data) if name == "l.gds" else data.splitlines(True)


def changed_byte(rng, data):
    """One byte is another: a near one, a bit of it, or any."""
    place = rng.randrange(len(data))
    byte = rng.choice([data[place] ^ (1 << rng.randrange(8)), data[place] + 1, data[place] - 1,
                       rng.randrange(256), 0, 0xFF, 0x80, 0x7F])
    return data[:place] + bytes([byte % 256]) + data[place + 1:]


def changed_length(rng, data):
    """The length of a record, or the four bytes of a number, is another."""
    place = rng.randrange(max(1, len(data) - 4))
    number = rng.choice([b"\x7f\xff\xff\xff", b"\x80\x00\x00\x00", b"\xff\xff\xff\xff",
                         b"\x40\x00\x00\x00", b"\x00\x00\x00\x00", b"\x3f\xff\xff\xff"])
    width = rng.choice([2, 4])
    return data[:place] + number[:width] + data[place + width:]


def moved_span(rng, data):
    """A span of bytes is dropped, doubled or moved."""
    start = rng.randrange(len(data))
    span = data[start:start + rng.choice([1, 2, 3, 4, 8, 16, 64])]
    rest = data[:start] + data[start + len(span):]
    kind = rng.randrange(3)
    if kind == 0:
        return rest
    at = rng.randrange(len(data) + 1) if kind == 1 else start
    whole = data if kind == 2 else rest
    return whole[:at] + span + whole[at:]


def exchanged(rng, name, data):
    """Records or lines are dropped, doubled, or exchanged."""
    parts = pieces(name, data)
    one, other = rng.randrange(len(parts)), rng.randrange(len(parts))
    kind = rng.randrange(4)
    if kind == 0:
        del parts[one]
    elif kind == 1:
        parts.insert(other, parts[one])
    elif kind == 2:
        parts[one], parts[other] = parts[other], parts[one]
    else:
        low, high = min(one, other), max(one, other)
        parts[low:high] = reversed(parts[low:high])
    return b"".join(parts)


def spliced(rng, name, data, other):
    """The front of the file and the end of another, or some of the other in the middle."""
    mine, theirs = pieces(name, data), pieces(name, other)
    cut, start = rng.randrange(len(mine) + 1), rng.randrange(len(theirs))
    if rng.random() < 0.5:
        return b"".join(mine[:cut] + theirs[start:])
    some = theirs[start:start + rng.randint(1, 6)]
    return b"".join(mine[:cut] + some + mine[cut:])


def damaged(rng, name, data, other):
    """The file with one more damage."""
    kind = rng.randrange(8)
    if not data or kind == 0:
        return spliced(rng, name, data, other)
    if kind == 1:
        return data[:rng.randrange(len(data))]
    if kind == 2:
        return changed_length(rng, data)
    if kind == 3:
        return moved_span(rng, data)
    if kind in (4, 5):
        return exchanged(rng, name, data)
    return changed_byte(rng, data)


def hostile(seed):
    """The words and the damaged files of one case."""
    words, files = gen.generate(seed)
    rng = random.Random("hostile/%d" % seed)
    names = [n for n in FILES if n in files]
    name = rng.choices(names, [FILES[n] for n in names])[0]
    _, others = gen.generate(rng.randrange(10 ** 9))
    top = next((w.partition("=")[2] or words[k + 1] for k, w in enumerate(words)
                if w.partition("=")[0] == "--top"), None)
    tops = [None] if top is None else [None, top.encode()]
    for _ in range(TRIES):
        data = files[name]
        for _ in range(rng.choice([1, 1, 1, 2, 3, 4])):
            data = damaged(rng, name, data, others.get(name, b"") or b"\n")
        # the reference lists each path from the top, so a layout of many is passed over
        if name != "l.gds" or gen._paths_fit(data, tops):
            return words, dict(files, **{name: data})
    return words, files


# -- runs -------------------------------------------------------------------------------------


def main():
    """Compares cases until the time is up; answers 1 where one differs."""
    parser = argparse.ArgumentParser(description=__doc__.split("\n")[0])
    parser.add_argument("program")
    parser.add_argument("minutes", type=float)
    parser.add_argument("seed0", type=int)
    parser.add_argument("--keep", help="a folder for the inputs of differing cases")
    parser.add_argument("--most", type=int, default=5, help="differing cases to print")
    options = parser.parse_args()
    sys.setrecursionlimit(100000)
    signal.signal(signal.SIGPROF, _alarm)
    path = options.program
    command = ["sh", "-c", 'ulimit -t %d; exec "$0" "$@"' % SECONDS]
    if path.endswith(".py"):
        command.append(sys.executable)
    command.append(os.path.abspath(path) if os.path.exists(path) else path)
    kinds, cases, differing, slow = collections.Counter(), 0, 0, 0
    seed, end = options.seed0, time.monotonic() + 60 * options.minutes
    while time.monotonic() < end:
        ours, words, files = None, [], {}
        try:
            signal.setitimer(signal.ITIMER_PROF, SECONDS)
            words, files = hostile(seed)
            ours = compare.reference(words, files)
            signal.setitimer(signal.ITIMER_PROF, 0)
            kinds[b" ".join(ours[1].split()[:3 if ours[0] == 2 else 1])] += 1
            found = compare.differences(ours, compare.program(command, words, files))
        except Slow:
            slow, found = slow + 1, []
        except Exception:       # a fault of the reference is a difference too
            found = ["the reference failed:\n" + traceback.format_exc()]
        finally:
            signal.setitimer(signal.ITIMER_PROF, 0)
        if found:
            differing += 1
            if differing <= options.most:
                print("seed %d: %s" % (seed, " ".join(words)))
                for text in found:
                    print("   ", text, flush=True)
            if options.keep:
                compare.keep(options.keep, seed, words, files, ours)
        cases, seed = cases + 1, seed + 1
    for kind, count in sorted(kinds.items()):
        print("%6d %s" % (count, kind.decode()))
    print("%d of %d cases differ, %d too slow for the reference" % (differing, cases, slow))
    return 1 if differing else 0


if __name__ == "__main__":
    sys.exit(main())
