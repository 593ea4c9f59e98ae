#!/usr/bin/env python3
"""Refuses each request for memory of some runs in turn.

memory.py PROGRAM [--row NAME] [--every N] [--jobs N]

A run is made once with all the memory that it asks for, then once for each of its requests, which
finds none.  Each must end with status 5 and neither a line nor a file, or as the first run did.
A library in front of the C library's `malloc` and `realloc` counts and refuses; $CC or `cc` builds
it.
"""

import argparse
import collections
import concurrent.futures
import os
import subprocess
import sys
import tempfile

from build import rect, stream, text

SHIM = r"""
#define _GNU_SOURCE
#include <dlfcn.h>
#include <fcntl.h>
#include <stdatomic.h>
#include <stdio.h>
#include <stdlib.h>
#include <sys/syscall.h>
#include <unistd.h>

static atomic_long calls;
static long refused;
static void *(*next_malloc)(size_t);
static void *(*next_realloc)(void *, size_t);
static int started;

__attribute__((constructor)) static void start(void) {
    const char *number = getenv("REFUSED_REQUEST");
    next_malloc = dlsym(RTLD_NEXT, "malloc");
    next_realloc = dlsym(RTLD_NEXT, "realloc");
    refused = number ? atol(number) : 0;
    started = 1;
}

/* the program ends by this, and not by `exit` */
void _exit(int status) {
    const char *path = getenv("REQUESTS_FILE");
    int file = path ? open(path, O_WRONLY | O_CREAT | O_TRUNC, 0666) : -1;
    if (file >= 0) dprintf(file, "%ld", (long)calls);
    syscall(SYS_exit_group, status);
    __builtin_unreachable();
}

static int is_refused(void) {
    return started && atomic_fetch_add(&calls, 1) + 1 == refused;
}

void *malloc(size_t size) {
    if (!next_malloc) next_malloc = dlsym(RTLD_NEXT, "malloc");
    return is_refused() ? NULL : next_malloc(size);
}

void *realloc(void *old, size_t size) {
    if (!next_realloc) next_realloc = dlsym(RTLD_NEXT, "realloc");
    return is_refused() ? NULL : next_realloc(old, size);
}
"""

RULES = b"""active = input(2, 0)
poly = input(3, 0)
txt = labels(5, 1)
bulk = polygon_layer
gate = active & poly
sd = active - poly
extract_devices(mos4("NMOS"), { "SD" => sd, "G" => gate, "W" => bulk, "tG" => poly })
connect(sd, txt)
connect(poly, txt)
connect_global(bulk, "VSS")
"""
COMMON = b"a = input(1, 0)\nb = input(2, 0)\nc = a & b\nc.output(10, 0)\n"
SCHEMATIC = b".subckt t g s d vss\nm1 d g s vss nmos l=2.5e-07\n+ w=1500n as=1p m=1\n.ends\n"
OVERLAP = stream([(b"A", [rect(1, 0, 0, 10, 10), rect(2, 5, 5, 15, 15)])])
TRANSISTOR = stream([(b"T", [rect(2, 0, 0, 1250, 1500), rect(3, 500, -100, 750, 1600),
                             text(5, 1, (100, 100), b"S"), text(5, 1, (1000, 100), b"D"),
                             text(5, 1, (600, 1550), b"G")])])
EXTRACT = ["--layout=l", "--rules=r", "--shapes=s", "--netlist=n"]

# Two rectangles that overlap, one transistor, the same beside its schematic, and a chip.
ROWS = {
    "shapes": (["shapes", "l", "r", "s"], {"l": OVERLAP, "r": COMMON}),
    "extract": (["extract"] + EXTRACT, {"l": TRANSISTOR, "r": RULES}),
    "run": (["run"] + EXTRACT + ["--schematic=c", "--report=p"],
            {"l": TRANSISTOR, "r": RULES, "c": SCHEMATIC}),
    "make": (["make", "200", "7", "1", "p"], {}),
}


def ran(program, shim, words, files, number):
    """Status, output, new files and requests of a run whose request of a number finds no memory."""
    with tempfile.TemporaryDirectory(prefix="lvs-memory-") as room:
        for name, data in files.items():
            with open(os.path.join(room, name), "wb") as file:
                file.write(data)
        count = os.path.join(room, ".requests")
        env = {"LD_PRELOAD": shim, "REFUSED_REQUEST": str(number), "REQUESTS_FILE": count}
        done = subprocess.run([program] + words, cwd=room, env=env, timeout=600, check=False,
                              stdout=subprocess.PIPE, stderr=subprocess.DEVNULL)
        found, requests = {}, 0
        for name in os.listdir(room):
            with open(os.path.join(room, name), "rb") as file:
                data = file.read()
            if name == ".requests":
                requests = int(data)
            elif files.get(name) != data:
                found[name] = data
        return done.returncode, done.stdout, found, requests


def row(name, options, shim):
    """Refuses each request of a row; answers whether each ended well."""
    words, files = ROWS[name]
    program = os.path.abspath(options.program)
    usual = ran(program, shim, words, files, 0)
    requests, kinds = usual[3], collections.Counter()

    def one(number):
        found = ran(program, shim, words, files, number)
        if found[:3] == usual[:3]:
            return number, "the usual answer"
        if found[:3] == (5, b"", {}):
            return number, "status 5 and no file"
        return number, "status %d, output %r, files %s" % (found[0], found[1], sorted(found[2]))

    with concurrent.futures.ThreadPoolExecutor(options.jobs) as pool:
        for number, kind in pool.map(one, range(1, requests + 1, options.every)):
            kinds[kind] += 1
            if kind not in ("the usual answer", "status 5 and no file"):
                print("%s, request %d: %s" % (name, number, kind), flush=True)
    print("%s: status %d, %d requests, of these %s" % (name, usual[0], requests, ", ".join(
        "%d with %s" % (count, kind) for kind, count in sorted(kinds.items()))), flush=True)
    return set(kinds) <= {"the usual answer", "status 5 and no file"}


def main():
    """Refuses each request of each row; answers 1 where one ended otherwise."""
    parser = argparse.ArgumentParser(description=__doc__.split("\n")[0])
    parser.add_argument("program")
    parser.add_argument("--row", choices=list(ROWS), help="this run alone")
    parser.add_argument("--every", type=int, default=1, help="one of so many requests alone")
    parser.add_argument("--jobs", type=int, default=1)
    options = parser.parse_args()
    with tempfile.TemporaryDirectory(prefix="lvs-shim-") as room:
        shim = os.path.join(room, "shim.so")
        subprocess.run([os.environ.get("CC", "cc"), "-O1", "-shared", "-fPIC", "-x", "c", "-",
                        "-o", shim, "-ldl"], input=SHIM.encode(), check=True)
        wrong = [n for n in ROWS if options.row in (None, n) and not row(n, options, shim)]
    return 1 if wrong else 0


if __name__ == "__main__":
    sys.exit(main())
