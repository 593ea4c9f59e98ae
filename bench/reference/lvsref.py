#!/usr/bin/env python3
"""The reference program.  `lvsref.py WORDS..` does what `lvs WORDS..` is to do.

`lvsref.py spice FILE` reads a SPICE text and writes its normal netlist, or the refusal.
"""

import sys

import cli
import netlist


def spice_file(path):
    """Reads one SPICE text and prints it in normal form."""
    with open(path, "rb") as file:
        data = file.read()
    try:
        text = netlist.write(cli.take_schematic(data))
    except cli.Refused as refused:
        sys.stdout.buffer.write(refused.line + b"\n")
        return cli.REFUSED
    sys.stdout.buffer.write(text)
    return cli.GOOD


def main(words):
    """Prints the summary line; answers the status."""
    sys.setrecursionlimit(100000)
    if len(words) == 2 and words[0] == "spice":
        return spice_file(words[1])
    try:
        for word in words:
            word.encode()
    except UnicodeEncodeError:
        words = []
    line, status = cli.run(words, cli.Files())
    if line is not None:
        try:
            sys.stdout.buffer.write(line + b"\n")
            sys.stdout.buffer.flush()
        except OSError:
            status = cli.OUTSIDE
    return status


if __name__ == "__main__":
    sys.exit(main(sys.argv[1:]))
