#!/usr/bin/env python3
"""Checks the reference against itself: `flatcheck.py COUNT SEED0 [covered] [selected]`.

For random layouts the written layers, expanded, must cover the flat layers, and the netlist of
all cells must match the netlist of the same layout made of one cell.
"""

import sys

import cli
import gds
import gen
import match
import selections
from align import align
from circuits import Extracted
from layers import all_paths
from layout import Layout
from squares import canon


def flattened(design):
    """The same layout as one cell with the top's texts."""
    top = design.library.cells[design.top]
    cell = gds.Cell(top.dates)
    cell.name, cell.texts = top.name, top.texts
    for _, motion, end in all_paths(design, design.top):
        for key, rects in design.own[end].items():
            for rect in rects:
                x1, y1, x2, y2 = motion.rect(rect)
                points = [(x1, y1), (x1, y2), (x2, y2), (x2, y1), (x1, y1)]
                cell.shapes.append((key, ("boundary", points)))
    library = gds.Library()
    library.unit_pm, library.cells = design.library.unit_pm, [cell]
    return Layout(library, None)


def problems(seed, covered, selected):
    """What is wrong for one seed."""
    words, files = gen.generate(seed, "run", covered=covered, selected=selected)
    top = next((w[6:] for w in words if w.startswith("--top=")), None)
    if "--top" in words:
        top = words[words.index("--top") + 1]
    try:
        design = cli.take_layout(files["l.gds"], None if top is None else top.encode())
        rules = cli.take_rules(files["r.lvs"])
    except cli.Refused:
        return []
    one = flattened(design)
    selections.stage(design, rules)
    selections.stage(one, rules)
    deep = Extracted(design, rules)
    flat = Extracted(one, rules)
    out = []
    paths = list(all_paths(design, design.top))
    for name, form in enumerate(rules.forms):
        if form[0] == "labels":
            continue
        rects = [motion.rect(r) for _, motion, end in paths
                 for r in deep.deep.views[end].local_rects[name]]
        if canon(rects) != flat.deep.views[0].local_rects[name]:
            out.append("layer %s" % rules.names[name].decode())
    ends = [end for _, _, end in paths]
    bad = sorted(g.cause for end in ends for g in deep.gates[end] if not g.good)
    if bad != sorted(g.cause for g in flat.gates[0] if not g.good):
        out.append("bad gates")
    pairs = align(deep.circuits, deep.top, flat.circuits, [])
    answer = match.compare_all(pairs, 2000)[-1]
    if answer.word == "differs":
        out.append("netlist: %s" % (answer.evidence,))
    if answer.word == "match" and not match.is_correspondence(
            *pairs[-1], [None] * len(pairs), answer.pairing):
        out.append("pairing")
    return out


def main(words):
    """Checks so many seeds."""
    count, first, wrong = int(words[0]), int(words[1]), 0
    for seed in range(first, first + count):
        found = problems(seed, "covered" in words[2:], "selected" in words[2:])
        if found:
            wrong += 1
            print("seed %d: %s" % (seed, "; ".join(found)))
    print("%d of %d wrong" % (wrong, count))
    return 1 if wrong else 0


if __name__ == "__main__":
    sys.setrecursionlimit(100000)
    sys.exit(main(sys.argv[1:]))
