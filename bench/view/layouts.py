"""Small layouts for compare.py: turns, arrays, wires, vias, feedthroughs, resistors and diodes, odd names."""

import os
import sys

HERE = os.path.dirname(os.path.abspath(__file__))
sys.path[:0] = [os.path.join(HERE, "..", "reference")]
from build import aref, rect, sref, stream, text
from squares import Motion

RULES = b"""active = input(1, 0)
poly   = input(2, 0)
metal  = input(3, 0)
over   = input(4, 0)
via    = input(5, 0)
txt    = labels(3, 1)
bulk   = polygon_layer
gate   = active & poly
sd     = active - poly
gate.output(10, 0)
connect(sd, metal)
connect(poly, metal)
connect(metal, via)
connect(via, over)
connect(metal, txt)
connect_global(bulk, "VSS")
extract_devices(mos4("NMOS"), { "SD" => sd, "G" => gate, "W" => bulk, "tG" => poly })
"""
ODD_RULES = RULES.replace(b"NMOS", b"N MOS-4'").replace(b"VSS", b"V'S+ S")
FURTHER_RULES = b"""body  = input(1, 0)
ends  = input(2, 0)
metal = input(3, 0)
p     = input(4, 0)
n     = input(5, 0)
bulk  = polygon_layer
connect(ends, metal)
connect(p, metal)
connect(n, metal)
connect_global(bulk, "VSS")
extract_devices(resistor_with_bulk("ONE", 50), { "R" => body, "C" => ends, "W" => bulk })
extract_devices(diode("TWO"), { "P" => p, "N" => n })
"""
# a transistor of 0.06 by 0.2, its source and drain under metal of different widths
TRANSISTOR = [rect(1, 0, 0, 600, 200), rect(2, 260, -100, 320, 300), rect(3, 0, 0, 100, 200), rect(3, 480, 0, 600, 200)]


def turned(name, at, mirrored, quarters, *rects):
    """A reference, and metal of its caller that lies in it as these rectangles do."""
    motion = Motion.turned(mirrored, quarters, *at)
    return [sref(name, at, mirrored, quarters)] + [rect(3, *motion.rect(r)) for r in rects]


def turns():
    """A cell of two transistors in each of the eight turns, with metal of the top at the first one's source and drain."""
    pair = [sref(b"one", (0, 0)), sref(b"one", (600, 1500), True, 1), rect(3, 0, 0, 100, 200)]
    top = []
    for k in range(8):
        top += turned(b"pair", (6000 * k, 700 * k), k >= 4, k % 4, (0, 0, 100, 400), (480, 0, 600, 50))
    return stream([(b"one", TRANSISTOR), (b"pair", pair), (b"top", top)])


def turns_of_turns():
    """All eight turns of a cell that turns a cell."""
    pair = [sref(b"one", (0, 0), True, 3), sref(b"one", (900, 40), False, 1), rect(3, 0, 480, 1500, 520)]
    top = []
    for k in range(8):
        top += turned(b"pair", (5000 * (k % 4), 5000 * (k // 4)), k >= 4, k % 4, (1400, 500, 1600, 900))
    return stream([(b"one", TRANSISTOR), (b"pair", pair), (b"top", top)])


def arrays():
    """Arrays of transistors, one of them turned, the drains and sources of the first joined by rows."""
    rows = [rect(3, 0, 1000 * k, 6600, 1000 * k + 50) for k in range(4)]
    top = [aref(b"one", (0, 0), 6, 4, (7200, 0), (0, 4000)), aref(b"one", (9000, 0), 2, 3, (9000, 2000), (13500, 0), True, 1)]
    return stream([(b"one", TRANSISTOR), (b"top", top + rows)])


def wires():
    """Cells without a transistor: a via, and a wire with two of them, one turned; both stand in cells with and without transistors."""
    via = [rect(3, -50, -50, 50, 50), rect(5, -20, -20, 20, 20), rect(4, -60, -60, 60, 60)]
    wire = [sref(b"via", (0, 0)), sref(b"via", (2000, 30), True, 3), rect(4, -40, -40, 2040, 70)]
    cell = TRANSISTOR + [sref(b"via", (550, 100))]
    top = [sref(b"cell", (0, 0)), sref(b"cell", (2600, 0), False, 2), sref(b"wire", (550, 100)), sref(b"wire", (300, 3000), False, 1),
           rect(3, 200, 250, 380, 3100), text(3, 1, (300, 3000), b"IN")]
    return stream([(b"via", via), (b"wire", wire), (b"cell", cell), (b"top", top)])


def feedthroughs():
    """Wires that run through a cell: one on no transistor of it, one in two pieces that the caller joins."""
    cell = TRANSISTOR + [rect(3, -200, 500, 800, 560), rect(4, -200, 700, 200, 760), rect(4, 400, 700, 800, 760)]
    top = [sref(b"cell", (0, 0)), sref(b"cell", (1000, 0)), sref(b"cell", (2400, 400), True, 2), rect(3, -300, 0, 20, 560),
           rect(4, 150, 700, 450, 760), rect(5, -210, 700, -200, 760), rect(3, -300, 690, -205, 770), rect(3, 1700, 500, 1900, 560)]
    return stream([(b"cell", cell), (b"top", top)])


def further():
    """A resistor, and a diode with its anode on the resistor's first end, in each of the eight turns."""
    cell = [rect(1, 0, 0, 100, 20), rect(2, -20, 0, 0, 20), rect(2, 100, 0, 120, 20),
            rect(4, 0, 100, 30, 120), rect(5, 10, 100, 50, 120), rect(3, -20, 0, 5, 120)]
    top = []
    for k in range(8):
        top += turned(b"cell", (1000 * k, 70 * k), k >= 4, k % 4, (105, 5, 115, 15), (40, 105, 45, 115))
    return stream([(b"cell", cell), (b"top", top)])


def odd_names():
    """Names with blanks, quotes, backslashes and bytes above 127."""
    one, pair = b"o n'e \\8", b"\xe9\"p\x01 7#"
    cell = TRANSISTOR + [text(3, 1, (50, 50), b"a 'b' \\n\xff8"), text(3, 1, (500, 50), b"$x y")]
    both = [sref(one, (0, 0)), sref(one, (1000, 0), True, 2), rect(3, 480, 0, 1000, 40)]
    return stream([(one, cell), (pair, both), (b"T 'o\xfcp", [sref(pair, (0, 0)), sref(pair, (0, 3000), False, 1)])])


LAYOUTS = [("eight turns", turns, RULES), ("turns of turns", turns_of_turns, RULES), ("arrays", arrays, RULES), ("vias and wires", wires, RULES),
           ("feedthroughs", feedthroughs, RULES), ("resistors and diodes", further, FURTHER_RULES), ("odd names", odd_names, ODD_RULES)]
