#!/usr/bin/env python3
"""Worked cases with known answers, run on the reference itself: `rows.py [PART OF A NAME]`."""

import hashlib
import sys
import traceback

import chip
import cli
import gds
import layout
import match
import names
import netlist
import spice
import values
from align import align
from build import aref, boundary, path, rect, sref, stream, text
from circuits import Extracted
from layers import Deep
from squares import Motion, canon

CHECKS = []


def check(function):
    """Adds a check."""
    CHECKS.append(function)
    return function


def equal(found, wanted):
    """Compares and tells."""
    if found != wanted:
        raise AssertionError("found  %r\n    wanted %r" % (found, wanted))


def go(words, **files):
    """Runs a command over files given as name=bytes; answers line, status and files."""
    depot = cli.MemoryFiles(files)
    line, status = cli.run(words.split(), depot)
    return line, status, depot.files


SHAPES = "shapes l r s"
EXTRACT = "extract --layout l --rules r --shapes s --netlist n"
RUN = "run --layout l --rules=r --schematic c --shapes s --netlist n --report p"
AND_RULES = b"a = input(1, 0)\nb = input(2, 0)\nc = a & b\nc.output(10, 0)\n"
PLAIN_MOS = b"""active = input(2, 0)
poly = input(3, 0)
txt = labels(5, 1)
bulk = polygon_layer
gate = active & poly
sd = active - poly
extract_devices(mos4("NMOS"), { "SD" => sd, "G" => gate, "W" => bulk, "tG" => poly })
connect(sd, txt)
connect(poly, txt)
connect_global(bulk, "VSS")
"""
FIRST_STREAM = bytes.fromhex(
    "000600020258" "001C0102" + "00" * 24 + "00060206" "4C00"
    "001403053E4189374BC6A7F03944B82FA09B5A54" "001C0502" + "00" * 24 + "000606064100"
    "00040800" "00060D020001" "00060E020000" "002C1003" "0000000000000000" "000000000000000A"
    "0000000A0000000A" "0000000A00000000" "0000000000000000" "00041100"
    "00040800" "00060D020002" "00060E020000" "002C1003" "0000000500000005" "000000050000000F"
    "0000000F0000000F" "0000000F00000005" "0000000500000005" "00041100" "00040700" "00040400")
T_CELL = (b"T", [rect(2, 0, 0, 1250, 1500), rect(3, 500, -100, 750, 1600),
                 text(5, 1, (100, 100), b"S"), text(5, 1, (1000, 100), b"D"),
                 text(5, 1, (600, 1550), b"G")])
T_NETLIST = b"""* lvs netlist
.SUBCKT T G S D VSS
M1 D G S VSS NMOS L=0.25U W=1.5U
.ENDS T
.END
"""
T_SCHEMATIC = b"""
.subckt t g s d vss
m1 d g s vss nmos l=2.5e-07
+ w=1500n as=1p m=1
.ends
"""[1:]


def locals_of(cells, rules, name):
    """Per cell name the local rectangles of a name."""
    design = cli.take_layout(stream(cells), None)
    rule_set = cli.take_rules(rules)
    deep = Deep(design, rule_set)
    number = rule_set.names.index(name)
    return {design.names[c].decode(): deep.views[c].local_rects[number] for c in design.order}


def flat_of(data, key):
    """The rectangles of a stream's layer, expanded from the top."""
    design = cli.take_layout(data, None)
    rule_set = cli.take_rules(b"a = input(%d, %d)\n" % key)
    return canon(Deep(design, rule_set).flat_rects[design.top][key])


def extracted_of(cells, rules):
    """The tables of some cells."""
    return Extracted(cli.take_layout(stream(cells), None), cli.take_rules(rules))


# -- layers -----------------------------------------------------------------------------------


@check
def overlap_of_two_squares():
    line, status, files = go(SHAPES, l=FIRST_STREAM, r=AND_RULES)
    equal((line, status), (b"shapes cells 1 rectangles 1", 0))
    equal(len(FIRST_STREAM), 230)
    equal(len(files["s"]), 166)
    equal(files["s"][:94], FIRST_STREAM[:94])
    equal(flat_of(files["s"], (10, 0)), [(5, 5, 10, 10)])


@check
def touching_squares_give_nothing():
    data = stream([(b"A", [rect(1, 0, 0, 10, 10), rect(2, 10, 0, 20, 10)])])
    line, _, files = go(SHAPES, l=data, r=AND_RULES)
    equal((line, len(files["s"])), (b"shapes cells 1 rectangles 0", 102))


@check
def ring_with_a_seam():
    points = [(0, 0), (0, 30), (30, 30), (30, 0), (10, 0), (10, 10), (20, 10), (20, 20),
              (10, 20), (10, 0), (0, 0)]
    found = locals_of([(b"A", [boundary(1, points)])], b"a = input(1, 0)\n", b"a")
    equal(found["A"], [(0, 0, 30, 10), (0, 10, 10, 20), (20, 10, 30, 20), (0, 20, 30, 30)])


@check
def mirrored_array():
    cells = [(b"K", [rect(1, 2, 1, 3, 2)]),
             (b"TOP", [aref(b"K", (100, 200), 3, 2, (130, 200), (100, 240), True, 1)])]
    rules = b"a = input(1, 0)\na.output(10, 0)\n"
    line, _, files = go(SHAPES, l=stream(cells), r=rules)
    equal(line, b"shapes cells 2 rectangles 1")
    equal(flat_of(files["s"], (10, 0)), [(x, y, x + 1, y + 1) for y in (202, 222)
                                         for x in (101, 111, 121)])


@check
def overlapped_child():
    rules = b"a = input(1, 0)\nb = input(2, 0)\nc = a - b\nc.output(10, 0)\n"
    cells = [(b"K", [rect(1, 0, 0, 10, 10)]),
             (b"TOP", [sref(b"K", (0, 0)), sref(b"K", (100, 0)), rect(2, 5, 0, 15, 10)])]
    equal(locals_of(cells, rules, b"c"), {"K": [(0, 0, 5, 10)], "TOP": [(105, 0, 110, 10)]})
    _, _, files = go(SHAPES, l=stream(cells), r=rules)
    equal(flat_of(files["s"], (10, 0)), [(0, 0, 5, 10), (100, 0, 110, 10)])
    cells[1][1][1] = sref(b"K", (0, 0))
    equal(locals_of(cells, rules, b"c"), {"K": [], "TOP": [(0, 0, 5, 10)]})


@check
def three_operators():
    a, b = rect(1, 0, 0, 10, 10), rect(2, 5, 5, 15, 15)
    wanted = {b"|": [(0, 0, 10, 5), (0, 5, 15, 10), (5, 10, 15, 15)],
              b"-": [(0, 0, 10, 5), (0, 5, 5, 10)],
              b"^": [(0, 0, 10, 5), (0, 5, 5, 10), (10, 5, 15, 10), (5, 10, 15, 15)]}
    for operator, rects in wanted.items():
        rules = b"a = input(1, 0)\nb = input(2, 0)\nc = a %s b\n" % operator
        equal(locals_of([(b"A", [a, b])], rules, b"c")["A"], rects)


@check
def filled_paths():
    bent = [(0, 0), (0, 20), (30, 20)]
    equal(canon(layout.fill_path(bent, 2, 0, 0)), [(-2, 0, 2, 18), (-2, 18, 30, 22)])
    equal(canon(layout.fill_path(bent, 2, 2, 2)), [(-2, -2, 2, 18), (-2, 18, 32, 22)])
    equal(layout.fill_path([(0, 0), (4, 0)], 1, -5, 3), [(5, -1, 7, 1)])
    found = locals_of([(b"A", [path(1, bent, 4, 2)])], b"a = input(1, 0)\n", b"a")
    equal(found["A"], [(-2, -2, 2, 18), (-2, 18, 32, 22)])


@check
def motions():
    turn = Motion.turned(True, 1, 3, -4)
    equal(turn.rect((2, 1, 3, 2)), (4, -2, 5, -1))
    both = turn.then(turn.inverse())
    equal((both.a, both.b, both.c, both.d, both.dx, both.dy), (1, 0, 0, 1, 0, 0))


# -- refused streams --------------------------------------------------------------------------


def refused_layout(data, wanted, rules=AND_RULES, words=SHAPES):
    """Expects a refusal of the layout and no written file."""
    line, status, files = go(words, l=data, r=rules)
    equal((line, status, sorted(files)), (b"refused layout " + wanted, 2, ["l", "r"]))


def patched(place, piece):
    """The first stream with some bytes replaced."""
    return FIRST_STREAM[:place] + piece + FIRST_STREAM[place + len(piece):]


@check
def refused_streams():
    refused_layout(patched(198, (16).to_bytes(4, "big")), b"6 record 14 offset 174")
    refused_layout(FIRST_STREAM[:120], b"1 record 9 offset 110")
    refused_layout(FIRST_STREAM[:226], b"1 record 17 offset 226")
    refused_layout(b"", b"1 record 0 offset 0")
    refused_layout(patched(52, bytes(8)), b"13 record 3 offset 40")
    refused_layout(patched(164, b"\x7f"), b"3 record 12 offset 162")
    equal(go(SHAPES, l=FIRST_STREAM + bytes(2048), r=AND_RULES)[0],
          b"shapes cells 1 rectangles 1")
    skew = b"".join([gds.record(gds.SREF), gds.record(gds.SNAME, b"B"),
                     gds.record(gds.STRANS, b"\0\0"),
                     gds.record(gds.ANGLE, bytes.fromhex("422D000000000000")),
                     layout.xy((0, 0)), gds.record(gds.ENDEL)])
    refused_layout(FIRST_STREAM[:94] + skew + FIRST_STREAM[222:], b"10 record 9 offset 110")
    refused_layout(stream([(b"A", [sref(b"B", (0, 0))]), (b"B", [sref(b"A", (0, 0))])]),
                   b"22 cell A")
    refused_layout(stream([(b"A", []), (b"B", [])]), b"23 cell A cell B")


@check
def cut_streams():
    starts, place = [], 0
    while place < 230:
        starts.append(place)
        place += int.from_bytes(FIRST_STREAM[place:place + 2], "big")
    for size in range(230):
        index = max(k for k, s in enumerate(starts) if s <= size)
        refused_layout(FIRST_STREAM[:size], b"1 record %d offset %d" % (index, starts[index]))


@check
def false_records():
    refused_layout(patched(110, b"\0\x2d"), b"2 record 9 offset 110")
    refused_layout(patched(110, b"\0\x02"), b"2 record 9 offset 110")
    refused_layout(patched(9, b"\0"), b"5 record 1 offset 6")
    refused_layout(patched(156, b"\x07"), b"4 record 10 offset 154")
    refused_layout(patched(134, (11).to_bytes(4, "big")), b"6 record 9 offset 110")
    twice = FIRST_STREAM[:154] + FIRST_STREAM[110:154] + FIRST_STREAM[154:]
    half = FIRST_STREAM[:110] + layout.xy((0, 0), (0, 10), (10, 10))
    rest = layout.xy((10, 0), (0, 0)) + FIRST_STREAM[154:]
    for data, size in ((twice, 274), (half + rest, 234)):
        equal(len(data), size)
        equal(go(SHAPES, l=data, r=AND_RULES)[0], b"shapes cells 1 rectangles 1")
    refused_layout(half + FIRST_STREAM[154:], b"5 record 10 offset 138")


@check
def limits_of_layouts():
    rules = b"a = input(1, 0)\na.output(10, 0)\n"
    data = stream([(b"A", [rect(1, 0, 0, 2147483647, 10)])])
    equal(go(SHAPES, l=data, r=rules)[0], b"shapes cells 1 rectangles 1")
    chain = [(b"C0", [rect(1, 0, 0, 10, 10)])]
    chain += [(b"C%d" % k, [sref(b"C%d" % (k - 1), (0, 0))]) for k in range(1, 66)]
    equal(go(SHAPES, l=stream(chain[:-1]), r=rules)[0], b"shapes cells 65 rectangles 1")
    refused_layout(stream(chain), b"27 cell C65", rules)
    labelled = b"metal = input(5, 0)\ntxt = labels(5, 1)\nconnect(metal, txt)\n"
    many = [(b"E%d" % k, []) for k in range(layout.MAX_CELLS + 1)]
    line = go(EXTRACT + " --top E0", l=stream(many[:-1]), r=labelled)[0]
    equal(line, b"extracted cells 1 circuits 1 bad 0")
    refused_layout(stream(many), b"26", labelled, EXTRACT + " --top E0")


@check
def wide_layouts():
    far, one = 2147483647, b"a = input(1, 0)\na.output(10, 0)\n"

    def chain(width):
        cells = [(b"C0", [rect(1, 0, 0, width, 1)])]
        return stream(cells + [(b"C%d" % k, [sref(b"C%d" % (k - 1), (far, 0))])
                               for k in range(1, 33)])
    equal(go(SHAPES, l=chain(32), r=one)[0], b"shapes cells 33 rectangles 1")
    refused_layout(chain(33), b"25 cell C32", one)
    grown = b"a = input(1, 0)\nb = a.sized(1)\nb.output(10, 0)\n"
    equal(go(SHAPES, l=chain(31), r=grown)[0], b"shapes cells 33 rectangles 1")
    refused_layout(chain(32), b"28 cell C32", grown)
    unwritten = grown.replace(b"b.output", b"a.output")
    equal(go(SHAPES, l=chain(32), r=unwritten)[0], b"shapes cells 33 rectangles 1")
    cells = [(b"C0", [rect(1, 0, 0, 1, 1), rect(2, 0, 0, 1, 1)]),
             (b"C1", [sref(b"C0", (far, 0))]),
             (b"C2", [sref(b"C1", (far, 0)), sref(b"C1", (far, 0))])]
    refused_layout(stream(cells), b"28 cell C2")
    cells[2][1].pop()
    equal(go(SHAPES, l=stream(cells), r=AND_RULES)[0], b"shapes cells 3 rectangles 1")


# -- rules ------------------------------------------------------------------------------------


@check
def refused_rules():
    def refused(rules, wanted):
        line, status, _ = go(SHAPES, l=FIRST_STREAM, r=rules)
        equal((line, status), (b"refused rules " + wanted, 2))
    first = b"a = input(1, 0)\n"
    cases = [
        (first + b"a.width(10)\n", b"30 line 2"),
        (first + b"d = a & zz\n", b"32 line 2"), (first + first, b"33 line 2"),
        (first + b"t = labels(5, 1)\nx = a & t\n", b"34 line 3"),
        (PLAIN_MOS.replace(b"connect(poly, txt)\n", b""), b"34 line 7"),
        (first + b"x = a.sized(0)\n", b"31 line 2"),
        (first + b"x = a.sized(10000)\ny = x.sized(- 1)\n", b"31 line 3"),
        (b"\0", b"36 offset 0"), (b"foo\r", b"30 line 1"), (first[:-1] + b"\r", b"31 line 1"),
        (b"foo => b\n", b"30 line 1"), (b"foo$bar\n", b"30 line 1"),
        (b"input = input(1, 0)\n", b"31 line 1"), (b"deep.output(1, 0)\n", b"32 line 1"),
        (first + b"x = a & input\n", b"32 line 2"), (b"a" * 65 + b" = 1\n", b"31 line 1"),
        (b"max_guesses(0)\n", b"31 line 1"), (b"max_guesses(1000001)\n", b"31 line 1"),
        (b"\n\nsame_circuits('A', 'B')\nsame_circuits('a', 'C')\n", b"33 line 4"),
        (b"".join(b"n%d = input(%d, 0)\n" % (k, k) for k in range(257)), b"35 line 257"),
        (first + b"a = labels(1, 0)\nq = zz & a\n", b"33 line 2"),
        (PLAIN_MOS.replace(b'"tG" => poly', b'"tG" => poly, "tS" => gate'), b"31 line 7"),
    ]
    for rules, wanted in cases:
        refused(rules, wanted)
    equal(go(SHAPES, l=FIRST_STREAM, r=b"")[0], b"shapes cells 1 rectangles 0")
    equal(go(SHAPES, l=FIRST_STREAM, r=b"# \r x\n#\r")[0], b"shapes cells 1 rectangles 0")
    mixed = b"a=input( 1 ,0 ) # x\r\n\ta . output(3,4)\r\n\r\ndeep\nschematic('x y#')"
    equal(go(SHAPES, l=FIRST_STREAM, r=mixed)[0], b"shapes cells 1 rectangles 1")


# -- words ------------------------------------------------------------------------------------


@check
def refused_words():
    for words in ("run", "", "shapes a b", "shapes a b -c", "shapes a b c d", "make 0 0 1 p",
                  "make 1 0 65 p", "make 1 0 0 p", "make 1 18446744073709551616 1 p",
                  "make +1 0 1 p", "make 1 0 1 -p", EXTRACT + " --workers 65",
                  EXTRACT + " --workers=0", EXTRACT + " --top", EXTRACT + " --top=",
                  EXTRACT + " --top -x", EXTRACT + " x", EXTRACT + " --layout l",
                  EXTRACT + " --schematic c", "Shapes a b c", EXTRACT[:-12]):
        equal(go(words, l=FIRST_STREAM, r=b"")[:2], (b"refused words", 2))
    equal(go("shapes x r x")[:2], (b"refused same x", 2))
    equal(go("shapes x r s", x=b"")[:2], (b"refused absent r", 2))
    equal(go("shapes x x s", x=b"\0")[:2], (b"refused rules 36 offset 0", 2))
    twice = "extract --netlist q --rules=r --shapes=w --layout q"
    equal(go(twice, r=b"")[:2], (b"refused same q", 2))


# -- nets and devices -------------------------------------------------------------------------


@check
def one_transistor():
    line, status, files = go(EXTRACT, l=stream([T_CELL]), r=PLAIN_MOS)
    equal((line, status), (b"extracted cells 1 circuits 1 bad 0", 0))
    equal(files["n"], T_NETLIST)
    gate = extracted_of([T_CELL], PLAIN_MOS)
    one = gate.gates[0][0]
    equal((one.twice_w, one.twice_l, one.source, one.drain, one.gate, one.bulk, one.least),
          (3000, 500, 1, 2, 0, 3, (500, 0)))


@check
def three_levels():
    cells = [T_CELL, (b"MID", [sref(b"T", (0, 0))]), (b"TOP", [sref(b"MID", (0, 0))])]
    equal(go(EXTRACT, l=stream(cells), r=PLAIN_MOS)[2]["n"], b"""* lvs netlist
.SUBCKT T G S D VSS
M1 D G S VSS NMOS L=0.25U W=1.5U
.ENDS T
.SUBCKT MID VSS
X1 \\$1 \\$2 \\$3 VSS T
.ENDS MID
.SUBCKT TOP VSS
X1 VSS MID
.ENDS TOP
.END
""")


@check
def wire_through_a_child():
    rules = b"metal = input(5, 0)\ntxt = labels(5, 1)\nconnect(metal, txt)\n"
    cells = [(b"V", [rect(5, 10, 0, 20, 10)]),
             (b"TOP", [sref(b"V", (0, 0)), rect(5, 0, 0, 10, 10), rect(5, 20, 0, 30, 10)])]
    tables = extracted_of(cells, rules)
    equal((tables.nets[1].count, len(tables.nets[1].items)), (1, 3))
    equal(go(EXTRACT, l=stream(cells), r=rules)[2]["n"],
          b"* lvs netlist\n.SUBCKT TOP\n.ENDS TOP\n.END\n")


@check
def corners_do_not_join():
    rules = b"m = input(1, 0)\nconnect(m, m)\n"
    for second, count in (((1, 1, 2, 2), 2), ((1, 0, 2, 1), 1)):
        cells = [(b"A", [rect(1, 0, 0, 1, 1), rect(1, *second)])]
        equal(extracted_of(cells, rules).nets[0].count, count)


@check
def bad_gates():
    inside = [(b"A", [rect(2, 0, 0, 30, 30), rect(3, 10, -5, 20, 15)])]
    line, status, _ = go(EXTRACT, l=stream(inside), r=PLAIN_MOS)
    equal((line, status), (b"extracted cells 1 circuits 1 bad 1", 1))
    bad = extracted_of(inside, PLAIN_MOS).bad[0][1]
    equal((bad.cause, bad.least), (b"groups-1", (10, 0)))
    ring = [(10, 10), (10, 40), (40, 40), (40, 10), (20, 10), (20, 20), (30, 20), (30, 30),
            (20, 30), (20, 10), (10, 10)]
    bad = extracted_of([(b"A", [rect(2, 0, 0, 50, 50), boundary(3, ring)])], PLAIN_MOS).bad[0][1]
    equal((bad.cause, bad.least), (b"no-length", (10, 10)))


@check
def gate_across_cells():
    cells = [(b"K", [rect(2, 0, 0, 50, 20)]),
             (b"TOP", [sref(b"K", (0, 0)), rect(3, 20, -5, 30, 25)])]
    equal(go(EXTRACT, l=stream(cells), r=PLAIN_MOS)[2]["n"], b"""* lvs netlist
.SUBCKT TOP VSS
M1 \\$3 \\$1 \\$2 VSS NMOS L=0.01U W=0.02U
.ENDS TOP
.END
""")
    tables = extracted_of(cells, PLAIN_MOS)
    equal((tables.pins.pin[0], tables.pins.base[0]), ([True] * 3, [b"", b"", b"VSS"]))
    gate = tables.gates[1][0]
    equal((tables.gates[0], gate.twice_w, gate.twice_l, gate.least), ([], 40, 20, (20, 0)))


@check
def equal_labels():
    elements = list(T_CELL[1])
    elements[3] = text(5, 1, (1000, 100), b"S")
    found = go(EXTRACT, l=stream([(b"T", elements)]), r=PLAIN_MOS)[2]["n"]
    equal(found.split(b"\n")[1:3], [b".SUBCKT T G S S\\$3 VSS",
                                    b"M1 S\\$3 G S VSS NMOS L=0.25U W=1.5U"])
    elements += [T_CELL[1][3]]
    tables = extracted_of([(b"T", elements)], PLAIN_MOS)
    equal(tables.pins.base[0], [b"G", b"S", b"D,S", b"VSS"])
    found = go(EXTRACT, l=stream([(b"T", elements)]), r=PLAIN_MOS)[2]["n"]
    equal(found.split(b"\n")[1], b".SUBCKT T G S D\\,S VSS")


@check
def inverter():
    cells = b"".join([gds.record(gds.HEADER, b"\2\x58"), gds.record(gds.BGNLIB, bytes(24)),
                      gds.record(gds.LIBNAME, b"CHIP"), gds.record(gds.UNITS, chip.UNITS)]
                     + chip.cell_records(b"INV", chip.INVERTER, [
                         (b"A", (10, 1500)), (b"Y", (990, 1500)), (b"VDD", (10, 2900))], [])
                     + [gds.record(gds.ENDLIB)])
    schematic = (b".subckt inv a y vdd vss\nmp y a vdd vdd pmos w=1u l=0.1u\n"
                 b"mn y a vss vss nmos w=0.5u l=0.1u\n.ends\n")
    line, status, files = go(RUN, l=cells, r=chip.RULES, c=schematic)
    equal((line, status), (b"match cells 1 circuits 1 pairs 1 bad 0", 0))
    equal(files["n"], b"* lvs netlist\n.SUBCKT INV VDD A VSS Y\n"
          b"M1 Y A VDD VDD PMOS L=0.1U W=1U\nM2 Y A VSS VSS NMOS L=0.1U W=0.5U\n"
          b".ENDS INV\n.END\n")
    equal(files["p"].split(b"\n")[3:-2],
          [b"pair INV INV match", b"net VDD VDD", b"net A A", b"net VSS VSS", b"net Y Y",
           b"device 1 1", b"device 2 2"])


@check
def doubling_hierarchy():
    """With 6 doublings in place of 40; the definitions list every path."""
    rules = b"""active = input(2, 0)
poly = input(3, 0)
bulk = polygon_layer
gate = active & poly
sd = active - poly
extract_devices(mos4("NMOS"), { "SD" => sd, "G" => gate, "W" => bulk, "tG" => poly })
connect_global(sd, "VSS")
connect_global(poly, "VSS")
connect_global(bulk, "VSS")
gate.output(10, 0)
"""
    cells = [(b"C0", [rect(2, 0, 0, 3, 1), rect(3, 1, -1, 2, 2)])]
    for i in range(3):
        step = 8 << i
        cells.append((b"C%d" % (2 * i + 1), [sref(b"C%d" % (2 * i), (0, 0)),
                                             sref(b"C%d" % (2 * i), (step, 0))]))
        cells.append((b"C%d" % (2 * i + 2), [sref(b"C%d" % (2 * i + 1), (0, 0)),
                                             sref(b"C%d" % (2 * i + 1), (0, step))]))
    data = stream(cells)
    equal(go(SHAPES, l=data, r=rules)[0], b"shapes cells 7 rectangles 1")
    line, _, files = go(EXTRACT, l=data, r=rules)
    equal(line, b"extracted cells 7 circuits 7 bad 0")
    equal(files["n"].split(b"\n")[1:8],
          [b".SUBCKT C0 VSS", b"M1 VSS VSS VSS VSS NMOS L=0.001U W=0.001U", b".ENDS C0",
           b".SUBCKT C1 VSS", b"X1 VSS C0", b"X2 VSS C0", b".ENDS C1"])
    equal(go(RUN, l=data, r=rules, c=files["n"])[0], b"match cells 7 circuits 7 pairs 7 bad 0")


# -- netlists ---------------------------------------------------------------------------------


@check
def spice_spellings():
    equal(netlist.write(spice.read_spice(T_SCHEMATIC)), T_NETLIST)

    def refused(data, *wanted):
        try:
            spice.read_spice(data)
        except spice.SpiceFault as fault:
            equal((data, fault.number, fault.place, fault.value), (data,) + wanted)
        else:
            raise AssertionError("accepted %r" % data)
    refused(T_SCHEMATIC.replace(b"1500n", b"1.5u5x"), 53, 2, 1)
    refused(T_SCHEMATIC.replace(b"2.5e-07", b"0.5f"), 53, 2, 2)
    refused(T_SCHEMATIC.replace(b"1500n", b"1.1k"), 53, 2, 3)
    refused(T_SCHEMATIC.replace(b".ends\n", b""), 54, 1, None)
    refused(T_SCHEMATIC.replace(b" m=1", b" m=0"), 52, 2, None)
    begin = b".subckt a x\n"
    for card, number in ((b".subckt=x", 50), (b"m1=3 a b c d e l=1 w=1", 51), (b"q1 a b", 50),
                         (b" + x", 50), (b"m1 x x x x n l = 1u w\t=\t1u", 0), (b"=x", 50),
                         (b"m1 x x x x n l=1u w=1u z=1", 52), (b"m x x x x n l=1u w=1u", 0),
                         (b"m1 x x x x n \\l=1u w=1u l=1", 52), (b"m1 x x x n l=1u w=1u", 51),
                         (b"m1 x x x x n l=1u w=1u l=1u", 51), (b"m1 x\\ x x x x n l=1u w=1u", 51),
                         (b"x\\q", 51), (b"x1", 51), (b"x1 q m=2", 52), (b".global", 51),
                         (b".global g=1", 51), (b".end foo", 51), (b".ends a b", 51),
                         (b".subckt b", 51), (b"m1 x x x x n l= w=1u", 51),
                         (b"m1 x x x x n l=1=2 w=1u", 51), (b"m1 x x x x n\\=1 l=1u w=1u", 0),
                         (b"m1 x x x x n l\\ =1u w=1u l=1u", 52),
                         (b".model q nmos =", 0), (b".END\n+ x", 51)):
        if number:
            refused(begin + card + b"\n.ends\n", number, 2, None)
        else:
            spice.read_spice(begin + card + b"\n.ends\n")
    refused(b"* c\n+ x\n", 51, 2, None)
    refused(b".subckt a w=1 b\n", 51, 1, None)
    refused(b".subckt a w=1\n", 52, 1, None)
    refused(b".subckt a b B\n", 51, 1, None)
    refused(b".ends\n", 51, 1, None)
    refused(b"x1 a\n.subckt a\n.ends\n.subckt .top\n.ends\n", 44, 1, None)
    refused(b"x1 q\nx2 a a\n.subckt a\n.ends\n", 41, 1, None)
    refused(b"x2 a a\n.subckt a\n.ends\n", 43, 1, None)
    refused(b".subckt a\nx1 b\n.ends\n.subckt b\nx1 b\n.ends\n", 42, b"B", None)


@check
def needed_globals():
    found = spice.read_spice(b".global vss\n.subckt a x\nm1 x x vss vss n l=1u w=1u\n.ends\n"
                             b".subckt b x\nx1 x a\n.ends\nx9 q b\n")
    equal([(c.name, [c.nets[p] for p in c.pins]) for c in found],
          [(b"A", [b"X", b"VSS"]), (b"B", [b"X", b"VSS"]), (b".TOP", [b"VSS"])])
    equal([found[1].nets[n] for n in found[1].calls[0].nets], [b"X", b"VSS"])


@check
def lengths_and_names():
    for word, wanted in ((b"1500n", 1500 * 10 ** 6), (b"1.", 10 ** 15), (b".5U", 5 * 10 ** 8),
                         (b"1e-6", 10 ** 9), (b"1E3umeter", 10 ** 12), (b"0e99999999", 0),
                         (b"1k", 10 ** 18), (b"1me", 10 ** 12), (b"0.000000001t", 10 ** 18)):
        equal(values.parse_length(word), wanted)
    for word, wanted in ((b"-1", 1), (b"+1", 1), (b"1mil", 1), (b"1MILs", 1), (b"1u5", 1),
                         (b"1x", 1), (b".", 1), (b"1.2.3", 1), (b"", 1), (b"1e", 1),
                         (b"1meg", 3), (b"1e999999999999999999999", 3), (b"0.1f", 2),
                         (b"1e-999999999999999999999", 2), (b"1000.0000000000000001", 3)):
        try:
            values.parse_length(word)
        except values.ValueFault as fault:
            equal((word, fault.number), (word, wanted))
        else:
            raise AssertionError("accepted %r" % word)
    equal(values.micron_text(250 * 10 ** 6), b"0.25")
    equal(values.micron_text(0), b"0")
    every = bytes(range(256))
    equal(names.unescape(names.escape(every)), every)
    equal(names.escape(b"S$3 \xe9"), b"S\\$3\\x20\\xE9")


# -- comparison -------------------------------------------------------------------------------


def answer_of(left, right, limit=1000):
    """The answer on the last pair of two texts."""
    one, other = spice.read_spice(left), spice.read_spice(right)
    pairs = align(one, len(one) - 1, other, [])
    answers = match.compare_all(pairs, limit)
    maps = [match.pin_map(*pair, a) if a.word == "match" else None
            for pair, a in zip(pairs, answers)]
    for pair, found in zip(pairs, answers):
        if found.word == "match":
            equal(match.is_correspondence(*pair, maps, found.pairing), True)
    return answers[-1], pairs


def circuit(head, *cards):
    """A circuit whose cards are `nodes class W`."""
    lines = [".SUBCKT " + head]
    for k, (nodes, kind, width) in enumerate(cards, 1):
        lines.append("M%d %s %s L=0.1U W=%sU" % (k, nodes, kind, width))
    return ("\n".join(lines + [".ENDS"]) + "\n").encode()


@check
def latch_swapped():
    def latch(q, qn, a, b):
        return circuit("LATCH BL BLN WL VDD VSS",
                       ("%s %s VSS VSS" % (q, qn), "NMOS", 1),
                       ("%s %s VSS VSS" % (qn, q), "NMOS", 1),
                       ("%s %s VDD VDD" % (q, qn), "PMOS", 1),
                       ("%s %s VDD VDD" % (qn, q), "PMOS", 1),
                       ("BL WL %s VSS" % a, "NMOS", 0.5), ("BLN WL %s VSS" % b, "NMOS", 0.5))
    found, pairs = answer_of(latch("Q", "QN", "Q", "QN"), latch("Y", "X", "X", "Y"))
    equal(found.word, "match")
    left, right = pairs[0]
    nets = {left.nets[k]: right.nets[o] for k, o in enumerate(found.pairing["net"])}
    equal((nets[b"Q"], nets[b"QN"], nets[b"BL"]), (b"X", b"Y", b"BL"))
    equal(found.pairing["device"], [1, 0, 3, 2, 4, 5])


@check
def told_pins():
    def told(left, right):
        one, other = spice.read_spice(left), spice.read_spice(right)
        pairs = align(one, len(one) - 1, other, [])
        answer = match.compare_all(pairs, 1000, len(pairs) - 1)[-1]
        return answer, pairs[-1]

    gate = circuit("TOP I O B", ("O I B B", "NMOS", 1))
    swapped = circuit("TOP O I B", ("I O B B", "NMOS", 1))
    equal(answer_of(gate, swapped)[0].word, "match")
    equal(told(gate, gate)[0].word, "match")
    found, _ = told(gate, swapped)
    equal((found.word, found.evidence), ("differs", (1, 0, "device", 0, 1, 0)))
    small = circuit("top b o i", ("o i b b", "NMOS", 1))
    equal(told(gate, small)[0].word, "match")
    other = circuit("TOP I Z B", ("Z I B B", "NMOS", 1))
    found, _ = told(gate, other)
    equal((found.word, found.evidence), ("differs", (0, 0, "net", 1, 1, 0)))
    two = circuit("TOP A B C D G", ("B A G G", "NMOS", 1), ("D C G G", "NMOS", 1))
    turned = circuit("TOP C D A B G", ("B A G G", "NMOS", 1), ("D C G G", "NMOS", 1))
    found, (left, right) = told(two, turned)
    equal(found.word, "match")
    equal([right.nets[found.pairing["net"][k]] for k in left.pins], [left.nets[k] for k in left.pins])


@check
def two_rings():
    def ring(*ends):
        return circuit("RING G B", *[("N%d G N%d B" % e, "NMOS", 1) for e in ends])
    one = ring((1, 2), (2, 3), (3, 4), (4, 5), (5, 6), (6, 1))
    two = ring((1, 2), (2, 3), (3, 1), (4, 5), (5, 6), (6, 4))
    found, _ = answer_of(one, two)
    equal((found.word, found.guesses), ("differs", [[1, "net", 2, k, 3] for k in range(2, 8)]))
    found, _ = answer_of(one, two, 3)
    equal((found.word, found.guesses), ("undecided", [[1, "net", 2, k, 3] for k in range(2, 5)]))
    equal(answer_of(one, two, 6)[0].word, "differs")


@check
def swapped_pins_of_a_child():
    side = (b".SUBCKT C P Q\nM1 P Q P Q N L=0.1U W=1U\n.ENDS\n"
            b".SUBCKT TOP A B\nX1 A B C\n.ENDS\n")
    left = spice.read_spice(side)
    pairs = align(left, 1, spice.read_spice(side), [])
    found = match.compare(*pairs[1], [None, None], 9)
    equal((found.word, found.skipped), ("skipped", 0))
    found = match.compare(*pairs[1], [[1, 0], None], 9)
    equal((found.word, found.pairing), ("match", {"net": [1, 0], "device": [], "call": [0]}))


@check
def flattened_circuits():
    one = b"M1 A A A A N L=1U W=1U\n"
    left = (b".SUBCKT IN A\n" + one + b".ENDS\n.SUBCKT MID A\nX1 A IN\n" + one
            + b".ENDS\n.SUBCKT TOP A\n" + one + b"X1 A MID\n.ENDS\n")
    right = (b".SUBCKT IN A\n" + one + b".ENDS\n.SUBCKT TOP A\n" + one + one
             + b"X1 A IN\n.ENDS\n")
    found, pairs = answer_of(left, right)
    equal((found.word, len(pairs), [len(p[0].devices) for p in pairs]), ("match", 2, [1, 2]))
    below = b".SUBCKT A A\n" + one + b".ENDS\n"
    left = below + b".SUBCKT TOP A\n" + one + b"X1 A A\n.ENDS\n"
    found, pairs = answer_of(left, below)
    equal([(a.name, b.name, len(a.devices)) for a, b in pairs], [(b"TOP", b"A", 2)])


@check
def whole_comparison():
    layout_data = stream([T_CELL])
    line, status, files = go(RUN, l=layout_data, r=PLAIN_MOS, c=T_SCHEMATIC)
    equal((line, status), (b"match cells 1 circuits 1 pairs 1 bad 0", 0))
    equal(files["p"], b"lvs report 1\ntop T T\nbad 0\npair T T match\nnet G G\nnet S S\n"
          b"net D D\nnet VSS VSS\ndevice 1 1\nend\n")
    second = T_SCHEMATIC.replace(b".ends", b"m2 d g s vss nmos l=0.25u w=1.5u\n.ends")
    line, status, files = go(RUN, l=layout_data, r=PLAIN_MOS, c=second)
    equal((line, status), (b"mismatch cells 1 circuits 1 pairs 1 bad 0", 1))
    equal(files["p"].split(b"\n")[3:-1],
          [b"pair T T differs", b"round 0 of layout device 1 layout 1 schematic 2", b"end"])


@check
def merged_fingers():
    data = circuit("A D G S B", ("D G S B", "N", 1), ("S G D B", "N", 2))
    data = data.replace(b".ENDS", b"M3 D G S B N L=2U W=1U\n.ENDS").replace(b"0.1U", b"1U")
    found = netlist.write([netlist.merged(spice.read_spice(data)[0])])
    equal(found.split(b"\n")[2:4], [b"M1 D G S B N L=1U W=3U", b"M2 D G S B N L=2U W=1U"])
    schematic = b".subckt t g s d vss\nm1 d g s vss nmos l=0.25u w=0.75u m=2\n.ends\n"
    rules = PLAIN_MOS + b"combine_devices\n"
    line, status, _ = go(RUN, l=stream([T_CELL]), r=rules, c=schematic)
    equal((line, status), (b"match cells 1 circuits 1 pairs 1 bad 0", 0))
    found = go(RUN, l=stream([T_CELL]), r=PLAIN_MOS, c=schematic)[2]["p"]
    equal(found.split(b"\n")[4], b"round 0 of layout device 1 layout 1 schematic 0")


@check
def resistor_and_diode():
    head = b"txt = labels(5, 1)\nbulk = polygon_layer\n"
    rules = head + b"""body = input(1, 0)
c = input(2, 0)
extract_devices(resistor_with_bulk("RES", 50), { "R" => body, "C" => c, "W" => bulk })
connect(c, txt)
connect_global(bulk, "VSS")
"""
    data = stream([(b"R", [rect(1, 0, 0, 100, 20), rect(2, -20, 0, 0, 20), rect(2, 100, 0, 120, 20),
                           text(5, 1, (-10, 10), b"A"), text(5, 1, (110, 10), b"B")])])
    found = go(EXTRACT, l=data, r=rules)[2]["n"]
    equal(found.split(b"\n")[1:3], [b".SUBCKT R A B VSS", b"R1 A B VSS RES L=0.1U W=0.02U"])
    equal(go(RUN, l=data, r=rules, c=found)[1], 0)
    rules = head + b"""p = input(1, 0)
n = input(2, 0)
extract_devices(diode("DIODE"), { "P" => p, "N" => n })
connect(p, txt)
connect(n, txt)
"""
    data = stream([(b"DIO", [rect(1, 0, 0, 30, 20), rect(2, 10, 0, 50, 20),
                             text(5, 1, (5, 10), b"A"), text(5, 1, (40, 10), b"K")])])
    found = go(EXTRACT, l=data, r=rules)[2]["n"]
    equal(found.split(b"\n")[1:3], [b".SUBCKT DIO A K", b"D1 A K DIODE A=0.0004P P=0.08U"])


@check
def sized_layers():
    rules = b"a = input(1, 0)\ns = a.sized(%s)\ns.output(10, 0)\n"
    cells = [(b"K", [rect(1, 0, 0, 10, 10)]),
             (b"TOP", [sref(b"K", (0, 0)), sref(b"K", (12, 0))])]
    equal(locals_of(cells, rules % b"2", b"s"),
          {"K": [(0, -2, 10, 12)],
           "TOP": [(-2, -2, 0, 12), (10, -2, 12, 12), (22, -2, 24, 12)]})
    equal(go(SHAPES, l=stream(cells), r=rules % b"2")[0], b"shapes cells 2 rectangles 4")
    cells[1] = (b"TOP", [sref(b"K", (0, 0)), rect(1, 10, 0, 20, 10)])
    equal(locals_of(cells, rules % b"-2", b"s"), {"K": [(2, 2, 8, 8)], "TOP": [(8, 2, 18, 8)]})


# -- generated chips --------------------------------------------------------------------------


@check
def small_chips():
    for words, cells in (("make 1 0 1 p", 3), ("make 5 7 64 p", 4)):
        line, status, files = go(words)
        equal((line, status), (b"match cells %d circuits %d pairs %d bad 0" % ((cells,) * 3), 0))
        equal(sorted(files), ["p.cir", "p.gds", "p.lvs"])
    digests = [hashlib.sha256(part).hexdigest()[:16] for part in chip.make(100, 7)]
    equal((digests[0], digests[2]), ("5bd20f6d18aefde8", "6819528f6489481a"))


def main(words):
    """Runs the checks whose names hold the given word."""
    passed = failed = 0
    for function in CHECKS:
        if words and words[0] not in function.__name__:
            continue
        try:
            function()
            passed += 1
        except Exception:       # a failing check must not stop the others
            failed += 1
            print("FAILED", function.__name__)
            traceback.print_exc(limit=-2)
    print("%d of %d checks pass" % (passed, passed + failed))
    return 1 if failed else 0


if __name__ == "__main__":
    sys.setrecursionlimit(100000)
    sys.exit(main(sys.argv[1:]))
