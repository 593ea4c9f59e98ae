"""docs/FORMATS.md: each refusal, by a file that is refused so. Not tried: `refused merge`, which wants a schematic
of many gigabytes of memory, and status 5."""
import bz2
import gzip
import os
import re

import tools
from tools import cell, gds, library, number, reference, square

DOCUMENT = "docs/FORMATS.md"
RULES = "a = input(1, 0)\na.output(10, 0)\n"
# Two layers whose squares meet far above the cells that draw them.
WIDE_RULES = "a = input(1, 0)\nb = input(2, 0)\nc = a & b\nc.output(10, 0)\n"
FAR = 2**31 - 100
DEGREES_45 = gds.rec(0x1C, 5, bytes.fromhex("422D000000000000"))
TWICE = gds.rec(0x1B, 5, bytes.fromhex("4120000000000000"))


def joined(*cells, **units):
    return b"".join(library(*cells, **units))


def changed(at, *records):
    """A cell with one square, in whose stream these records stand in place of one."""
    whole = library(cell("A", square(0, 0, 10, 10)))
    return b"".join(whole[:at] + list(records) + whole[at + 1:])


def path_of(*parts):
    return joined(cell("A", [gds.rec(0x09, 0), number(0x0D, 1), number(0x0E, 0), *parts,
                             gds.xy([(0, 0), (100, 0)]), gds.rec(0x11, 0)]))


def placed(*turn, array=()):
    start = gds.rec(0x0B, 0) if array else gds.rec(0x0A, 0)
    points = [(0, 0), (10, 0), (0, 10)] if array else [(0, 0)]
    return joined(cell("A", square(0, 0, 10, 10)),
                  cell("B", [start, gds.rec(0x12, 6, gds.string("A")), *turn, *array, gds.xy(points), gds.rec(0x11, 0)]))


def chain(length, step=0):
    cells = [cell("C0", square(0, 0, 10, 10))]
    return joined(*cells, *[cell(f"C{k}", reference(f"C{k - 1}", step)) for k in range(1, length + 1)])


def long_outline():
    """A stair of more than 1,000,000 points, in records of 8,190."""
    points = [(k // 2, (k + 1) // 2) for k in range(1_000_001)]
    records = [gds.xy(points[k:k + 8190]) for k in range(0, len(points), 8190)]
    return joined(cell("A", [gds.rec(0x08, 0), number(0x0D, 1), number(0x0E, 0), *records, gds.rec(0x11, 0)]))


def met_far_above():
    low = [cell("A", square(0, 0, 10, 10, 1)), cell("B", square(0, 0, 10, 10, 2))]
    high = [cell(f"{it}2", reference(it, FAR)) for it in "AB"]
    return joined(*low, *high, cell("T", reference("A2", FAR) + reference("B2", FAR)))


PLAIN, ABSOLUTE = gds.rec(0x1A, 1, b"\0\0"), gds.rec(0x1A, 1, b"\0\4")
STREAMS = [
    (1, "cut", lambda: changed(0, number(0x00, 600))[:150], "record 9 offset 110"),
    (1, "empty", lambda: b"", "record 0 offset 0"),
    (2, "OASIS", lambda: b"%SEMI-OASIS\r\n\x01\x031.0", "record 0 offset 0"),
    (2, "compressed", lambda: gzip.compress(changed(0, number(0x00, 600)), mtime=0), "record 0 offset 0"),
    (2, "damaged", lambda: changed(7, b"\0\5\x0D\2\0"), "record 7 offset 98"),
    (3, "vendor's record", lambda: changed(7, gds.rec(0x7F, 2, b"\0\1")), "record 7 offset 98"),
    (4, "two LAYER", lambda: changed(7, number(0x0D, 1), number(0x0D, 1)), "record 8 offset 104"),
    (5, "open outline", lambda: changed(9, gds.xy([(0, 0), (0, 9), (9, 9), (9, 0), (5, 0)])), "record 10 offset 154"),
    (6, "slanted edge", lambda: changed(9, gds.xy([(0, 0), (0, 9), (9, 9), (8, 0), (0, 0)])), "record 9 offset 110"),
    (7, "round ends", lambda: path_of(number(0x21, 1)), "record 9 offset 110"),
    (8, "odd width", lambda: path_of(gds.rec(0x0F, 3, b"\0\0\0\3")), "record 9 offset 110"),
    (9, "magnified", lambda: placed(PLAIN, TWICE), None),
    (10, "45 degrees", lambda: placed(PLAIN, DEGREES_45), None),
    (11, "absolute bit", lambda: placed(ABSOLUTE), None),
    (12, "no columns", lambda: placed(array=[number(0x13, 0, 1)]), None),
    (12, "steps", lambda: placed(array=[number(0x13, 3, 1)]), None),
    (13, "no unit", lambda: joined(cell("A"), units=bytes(16)), "record 3 offset 40"),
    (14, "long outline", long_outline, None),
]
CELLS = [
    (20, lambda: joined(cell("A"), cell("A")), RULES, " cell A"),
    (21, lambda: joined(cell("A", reference("B"))), RULES, " cell B"),
    (22, lambda: joined(cell("A", reference("B")), cell("B", reference("A")), cell("C")), RULES, " cell A"),
    (23, lambda: joined(cell("A"), cell("B")), RULES, " cell A cell B"),
    (24, lambda: joined(), RULES, ""),
    (25, lambda: chain(34, 2**31 - 1), RULES, None),
    (26, lambda: joined(*[cell(f"C{k}") for k in range(65537)]), RULES, ""),
    (27, lambda: chain(65), RULES, None),
    (28, met_far_above, WIDE_RULES, " cell T"),
]
MANY = "".join(f"n{k} = input(1, 0)\n" for k in range(257))
MOS = 'extract_devices(mos4("N"), { "SD" => a, "G" => b, "W" => c })\n'
DEVICE = "a = input(1, 0)\nb = input(2, 0)\nc = input(3, 0)\nconnect(a, c)\n" + MOS
PAIR = "a = input(1, 0)\nb = input(2, 0)\nc = polygon_layer\n"
DIODE = 'extract_devices(diode("D"), { "P" => a, "N" => b })\n'
RESISTOR = 'extract_devices(resistor_with_bulk("R", 0.5), { "R" => a, "C" => b, "W" => c })\n'
# Accepted: names of 64 bytes, 256 of them, statements that may stand twice, and that name nothing.
RULES_TAKEN = ["combine_devices\ncombine_devices\n", "max_guesses(1)\nmax_guesses(1000000)\n",
               "a" * 64 + " = polygon_layer\n",
               PAIR + DIODE + "connect(a, b)\n", PAIR + RESISTOR + "connect(b, c)\n",
               'netlist.flatten_circuit("NONE")\nschematic.flatten_circuit("NONE")\n', "deep # and a comment\r\n",
               'same_circuits("A", "B")\nsame_circuits("B", "A")\n', "a=input( 1,0 )\n",
               "".join(f"n{k} = input(1, 0)\n" for k in range(256))]
RULE_FILES = [
    (30, "a = input(1, 0)\na.width(10)\n", "line 2"),
    (30, "source($input)\n", "line 1"),
    (31, "a = input(1, 0)\nb = a\n", "line 2"),
    (31, "A = input(1, 0)\n", "line 1"),
    (31, "deep = input(1, 0)\n", "line 1"),
    (31, "a = input(00000001, 0)\n", "line 1"),
    (31, "a = input(1, 0) ?\n", "line 1"),
    (32, "a = input(1, 0)\nd = a & zz\n", "line 2"),
    (32, "a = input(1, 0)\nd = a & input\n", "line 2"),
    (33, "a = input(1, 0)\na = input(1, 0)\n", "line 2"),
    (33, "a = input(1, 0)\na.output(9, 0)\na.output(9, 0)\n", "line 3"),
    (33, 'same_circuits("A", "B")\nsame_circuits("a", "C")\n', "line 2"),
    (33, 'same_circuits("A", "B")\nnetlist.flatten_circuit("A")\n', "line 2"),
    (33, "same_pins\nsame_pins\n", "line 2"),
    (33, "flatten_unmatched\nflatten_unmatched\n", "line 2"),
    (33, DEVICE + MOS.replace('"N"', '"n"'), "line 6"),
    (33, DEVICE + 'extract_devices(diode("n"), { "P" => a, "N" => b })\n', "line 6"),
    (31, DEVICE + 'extract_devices(resistor_with_bulk("R", x), { "R" => a, "C" => b, "W" => c })\n', "line 6"),
    (34, "a = input(1, 0)\nt = labels(5, 1)\nx = a & t\n", "line 3"),
    (34, "a = labels(1, 0)\nb = labels(2, 0)\nconnect(a, b)\n", "line 3"),
    (34, 'a = labels(1, 0)\nconnect_global(a, "G")\n', "line 2"),
    (34, DEVICE, "line 5"),
    (34, PAIR + DIODE + RESISTOR + MOS, "line 4"),
    (34, PAIR + "connect(a, b)\n" + RESISTOR + DIODE, "line 5"),
    (35, MANY, "line 257"),
    (36, "a = input(1, 0)\n\0", "offset 16"),
]
CARD = "M1 d g s b NMOS L=0.1U W=1U"
SCHEMATICS = [
    (50, ".INCLUDE other.cir\n", "line 1"), (50, ".LIB a tt\n", "line 1"), (50, ".PARAM w=1\n", "line 1"),
    (50, "C1 a b 1p\n", "line 1"),
    (50, "Q1 c b e QN\n", "line 1"), (50, "L1 a b 1\n", "line 1"),
    (50, "A title\n", "line 1"), (51, "Main block\n", "line 1"),
    (51, f"* a comment\n{CARD} $ fast\n", "line 2"), (51, f"{CARD} ; fast\n", "line 1"),
    (51, "M1 d g s NMOS L=0.1U W=1U\n", "line 1"), (51, "M1 d g s b NMOS L=0.1U\n", "line 1"),
    (51, CARD.replace(" d ", " \\xor ") + "\n", "line 1"),
    (51, f"+ W=1U\n{CARD}\n", "line 1"),
    (51, "R1 a b 1k\n", "line 1"), (51, "R1 a b RES L=1U W=1U\n", "line 1"), (51, "D1 a b DN\n", "line 1"),
    (51, "Resistors\n", "line 1"), (51, "M1 d g s b \\x01N L=0.1U W=1U\n", "line 1"),
    (52, f"{CARD} SA=1U\n", "line 1"), (52, f"{CARD} M=0\n", "line 1"), (52, f"{CARD} M=1001\n", "line 1"),
    (52, "R1 a b s RES L=1U W=1U AS=1P\n", "line 1"), (52, "D1 a b DN A=1P P=4U L=1U\n", "line 1"),
    (52, ".SUBCKT A a\n.ENDS\nX1 n A M=2\n", "line 3"), (52, ".SUBCKT A a\n.ENDS\nX1 n A w=1U\n", "line 3"),
    (52, ".SUBCKT A a w=1U\n.ENDS\n", "line 1"),
    *[(53, f"M1 d g s b NMOS L=0.1U W={text}\n", "line 1 value 1")
      for text in ("wide", "-1U", "1mil", "1milli", "1e", "1u5", ".")],
    (53, "M1 d g s b NMOS L=0.1U W=2000\nM2 d g s b NMOS L=0.1U W=0.5F\n", "line 1 value 3"),
    (53, "M1 d g s b NMOS L=0.1U W='2*w'\n", "line 1 value 1"),
    (53, "M1 d g s b NMOS L=0.1U W=0.5F\n", "line 1 value 2"),
    (53, "M1 d g s b NMOS L=0.1U W=1001\n", "line 1 value 3"),
    (53, "D1 a b DN A=0.1E-24 P=4U\n", "line 1 value 2"), (53, "D1 a b DN A=1.1MEG P=4U\n", "line 1 value 3"),
    (54, ".SUBCKT A a\n", "line 1"), (41, "X1 a B\n", "line 1"),
    (42, ".SUBCKT A a\nX1 a A\n.ENDS\n", "circuit A"),
    (43, ".SUBCKT A a\n.ENDS\nX1 a b A\n", "line 3"), (43, ".SUBCKT A a\n.ENDS\nX1 a / A\n", "line 3"),
    (44, ".SUBCKT A a\n.ENDS\n.SUBCKT a b\n.ENDS\n", "line 3"),
]
TAKEN = ["", f"* a comment\n{CARD}\n", f"{CARD}\n+ AD=1P AS=1P\n", f"{CARD} M=1000\n",
         "R1 a b s RES L=1U W=1U M=2\n", "D1 a b DN P=4U A=1P\n", "D1 a b \\x02D A=1MEG P=0\n", "M1 d g s b N L=1 W=1\n",
         ".SUBCKT A a\n.ENDS\nX1 n A M=1\n", ".GLOBAL VDD\n", f"{CARD}\n.END\nnothing of this is read\n",
         *[f"M1 d g s b N L=1U W={text}\n" for text in ("1mi", "1me", "2.5e-07", "1E-6meter", "1000", "1f", "1.U")]]


def shapes(trials, layout, rules=RULES):
    return trials.run("shapes", trials.put("a.gds", layout), trials.put("a.lvs", rules), "out.gds")


def refused(trials, what, wanted, got):
    """The line, or its beginning where records are too many to be counted by hand; and no file is started."""
    status, line = got
    at = wanted[0] if isinstance(wanted, tuple) else wanted
    trials.expect(what, (2, at), (status, line[:len(at)] if isinstance(wanted, tuple) else line))
    trials.expect(f"{what}: no file", False, os.path.exists(trials.path("out.gds")))


def try_streams(trials):
    for code, what, make, place in STREAMS:
        wanted = f"refused layout {code} {place}" if place else (f"refused layout {code} record ",)
        refused(trials, what, wanted, shapes(trials, make()))
    trials.expect("bzip2", "refused layout 1 record 0 offset 0", shapes(trials, bz2.compress(bytes(999)))[1])
    for code, make, rules, place in CELLS:
        wanted = (f"refused layout {code} cell ",) if place is None else f"refused layout {code}{place}"
        refused(trials, f"cells, {code}", wanted, shapes(trials, make(), rules))


def try_texts(trials):
    layout = joined(cell("A", square(0, 0, 10, 10)))
    for code, rules, place in RULE_FILES:
        refused(trials, rules[-40:], f"refused rules {code} {place}", shapes(trials, layout, rules))
    for rules in RULES_TAKEN:
        trials.expect(f"taken: {rules[-40:]}", 0, shapes(trials, layout, rules)[0])
        os.remove(trials.path("out.gds"))
    trials.put("a.lvs", RULES)
    for code, text, place in SCHEMATICS:
        trials.put("a.cir", text)
        refused(trials, text, f"refused schematic {code} {place}", trials.compare("a.gds", "a.lvs", "a.cir")[:2])
    for text in TAKEN:
        trials.put("a.cir", text)
        trials.expect(f"taken: {text}", True, trials.compare("a.gds", "a.lvs", "a.cir")[0] in (0, 1))


def try_words(trials):
    layout = trials.put("a.gds", joined(cell("A", square(0, 0, 10, 10))))
    trials.put("a.lvs", RULES)
    extract = ("extract", "--layout", layout, "--rules", "a.lvs", "--shapes", "out.gds", "--netlist", "out.cir")
    os.mkdir(trials.path("folder"))
    with open(trials.path("long"), "wb") as file:
        file.truncate(268_435_457)
    for words, line in [
            (["--help"], "refused words"), (["shapes", "-a.gds", "a.lvs", "out.gds"], "refused words"),
            (["shapes", layout, "a.lvs", layout], "refused same a.gds"),
            (["shapes", layout, "no.lvs", "out.gds"], "refused absent no.lvs"),
            (["shapes", layout, "long", "out.gds"], "refused long long"),
            ([*extract, "--top", "a"], "refused layout 24")]:
        if os.path.exists(trials.path("out.gds")):
            os.remove(trials.path("out.gds"))
        refused(trials, " ".join(words), line, trials.run(*words))
    for words in [["shapes", "folder", "a.lvs", "out.gds"], ["shapes", layout, "a.lvs", "none/out.gds"],
                  ["shapes", layout, "a.lvs", "folder"], ["shapes", layout, "a.lvs", "/dev/full"]]:
        trials.expect(" ".join(words), (4, ""), trials.run(*words))
    with open("/dev/full", "wb") as full:
        trials.expect("a full standard output", 4, trials.run("shapes", layout, "a.lvs", "out.gds", out=full)[0])
    trials.expect("an empty rule file", 0, trials.run("shapes", layout, trials.put("empty", ""), "out.gds")[0])
    trials.expect("two names of one file", 0, trials.run("shapes", layout, "a.lvs", "./a.gds")[0])


def try_all(trials):
    text = tools.section(tools.document(DOCUMENT), "## Refusals by number")
    told = re.findall(r"^- \*\*(\d+)\*\*", text, re.M)
    tried = [str(row[0]) for row in [*STREAMS, *CELLS, *RULE_FILES, *SCHEMATICS]]
    trials.expect("the numbers that are told", sorted(set(tried), key=int), sorted(told, key=int))
    try_streams(trials)
    try_texts(trials)
    try_words(trials)
