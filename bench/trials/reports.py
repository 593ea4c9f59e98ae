"""docs/FROM_KLAYOUT.md, what a report says: the generated chip with one change each, and the rings of lvs_main."""
import os
import struct

import tools

DOCUMENT = "docs/FROM_KLAYOUT.md"
RINGS = os.path.join(tools.TOP, "crates", "lvs_rows", "data", "files")


def points(x1, y1, x2, y2):
    return struct.pack(">10i", x1, y1, x1, y2, x2, y2, x2, y1, x1, y1)


def drawn(trials, name, old, new):
    """The chip's layout with the first rectangle of these sides drawn otherwise."""
    with open(trials.path("chip.gds"), "rb") as file:
        return trials.put(name, file.read().replace(points(*old), points(*new), 1))


def unlabelled(trials, name, label):
    with open(trials.path("chip.gds"), "rb") as file:
        return trials.put(name, file.read().replace(b"\0\6\x19\6" + label, b"\0\4\x19\6"))


def written(trials, name, *changes):
    text = trials.text("chip.cir")
    for old, new in changes:
        assert old in text
        text = text.replace(old, new)
    return trials.put(name, text)


def told(report):
    """The report's lines without its tables of a match."""
    return [line for line in report[3:-2] if not line.startswith(("net ", "device ", "call "))]


def elements(data, name):
    """The bytes of a cell's elements."""
    start = data.index(tools.gds.rec(0x06, 6, tools.gds.string(name))) + 4 + len(tools.gds.string(name))
    return data[start:data.index(tools.gds.rec(0x07, 0), start)]


def label(x, y, text):
    return b"".join([tools.gds.rec(0x0C, 0), tools.number(0x0D, 5), tools.number(0x16, 1), tools.gds.xy([(x, y)]),
                     tools.gds.rec(0x19, 6, tools.gds.string(text)), tools.gds.rec(0x11, 0)])


def own_and_called(trials):
    """A cell with the two transistors of INV2 itself, and one placement of INV."""
    with open(trials.path("chip.gds"), "rb") as file:
        data = file.read()
    own = [elements(data, "INV2"), label(10, 1500, "IN"), label(1990, 1500, "OUT"), label(10, 2900, "VDD"),
           *tools.reference("INV", 1000)]
    return trials.put("own.gds", b"".join(tools.library(
        tools.cell("INV", [elements(data, "INV")]), tools.cell("TOP", own))))


OWN = """.SUBCKT TOP IN OUT VDD VSS
M1 N1 IN VDD VDD PMOS L=0.1U W=1U
M2 N1 IN VSS VSS NMOS L=0.1U W=1U
X1 N1 OUT VDD VSS NOT
.ENDS
.SUBCKT NOT A Y VDD VSS
M1 Y A VDD VDD PMOS L=0.1U W=1U
M2 Y A VSS VSS NMOS L=0.1U W=0.5U
.ENDS
"""


def cases(trials):
    chip = ("chip.gds", tools.in_place(trials), "chip.cir")
    width = ("W=0.5U", "W=0.6U")
    names, wide = ("INV", "NOT"), ("NMOS L=0.1U W=1U", "NMOS L=0.1U W=2U")
    pairs = trials.put("pairs.lvs", trials.text("place.lvs")
                       + 'same_circuits("INV", "NOT")\nsame_circuits("INV2", "NOT2")\n')
    many = "".join(line + "\n" for line in trials.text("few.lvs").split("\n") if "max_guesses" not in line)
    return [
        (drawn(trials, "bad.gds", (200, 300, 800, 800), (200, 300, 550, 800)), *chip[1:], 1,
         ["gate INV NMOS 450 300 groups-1", "pair INV INV differs",
          "round 0 of schematic device 2 layout 0 schematic 1", "pair INV2 INV2 match", "pair ROW0 ROW0 skipped INV",
          "pair TOP TOP skipped ROW0"], 3),
        (*chip[:2], written(trials, "width.cir", width), 1,
         ["pair INV INV differs", "round 0 of layout device 2 layout 1 schematic 0", "pair INV2 INV2 match",
          "pair ROW0 ROW0 skipped INV", "pair TOP TOP skipped ROW0"], 5),
        (unlabelled(trials, "label.gds", b"O0"), *chip[1:], 1,
         ["pair INV INV match", "pair INV2 INV2 match", "pair ROW0 ROW0 match", "pair TOP TOP differs",
          "round 0 of layout net 1 layout 3 schematic 4"], -1),
        (drawn(trials, "short.gds", (0, 1450, 420, 1550), (0, 1450, 1000, 1550)), *chip[1:], 1,
         ["pair INV INV differs", "round 0 of layout net 1 layout 3 schematic 4", "pair INV2 INV2 match",
          "pair ROW0 ROW0 differs", "round 0 of layout net 5 layout 1 schematic 2", "pair TOP TOP skipped ROW0"], 0),
        (drawn(trials, "off.gds", (640, 390, 720, 1870), (640, 390, 720, 1400)), *chip[1:], 1,
         ["pair INV INV differs", "round 0 of layout net 1 layout 3 schematic 4", "pair INV2 INV2 match",
          "pair ROW0 ROW0 skipped INV", "pair TOP TOP skipped ROW0"], 0),
        (drawn(trials, "open.gds", (640, 390, 720, 1870), (640, 900, 720, 1870)), *chip[1:], 1,
         ["pair INV INV differs", "round 0 of layout net 5 layout 1 schematic 0", "pair INV2 INV2 match",
          "pair ROW0 ROW0 skipped INV", "pair TOP TOP skipped ROW0"], 0),
        (*chip[:2], written(trials, "call.cir", ("N2 OUT VDD VSS INV2", "N2 OUT VDD VSS INV")), 1,
         ["pair INV INV match", "pair INV2 INV2 match", "pair ROW0 ROW0 differs",
          "round 0 of layout call 1 layout 1 schematic 2", "pair TOP TOP skipped ROW0"], 0),
        (*chip[:2], written(trials, "cross.cir", ("X2 N1 N2", "X2 N2 N1")), 1,
         ["pair INV INV match", "pair INV2 INV2 match", "pair ROW0 ROW0 differs",
          "round 1 of layout net 5 layout 1 schematic 0", "pair TOP TOP skipped ROW0"], 0),
        ("ring.gds", "few.lvs", "two.cir", 3,
         ["pair RING RING undecided", "guess 1 net 3 3 3", "guess 1 net 3 4 3", "guess 1 net 3 5 3"], 0),
        ("ring.gds", trials.put("many.lvs", many), "two.cir", 1,
         ["pair RING RING differs", *[f"guess 1 net 3 {k} 3" for k in range(3, 9)]], 0),
        (*chip[:2], written(trials, "not.cir", names), 0, ["pair ROW0 ROW0 match", "pair TOP TOP match"], 0),
        (*chip[:2], written(trials, "not2.cir", names, wide), 1,
         ["pair ROW0 ROW0 differs", "round 0 of layout device 4 layout 2 schematic 0", "pair TOP TOP skipped ROW0"], 2),
        (own_and_called(trials), chip[1], trials.put("own.cir", OWN), 0, ["pair TOP TOP match"], 0),
        ("own.gds", chip[1], trials.put("own2.cir", OWN.replace("W=0.5U", "W=0.7U")), 1,
         ["pair TOP TOP differs", "round 0 of layout device 4 layout 1 schematic 0"], 0),
        (chip[0], pairs, "not2.cir", 1,
         ["pair INV NOT match", "pair INV2 NOT2 differs", "round 0 of layout device 2 layout 1 schematic 0",
          "pair ROW0 ROW0 skipped INV2", "pair TOP TOP skipped ROW0"], -1),
    ]


def try_all(trials):
    text = tools.document(DOCUMENT)
    trials.expect("make", (0, "match cells 4 circuits 4 pairs 4 bad 0"), trials.run("make", "3", "1", "1", "chip"))
    for name in ("ring.gds", "few.lvs", "two.cir"):
        with open(os.path.join(RINGS, name), "rb") as file:
            trials.put(name, file.read())
    for layout, rules, schematic, wanted, lines, shown in cases(trials):
        status, _, report = trials.compare(layout, rules, schematic)
        trials.expect(f"{layout} {rules} {schematic}", (wanted, lines), (status, told(report)))
        # The first so many lines stand in the document as a block, or the pair that differs with its evidence.
        block = lines[:shown] if shown > 0 else lines[1:3] if "INV NOT" in lines[0] else []
        if block:
            trials.expect_said(text, "\n".join(block))
        for line in lines:
            if line.startswith("round ") and layout != "own.gds":
                trials.expect_said(text, line)
    try_numbers(trials)
    try_lines(trials, text)
    try_summaries(trials)
    try_causes(trials)


def with_line(trials, name, line):
    return trials.put(name, trials.text("place.lvs") + line + "\n")


def try_summaries(trials):
    """The lines of shapes and extract: rectangles in the cells, circuits, bad gates."""
    for layout, wanted in [("chip.gds", (0, "extracted cells 4 circuits 4 bad 0")),
                           ("bad.gds", (1, "extracted cells 4 circuits 4 bad 1"))]:
        words = ["extract", "--netlist=out.cir", "--shapes", "out.gds", "--rules", "chip.lvs", f"--layout={layout}"]
        trials.expect(" ".join(words), wanted, trials.run(*words))
        trials.expect("the same with workers", wanted, trials.run(*words, "--workers", "004", "--top", "TOP"))
    trials.expect("shapes", (0, "shapes cells 4 rectangles 8"), trials.run("shapes", "chip.gds", "chip.lvs", "out.gds"))


# The device line's braces, by the layers of examples/mos.lvs and a layer that nothing is drawn on; and the cause.
CAUSES = [
    ('"SD" => sd, "G" => gate, "W" => bulk, "tG" => none', "off-gate"),
    ('"SD" => sd, "G" => gate, "W" => bulk, "tG" => poly, "tS" => none, "tD" => none', "off-sd"),
    ('"SD" => sd, "G" => gate, "W" => none, "tG" => poly', "no-bulk"),
    ('"SD" => none, "G" => gate, "W" => bulk, "tG" => poly', "groups-0"),
]


def try_causes(trials):
    """Each cause of a bad gate that docs/FORMATS.md names, but for `groups-1` above."""
    text = tools.document("docs/FORMATS.md")
    with open(os.path.join(tools.TOP, "examples", "mos.gds"), "rb") as file:
        trials.put("mos.gds", file.read())
    rules = tools.document("examples/mos.lvs")
    none = "none = input(9, 0)\nconnect(none, metal)\n"
    words = ["extract", "--layout", "mos.gds", "--rules", "cause.lvs", "--shapes", "out.gds", "--netlist", "out.cir"]
    empty = trials.put("empty.cir", ".SUBCKT MOS VSS\n.ENDS\n")
    for braces, cause in CAUSES:
        start = rules[:rules.index("extract_devices")]
        trials.put("cause.lvs", start + none + 'extract_devices(mos4("NMOS"), { ' + braces + " })\n")
        trials.expect(cause, (1, "extracted cells 1 circuits 1 bad 1"), trials.run(*words))
        trials.compare("mos.gds", "cause.lvs", empty)
        trials.expect(cause, f"gate MOS NMOS 250 0 {cause}", trials.text("out.txt").split("\n")[3])
    ring = [tools.square(10, 10, 40, 20, 2), tools.square(10, 30, 40, 40, 2), tools.square(10, 20, 20, 30, 2),
            tools.square(30, 20, 40, 30, 2)]
    shapes = tools.square(0, 0, 50, 50) + [record for one in ring for record in one]
    trials.put("ring.gds", b"".join(tools.library(tools.cell("RING", shapes))))
    trials.compare("ring.gds", trials.put("mos.lvs", rules), empty)
    trials.expect("no-length", "gate RING NMOS 10 10 no-length", trials.text("out.txt").split("\n")[3])
    for cause in ("off-gate", "off-sd", "no-bulk", "groups-N", "no-length"):
        trials.expect_said(text, f"| `{cause}` |")


def try_lines(trials, text):
    """Exchanged labels by `same_pins`, a wrong width by `flatten_unmatched`."""
    with open(trials.path("chip.gds"), "rb") as file:
        data = file.read()
    mark = b"\0\6\x19\6"
    for old, new in [(b"I0", b"??"), (b"O0", b"I0"), (b"??", b"O0")]:
        data = data.replace(mark + old, mark + new)
    trials.put("swapped.gds", data)
    trials.expect("exchanged labels", 0, trials.compare("swapped.gds", "place.lvs", "chip.cir")[0])
    pins = with_line(trials, "pins.lvs", "same_pins")
    trials.expect("by same_pins", 1, trials.compare("swapped.gds", pins, "chip.cir")[0])
    trials.expect("the right chip by same_pins", 0, trials.compare("chip.gds", pins, "chip.cir")[0])
    trials.expect("a width by flatten_unmatched",
                  (1, ["apart INV INV differs", "round 0 of layout device 2 layout 1 schematic 0"]),
                  (trials.compare("chip.gds", "chip.lvs", "width.cir")[0], told(trials.text("out.txt").split("\n"))[:2]))
    trials.expect_said(text, "apart INV INV differs round 0 of layout device 2 layout 1 schematic 0")


def joined_nodes(trials, layout, schematic):
    trials.compare(layout, "place.lvs", schematic)
    block = trials.text("out.txt").split("pair ROW0 ROW0 match\n")[-1].split("pair ")[0].split("\n")
    return [line for line in block if line.startswith(("device ", "call "))]


def try_numbers(trials):
    six = [f"device {k} {k}" for k in range(1, 7)]
    trials.expect("six transistors", six, joined_nodes(trials, "chip.gds", "not.cir"))
    alone = written(trials, "alone.cir", (".SUBCKT INV ", ".SUBCKT NOT "), (" INV\n", " NOT\n"))
    trials.expect("one flattened call of three", ["device 1 1", "device 2 2", "call 1 1", "call 2 2"],
                  joined_nodes(trials, "chip.gds", alone))
