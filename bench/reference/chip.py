"""A chip of inverters from a number: its stream, its rules and its schematic."""

import gds
from layout import rectangle_records, reference_records, short, xy

UNITS = bytes.fromhex("3E4189374BC6A7F0" "3944B82FA09B5A54")
PLAIN = b"""nwell = input(1, 0)
active = input(2, 0)
poly = input(3, 0)
contact = input(4, 0)
metal = input(5, 0)
tie = input(6, 0)
txt = labels(5, 1)
bulk = polygon_layer
pactive = active & nwell
nactive = active - nwell
pgate = pactive & poly
ngate = nactive & poly
psd = pactive - poly
nsd = nactive - poly
ptie = tie - nwell
ntie = tie & nwell
extract_devices(mos4("PMOS"), { "SD" => psd, "G" => pgate, "W" => nwell, "tG" => poly })
extract_devices(mos4("NMOS"), { "SD" => nsd, "G" => ngate, "W" => bulk, "tG" => poly })
connect(psd, contact)
connect(nsd, contact)
connect(poly, contact)
connect(ptie, contact)
connect(ntie, contact)
connect(ntie, nwell)
connect(contact, metal)
connect(metal, txt)
connect_global(bulk, "VSS")
connect_global(ptie, "VSS")
psd.output(10, 0)
nsd.output(11, 0)
"""
RULES = PLAIN + b"keep_covered\nflatten_unmatched\n"

INVERTER = [
    (1, (0, 1500, 1000, 3000)),
    (2, (200, 300, 800, 800)), (2, (200, 1700, 800, 2700)),
    (3, (450, 100, 550, 2900)), (3, (300, 1450, 450, 1550)),
    (4, (80, 70, 140, 130)), (4, (260, 400, 320, 460)), (4, (650, 400, 710, 460)),
    (4, (320, 1470, 400, 1530)), (4, (650, 1800, 710, 1860)), (4, (260, 2500, 320, 2560)),
    (4, (80, 2870, 140, 2930)),
    (5, (0, 0, 1000, 200)), (5, (250, 0, 330, 470)), (5, (640, 390, 720, 1870)),
    (5, (0, 1450, 420, 1550)), (5, (640, 1450, 1000, 1550)), (5, (250, 2490, 330, 3000)),
    (5, (0, 2800, 1000, 3000)),
    (6, (50, 50, 200, 150)), (6, (50, 2850, 200, 2950)),
]


def cell_records(name, shapes, texts, refs):
    """The records of a cell with zero dates; shapes and texts lie on fixed layers."""
    rec = gds.record
    out = [rec(gds.BGNSTR, bytes(24)), rec(gds.STRNAME, name)]
    for layer, rect in shapes:
        out += rectangle_records((layer, 0), rect)
    for text, at in texts:
        out += [rec(gds.TEXT), rec(gds.LAYER, short(5)), rec(gds.TEXTTYPE, short(1)), xy(at),
                rec(gds.STRING, text), rec(gds.ENDEL)]
    for cell, at in refs:
        out += reference_records(gds.Ref(cell, (False, 0), at, 1, 1, (0, 0), (0, 0)))
    return out + [rec(gds.ENDSTR)]


def make(count, seed):
    """The three files of a chip of so many inverters."""
    kinds, number = [], seed
    for _ in range(count):
        number = (number * 6364136223846793005 + 1442695040888963407) % 2 ** 64
        kinds.append(b"INV2" if number >> 63 else b"INV")
    rows = [kinds[k:k + 100] for k in range(0, count, 100)]
    return _stream(rows), RULES, _schematic(rows)


def _stream(rows):
    rec = gds.record
    out = [rec(gds.HEADER, short(600)), rec(gds.BGNLIB, bytes(24)), rec(gds.LIBNAME, b"CHIP"),
           rec(gds.UNITS, UNITS)]
    double = [(2, (200, 300, 800, 1300)) if k == 1 else shape
              for k, shape in enumerate(INVERTER)]
    out += cell_records(b"INV", INVERTER, [], [])
    out += cell_records(b"INV2", double, [], [])
    for i, row in enumerate(rows):
        texts = [(b"IN", (10, 1500)), (b"OUT", (1000 * len(row) - 10, 1500)),
                 (b"VDD", (10, 2900))]
        out += cell_records(b"ROW%d" % i, [], texts,
                            [(kind, (1000 * j, 0)) for j, kind in enumerate(row)])
    shapes = [(5, (-300, 2800, -100, 4000 * (len(rows) - 1) + 3000))]
    texts, refs = [(b"VDD", (-200, 2900))], []
    for i, row in enumerate(rows):
        base = 4000 * i
        shapes.append((5, (-300, base + 2800, 0, base + 3000)))
        texts.append((b"I%d" % i, (10, base + 1500)))
        texts.append((b"O%d" % i, (1000 * len(row) - 10, base + 1500)))
        refs.append((b"ROW%d" % i, (0, base)))
    out += cell_records(b"TOP", shapes, texts, refs)
    out.append(rec(gds.ENDLIB))
    return b"".join(out)


def _schematic(rows):
    lines = []
    for name, width in ((b"INV", b"0.5U"), (b"INV2", b"1U")):
        lines += [b".SUBCKT %s A Y VDD VSS" % name,
                  b"M1 Y A VDD VDD PMOS L=0.1U W=1U",
                  b"M2 Y A VSS VSS NMOS L=0.1U W=%s" % width,
                  b".ENDS %s" % name]
    for i, row in enumerate(rows):
        lines.append(b".SUBCKT ROW%d IN OUT VDD VSS" % i)
        for j, kind in enumerate(row, 1):
            before = b"IN" if j == 1 else b"N%d" % (j - 1)
            after = b"OUT" if j == len(row) else b"N%d" % j
            lines.append(b"X%d %s %s VDD VSS %s" % (j, before, after, kind))
        lines.append(b".ENDS ROW%d" % i)
    pins = b" ".join(b"I%d O%d" % (i, i) for i in range(len(rows)))
    lines.append(b".SUBCKT TOP %s VDD VSS" % pins)
    for i in range(len(rows)):
        lines.append(b"X%d I%d O%d VDD VSS ROW%d" % (i + 1, i, i, i))
    lines += [b".ENDS TOP", b".END"]
    return b"".join(line + b"\n" for line in lines)
