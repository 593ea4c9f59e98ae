#!/usr/bin/env python3
"""Random inputs: `gen.py SEED OUTDIR [COMMAND] [FAULTY]`.

Writes l.gds, r.lvs, c.cir and `words` (one word per line) into OUTDIR.  COMMAND is shapes,
extract, run, any (one of these three) or make.  FAULTY is layout,
rules, schematic, words or any: that input gets a fault.
"""

import os
import random
import sys

import cli
import selections
from circuits import Extracted
from genlayout import Maker, placements
from gentext import RuleMaker, SchematicMaker, flatten_lines, same_lines

MOST_PATHS = 120
EMPTY = b".SUBCKT TOP A B\nM1 A B A B NMOS L=1U W=2U\n.ENDS\n"

RULE_LINES = [b"a.width(10)", b"poly = input(1, 0)", b"x = in1 & zz", b"x = txt & txt", b"foo",
              b"foo = 3", b"foo => b", b"q.output(10, 0)", b"in1.output(10, 0)", b"'x' = 3",
              b"connect(txt, txt)", b"connect(in1, in2)", b"connect_global(txt, 'A')",
              b"connect_global(in1, '')", b"same_circuits('A', 'b')", b"max_guesses(0)",
              b"max_guesses(1)", b"max_guesses(1000001)", b"z = input(65536, 0)", b"deep()",
              b"z = input(00000001, 0)", b"z = input(0000001, 0)", b"input = input(1, 0)",
              b"deep.output(1, 0)", b"w = in1 - in1 #", b"w = polygon_layer # x", b"schematic(x)",
              b"schematic(\"x'\")", b"z = labels(1)", b"\tz = labels(5 , 1)", b"Z = input(1, 0)",
              b"z\xe9 = input(1, 0)", b"# \xe9", b"in1.output(3, 0) x",
              b"a" * 65 + b" = input(1, 0)",
              b"foo.outputs(1, 0)", b"foo.output", b"_ = input(9, 9)", b"in1 . output ( 70, 7 )",
              b"combine_devices", b"s = in1.sized(3)", b"s = in1.sized(-0)", b"s=in1.sized(- 12)",
              b"extract_devices(mos4('NMOS'), { 'SD' => in1, 'G' => in2, 'W' => in3 })",
              b"extract_devices(diode('D'), { 'P' => in1, 'N' => in2 })", b"mos4('X')",
              b"netlist.flatten_circuit('A')", b"schematic . flatten_circuit ( \"a\" ) # x",
              b"netlist.flatten_circuit('A*')", b"schematic.flatten_circuit('[')",
              b"netlist.flatten_circuit('A', 'B')", b"netlist.flatten_circuit(in1)",
              b"netlist.flatten_circuit('')", b"deep.flatten_circuit('A')",
              b"flatten_unmatched", b"flatten_unmatched x", b"flatten_unmatched = input(1, 0)",
              b"same_pins", b"same_pins()", b"same_pins = in1 & in1",
              b"keep_covered", b"keep_covered()", b"keep_covered = in1 & in1",
              b"flatten_circuit('A')", b"flatten_circuit = input(9, 1)",
              b"s = in1.interacting(in2)", b"s = in1.not_outside(in1) # x", b"s = in1.inside(zz)",
              b"s = txt.overlapping(txt)", b"s = in1.interacting(in2, 2)", b"s = in1.covering(in2)",
              b"s = in1.with_area(0, nil)", b"s=in1 . without_area( nil,123456789012345678 )",
              b"s = in1.with_area(nil)", b"s = in1.with_area(nil, nil)", b"s = in1.with_area(0.5)",
              b"s = in1.with_area(1234567890123456789)", b"in1 = in1.inside(in2)",
              b"s = in1.not_with_area(3)", b"s = in1.inside(in2) & in1", b"inside = in1.inside(in1)",
              b"netlist.output(1, 0)", b"schematic.flatten_circuit('b') x",
              b"x = in1 & input", b"in1 = in1 & in1", b"x = in1 &", b"x = & in1", b"x == in1"]
SPICE_LINES = [b"m1 a b c d n l=1u w=1u", b"M a b c d n l=1u w=1mil", b"x1 a b", b"x1",
               b"q1 a b c", b"+", b" + x", b"+ l=1", b".ends", b".subckt a b b", b".subckt b=1",
               b".subckt=x", b"m1=3 a b c d n l=1u w=1u", b"m1 a b c d n l=1u w=1u m=2",
               b"m1 a b c d n l=1u w=1u ad=", b"m1 a b c d n l=1u w=1u zz=1", b".global",
               b".global a\\", b".global vss a", b".end", b".end x", b".include 'x'", b".model",
               b".options a=b", b"m1 a b c d n l=0.1f w=-1", b"m1 a b c d n w=5t l=1u",
               b"m1 a\\x4z b c d n l=1u w=1u", b"m1 a\\=b b c d n l = 1u w= 1u", b"=", b"\r",
               b".subckt q w=1 x", b".subckt q w=1", b"x1 top", b"x9 a a top", b"X1 .top",
               b"r1 a b c res l=1u w=2u", b"r1 a b res l=1u w=1u", b"d1 a b dio a=1p p=2u m=3",
               b"m1 a b c d \\x01n l=1u w=1u", b"m1 a b c d n \\l=1u w=1u l=1u",
               b"m1 a b c d n l=1u w=1u m=1 m=0", b".ENDS \\x", b".MODEL=1", b"*", b".subckt .TOP",
               b".ends\n.subckt top\n.ends\n.subckt q", b"x1 top\n.ends\n.subckt top\n.ends"]
WORD_FAULTS = ["--workers", "--workers=0", "--workers=65", "--workers=0064", "--top=", "--top=-a",
               "--layout=x", "x", "", "-", "--", "--workers=+1", "--workers= 1", "--shapes=l.gds",
               "--netlist=q", "--top", "--layout=none.gds", "--rules=c.cir", "--TOP=a", "--top=TOP"]


def damaged_bytes(rng, data, pieces):
    """A text or stream with one fault."""
    if not data:
        return rng.choice(pieces)
    place = rng.randrange(len(data))
    kind = rng.randrange(8)
    if kind == 0:
        return data[:place]
    if kind == 1:
        return data[:place] + bytes([rng.randrange(256)]) + data[place + 1:]
    if kind == 2:
        return data[:place] + data[place + 1:]
    lines = data.split(b"\n")
    line = rng.randrange(len(lines))
    if kind == 3:
        del lines[line]
    elif kind == 4:
        lines.insert(rng.randrange(len(lines) + 1), lines[line])
    elif kind == 5 and len(lines) > 1:
        other = rng.randrange(len(lines))
        lines[line], lines[other] = lines[other], lines[line]
    else:
        lines.insert(line, rng.choice(pieces))
    return b"\n".join(lines)


def records_of(data):
    """The whole records of a stream."""
    out, place = [], 0
    while place < len(data):
        size = int.from_bytes(data[place:place + 2], "big")
        out.append(data[place:place + size])
        place += size
    return out


def damaged_stream(rng, data):
    """A stream with one fault."""
    records = records_of(data)
    place = rng.randrange(len(records))
    record, kind = records[place], rng.randrange(9)
    if kind == 0:
        cut = rng.randrange(len(data))
        return data[:cut]
    if kind == 1:
        cut = rng.randrange(len(data))
        return data[:cut] + bytes([rng.randrange(256)]) + data[cut + 1:]
    if kind == 2:
        del records[place]
    elif kind == 3:
        records.insert(place, record)
    elif kind == 4:
        other = rng.randrange(len(records))
        records[place], records[other] = records[other], records[place]
    elif kind == 5:
        records.insert(rng.randrange(len(records)), record)
    elif kind == 6:
        at = rng.choice([2, 3])
        records[place] = record[:at] + bytes([rng.randrange(0x3A)]) + record[at + 1:]
    elif kind == 7 and len(record) > 4:
        at = rng.randrange(4, len(record))
        value = rng.choice([0, 1, 2, 3, 6, 0x80, 0xFF, record[at] ^ 1])
        records[place] = record[:at] + bytes([value]) + record[at + 1:]
    else:
        longer = record[4:-2] if rng.random() < 0.5 else record[4:] + b"\0\2"
        records[place] = (len(longer) + 4).to_bytes(2, "big") + record[2:4] + longer
    return b"".join(records)


def words_of(rng, command, top):
    """The words of a command over the files of this directory."""
    if command == "shapes":
        return ["shapes", "l.gds", "r.lvs", "s.gds"]
    options = [("layout", "l.gds"), ("rules", "r.lvs"), ("shapes", "s.gds"), ("netlist", "n.cir")]
    if command == "run":
        options += [("schematic", "c.cir"), ("report", "p.txt")]
    if top:
        options.append(("top", top))
    if rng.random() < 0.5:
        options.append(("workers", str(rng.choice([1, 2, 3, 8]))))
    rng.shuffle(options)
    words = [command]
    for name, value in options:
        words += ["--%s=%s" % (name, value)] if rng.random() < 0.5 else ["--" + name, value]
    return words


def damaged_words(rng, words):
    """Words with one fault or change."""
    words = list(words)
    place = rng.randrange(len(words))
    kind = rng.randrange(7)
    if kind == 0:
        del words[place]
    elif kind == 1:
        words.insert(place, words[rng.randrange(len(words))])
    elif kind == 2:
        words.insert(rng.randrange(1, len(words) + 1), rng.choice(WORD_FAULTS))
    elif kind == 3:
        words[place] = rng.choice(WORD_FAULTS)
    elif words[0] != "make":
        files = ["l.gds", "r.lvs", "c.cir", "s.gds", "n.cir", "p.txt"]
        paths = [k for k, w in enumerate(words) if w.partition("=")[2] in files or w in files]
        place = rng.choice(paths)
        name, equals, _ = words[place].rpartition("=")
        words[place] = name + equals + rng.choice(files + ["none", "n o\u00e9.x"])
    return words


def _paths_fit(data, tops):
    return all(placements(data, top) <= MOST_PATHS for top in tops)


def generate(seed, command="any", faulty=None, covered=False, selected=False):
    """The words and the files of one case; `covered`: its rules have `keep_covered`, `selected`:
    they choose regions."""
    rng = random.Random("%s/%s/%s" % (seed, command, faulty))
    if command == "any":
        command = rng.choice(["shapes", "extract", "run", "run"])
    if command == "make":
        words = ["make", str(rng.choice([1, 2, 3, 5, 8, 13])), str(rng.randrange(2 ** 64)),
                 str(rng.randint(1, 9)), "p"]
        return damaged_words(rng, words) if faulty else words, {}
    if faulty == "any":
        faulty = rng.choice(["layout", "rules", "schematic", "words"])
    devices = command != "shapes" or rng.random() < 0.2
    maker, rules = Maker(rng, devices), RuleMaker(rng)
    model = None            # another layout for the schematic
    if command == "run" and rng.random() < 0.2:
        model = _rings(rng, maker, rules)
    else:
        maker.make()
        spread = random.Random("far/%s" % seed)
        if spread.random() < 0.2:
            maker.spread(spread)
        (rules.devices if devices else rules.layers)()
    keeping = random.Random("covered/%s" % seed)
    if covered or keeping.random() < 0.3:
        maker.share(keeping)
        rules.lines.insert(keeping.randint(0, len(rules.lines)), b"keep_covered")
    choosing = random.Random("selected/%s" % seed)
    if selected or choosing.random() < 0.2:
        rules.choose(choosing)
    stream, top = maker.stream(), None
    plain = all(32 < b < 127 for b in maker.cells[-1].name)
    if command != "shapes" and plain and (len(maker.unplaced()) > 1 or rng.random() < 0.2):
        top = maker.cells[-1].name.decode()
    schematic = EMPTY
    if command == "run":
        schematic = _schematic(rng, model or stream, top, rules)
    if rng.random() < 0.4:
        rules.lines.append(b"max_guesses(%d)" % rng.choice([1, 2, 3, 5, 20]))
    rule_text = rules.text()
    words = words_of(rng, command, top)
    if faulty == "rules":
        rule_text = damaged_bytes(rng, rule_text, RULE_LINES)
    elif faulty == "schematic":
        schematic = damaged_bytes(rng, schematic, SPICE_LINES)
    elif faulty == "words":
        words = damaged_words(rng, words)
    elif faulty == "layout":
        good = stream
        tops = [None] if top is None else [None, top.encode()]
        stream = damaged_stream(rng, good)
        while not _paths_fit(stream, tops):
            stream = damaged_stream(rng, good)
    return words, {"l.gds": stream, "r.lvs": rule_text, "c.cir": schematic}


RING_SIZES = [(6,), (3, 3), (4, 2), (2, 2, 2), (5, 1), (4,), (2, 2), (3, 1), (1, 1, 2), (5, 2),
              (7,), (4, 3), (3, 2, 2)]


def _rings(rng, maker, rules):
    """A layout of rings, and another that often has as many transistors in other rings."""
    sizes = rng.choice(RING_SIZES)
    alike = [s for s in RING_SIZES if sum(s) == sum(sizes)]
    again = rng.choice(alike) if rng.random() < 0.8 else sizes
    other = Maker(rng, True)
    state = rng.getstate()
    maker.rings(sizes)
    after = rng.getstate()
    rng.setstate(state)
    other.scale = maker.scale
    other.rings(again)
    rng.setstate(after)
    rules.plain()
    return other.stream()


def _schematic(rng, stream, top, rules):
    """A schematic for the layout, right or damaged; `rules` gets the pairs of names."""
    top = None if top is None else top.encode()
    try:
        design = cli.take_layout(stream, top)
        rule_set = cli.take_rules(b"\n".join(rules.lines))
    except cli.Refused:
        return EMPTY
    selections.stage(design, rule_set)
    circuits = Extracted(design, rule_set).circuits
    maker = SchematicMaker(rng, circuits)
    while rng.random() < (0.1 if rules.lines[0].startswith(b"active") else 0.4):
        maker.damage(rng.choice(maker.DAMAGES))
    text = maker.text()
    rules.lines += same_lines(maker.same) + flatten_lines(rng, maker)
    return text


def main(words):
    """Writes one case into a directory."""
    seed, directory = words[0], words[1]
    command = words[2] if len(words) > 2 else "any"
    faulty = words[3] if len(words) > 3 else None
    os.makedirs(directory, exist_ok=True)
    command_words, files = generate(seed, command, faulty)
    files["words"] = "\n".join(command_words).encode()
    for name, data in files.items():
        with open(os.path.join(directory, name), "wb") as file:
            file.write(data)


if __name__ == "__main__":
    main(sys.argv[1:])
