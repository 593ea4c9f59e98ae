#!/usr/bin/env python3
"""Databases as KLayout reads them: bench/view/compare.py LVS LVS_MAIN [--designs COUNT SEED] [--planted] [--keep DIR]

Wants KLayout (apt-get install klayout). LVS_MAIN writes the netlist and the report of each case, LVS its database by `view`, KLayout reads the
database, and what it read must be the netlist's circuits, nets, pins, devices and calls, the schematic's too, and the report's partners;
the page must have a line for each node that isn't its partner's like, and no other node's.
Of small layouts the boxes of the circuits, the places of calls, the rectangles of each net with all calls below and the regions of the
devices are those that the independent implementation finds (wanted.py). The cases are generated chips, the example, the layouts of
layouts.py, and of each of these a wrong size, a lost device, exchanged pins, and a top without a partner, each also with
`flatten_unmatched`; with --planted each error of bench/planted; with --designs COUNT generated designs from SEED on. Of circuits in which
others were flattened the nets of their own cells and the regions of all devices are compared. Exits with 1 where something differs.
"""
import argparse
import collections
import os
import re
import shutil
import struct
import subprocess
import sys
import tempfile

HERE = os.path.dirname(os.path.abspath(__file__))
sys.path[:0] = [os.path.join(HERE, "..", "reference")]
import gen
import spice
import wanted
from layouts import LAYOUTS
from names import unescape
from netlist import DIODE, RESISTOR

# `files` by ending: gds, lvs, cir; `small`: whether the independent implementation can work it
Case = collections.namedtuple("Case", "name files top small")


def put(prefix, files):
    for end, data in files.items():
        with open(prefix + "." + end, "wb") as file:
            file.write(data)


def get(prefix, *ends):
    return {end: open(prefix + "." + end, "rb").read() for end in ends}


def run(program, words):
    return subprocess.run([program] + words, stdout=subprocess.PIPE, stderr=subprocess.DEVNULL)


def cases(lvs, folder):
    """The right cases."""
    chip, drawn = os.path.join(folder, "chip"), os.path.join(folder, "drawn")
    for n in (4, 100):
        run(lvs, ["make", str(n), "1", "1", chip])
        files = get(chip, "gds", "lvs", "cir")
        files["lvs"] = files["lvs"].replace(b"flatten_unmatched\n", b"")
        yield Case("chip of %d" % n, files, "TOP", n == 4)
    yield Case("example", get(os.path.join(HERE, "..", "..", "examples", "mos"), "gds", "lvs", "cir"), None, True)
    for name, made, rules in LAYOUTS:
        put(drawn, {"gds": made(), "lvs": rules})
        told = run(lvs, ["extract", "--layout", drawn + ".gds", "--rules", drawn + ".lvs", "--shapes", drawn + ".out", "--netlist", drawn + ".cir"])
        if told.returncode:
            sys.exit("%s: %s" % (name, told.stdout.decode("latin-1")))
        yield Case(name, get(drawn, "gds", "lvs", "cir"), None, True)


def with_errors(case):
    """The case, and with each error, where it has a place for it; both also taken apart."""
    for error in [None] + ERRORS:
        text = case.files["cir"] if error is None else changed(case.files["cir"], error)
        if text is not None:
            name = case.name + (", " + error if error else "")
            yield case._replace(name=name, files=dict(case.files, cir=text))
            if error:
                rules = case.files["lvs"] + b"\nflatten_unmatched\n"
                yield case._replace(name=name + ", apart", files=dict(case.files, cir=text, lvs=rules))


def planted(lvs, folder):
    """The errors of bench/planted."""
    kept = os.path.join(folder, "planted")
    told = run(os.path.join(HERE, "..", "planted"), ["--keep", kept, lvs]).stdout.decode("latin-1")
    for k, line in enumerate(row for row in told.split("\n") if row.startswith("| ")):
        yield Case(line.split("|")[1].strip(), get(os.path.join(kept, "e%d" % k), "gds", "lvs", "cir"), "tiny", False)


def positive(stream):
    """The stream with positive path widths: a negative one means the same where nothing is magnified, but KLayout 0.28 turns extensions round."""
    out, at = bytearray(stream), 0
    while at + 4 <= len(out):
        size, kind = struct.unpack(">HB", out[at:at + 3])
        if kind == 0x0F:
            out[at + 4:at + 8] = struct.pack(">i", abs(struct.unpack(">i", out[at + 4:at + 8])[0]))
        at += max(size, 4)
    return bytes(out)


def designs(count, seed0):
    """Generated designs."""
    for seed in range(seed0, seed0 + count):
        words, files = gen.generate(seed, "run")
        top = words[words.index("--top") + 1] if "--top" in words else None
        yield Case("design %d" % seed, {"gds": files["l.gds"], "lvs": files["r.lvs"], "cir": files["c.cir"]}, top, True)


ERRORS = ["wrong size", "lost device", "exchanged pins", "no partner"]


def changed(text, error):
    """The schematic with an error, or None where it has no place for it."""
    lines = text.split(b"\n")
    start = {"exchanged pins": b"X", "no partner": b".SUBCKT"}.get(error, (b"M", b"R", b"D"))
    at = [k for k, line in enumerate(lines) if line.startswith(start)]
    if not at:
        return None
    words = lines[at[-1]].split()
    if error == "wrong size":
        lines[at[-1]] = re.sub(rb"(W|A)=\S+([UP])", rb"\1=7\2", lines[at[-1]])
    elif error == "lost device":
        del lines[at[-1]]
    elif error == "exchanged pins":
        if len(words) < 4 or words[1] == words[2]:
            return None
        words[1], words[2] = words[2], words[1]
        lines[at[-1]] = b" ".join(words)
    else:
        lines = [b".SUBCKT ONE_ELSE A", b".ENDS", b".SUBCKT TWO_ELSE A", b".ENDS", b".END", b""]
    return b"\n".join(lines)


STATUS = {"match": "Match", "differs": "NoMatch", "undecided": "Skipped", "skipped": "Skipped"}


def device(d):
    """Its class, its two sizes in (square) micrometres, and the nets of KLayout's terminals: S G D B, of a resistor A B W, of a diode A C."""
    name, first, second, nets = d.device_class, d.length / 1e9, d.width / 1e9, (d.source, d.gate, d.drain, d.bulk)
    if name[:1] == RESISTOR:
        name, nets = b"resistor." + name[1:], (d.source, d.drain, d.bulk)
    elif name[:1] == DIODE:
        name, first, second, nets = b"diode." + name[1:], d.width / 1e12, d.length / 1e9, (d.source, d.gate)
    return name.hex(), "%.9g" % first, "%.9g" % second, [str(n + 1) for n in nets]


def plain(circuit, name):
    """A circuit of the reference as read_text has one."""
    return {
        "nets": [n.hex() or "-" for n in circuit.nets],
        "pins": [str(n + 1) for n in circuit.pins],
        "devices": [device(d) for d in circuit.devices],
        "calls": [(name(call.circuit), [str(n + 1) for n in call.nets]) for call in circuit.calls],
    }


def read_text(text):
    """What read_back.rb printed, by database."""
    found, now, circuit, pair = {}, None, None, None
    for line in text.split("\n"):
        w = line.split()
        kind = w[0] if w else ""
        if kind == "database":
            now = found[w[1]] = {"J": {}, "H": {}, "pairs": {}}
        elif kind == "failed":
            found[w[1]] = line
        elif kind == "circuit":
            circuit = now[w[1]][w[2]] = {"box": w[3], "turns": [], "shapes": [], "regions": [], "nets": [], "pins": [], "devices": [], "calls": []}
        elif kind == "drawn":
            circuit = now["J"][w[1]]
        elif kind == "net":
            circuit["nets"].append(w[2])
        elif kind == "pin":
            circuit["pins"].append(w[3])
        elif kind == "device":
            circuit["devices"].append((w[2], "%.9g" % float(w[3]), "%.9g" % float(w[4]), w[5:]))
        elif kind == "call":
            circuit["calls"].append((w[2], w[4:]))
            circuit["turns"].append(w[3])
        elif kind == "pair":
            pair = now["pairs"][w[1].lower(), w[2].lower()] = {"status": w[3], "N": [], "P": [], "D": [], "X": []}
        elif kind in ("N", "P", "D", "X"):
            pair[kind].append((w[1], w[2], w[3]))
        elif kind == "shapes":
            circuit["shapes"].append(w[2:])
        elif kind == "region":
            circuit["regions"].append(w[2])
    return found


def read_report(text):
    """The pairs of a report: names in hexadecimal, answer, partners."""
    pairs = []
    for line in text.split(b"\n"):
        w = line.split(b" ")
        if w[0] == b"pair":
            pairs.append({"names": (unescape(w[1]).hex(), unescape(w[2]).hex()), "answer": w[3].decode(), "net": [], "device": [], "call": []})
        elif w[0] in (b"net", b"device", b"call") and pairs:
            pairs[-1][w[0].decode()].append((w[1].decode(), w[2].decode()))
    return pairs


def folded(key):
    return bytes.fromhex(key).upper().hex()


def once(rows, side, count, first):
    """Each node of a side stands in one row."""
    return sorted(int(r[side]) for r in rows if r[side] != "-") == list(range(first, first + count))


def same(shown, circuit, whole):
    """Whether a circuit is as a netlist has it; where nets that hold nothing may be dropped, its devices and what it calls."""
    if whole:
        return all(shown[word] == circuit[word] for word in circuit)
    return ([d[:3] for d in shown["devices"]] == [d[:3] for d in circuit["devices"]]
            and [c[0] for c in shown["calls"]] == [c[0] for c in circuit["calls"]])


def check_circuits(read, side, text, told, whole):
    """What differs between the circuits of a side and those of a netlist's text, of which the report pairs those that aren't flattened."""
    circuits = spice.read_spice(text)
    shown = {folded(key): key for key in read[side]}
    names = [c.name.upper().hex() for c in circuits]
    wanted = [folded(p["names"]["JH".index(side)]) for p in told] or names
    if sorted(wanted) != sorted(shown):
        return ["circuits of %s: %s" % (side, sorted(set(wanted) ^ set(shown)))]
    if sorted(wanted) != sorted(names):
        return []
    return ["circuit %s of %s" % (circuits[k].name.decode("latin-1"), side) for k in range(len(circuits))
            if not same(read[side][shown[names[k]]], plain(circuits[k], lambda n: shown[names[n]]), whole)]


def check_pair(read, told, number):
    """What differs between a pair and what the report says of it; a circuit of the layout goes by its cell's name, so by its place."""
    lefts = list(read["J"])
    sides = [lefts[number] if number < len(lefts) else None,
             next((key for key in read["H"] if folded(key) == folded(told["names"][1])), None)]
    got = read["pairs"].get(tuple(sides)) if None not in sides else None
    if got is None or got["status"] != STATUS[told["answer"]]:
        return "is marked %s" % (got and got["status"])
    for kind, word in (("N", "nets"), ("P", "pins"), ("D", "devices"), ("X", "calls")):
        for k in (0, 1):
            if not once(got[kind], k, len(read["JH"[k]][sides[k]][word]), 0 if kind == "P" else 1):
                return "has a node of kind %s not once" % kind
    if told["answer"] == "match":
        for kind, word in (("D", "device"), ("X", "call")):
            if sorted(r[:2] for r in got[kind]) != sorted(told[word]):
                return "has other partners of kind %s" % kind
        if len(got["N"]) != len(told["net"]) or any(r[2] != "Match" for kind in "NPDX" for r in got[kind]):
            return "has rows that no match has"
    return None


def check_rows(read, wanted_case):
    """What differs between the circuits of both sides and those that are compared, by the independent implementation."""
    wrong = []
    rights = [right for _, right in wanted_case.pairs] if wanted_case.pairs else wanted_case.rights
    for side, circuits in (("J", wanted_case.lefts), ("H", rights)):
        keys = [(wanted_case.shown(c) if side == "J" else c.name).hex() for c in circuits]
        if sorted(keys) != sorted(read[side]):
            wrong.append("circuits of %s" % side)
            continue
        for key, circuit in zip(keys, circuits):
            if not same(read[side][key], plain(circuit, lambda number: keys[number]), True):
                wrong.append("circuit %s of %s" % (circuit.name.decode("latin-1"), side))
    return wrong


def unescaped(text):
    """The bytes of a quoted word."""
    return re.sub(rb"\\([0-7]{3}|.)", lambda m: bytes([int(m[1], 8)]) if len(m[1]) == 3 else m[1], text)


def check_logs(database, report):
    """Whether each pair that doesn't match has the report's lines behind its names, the last one all gates, too."""
    lines = report.split(b"\n")
    blocks, gates = [], [line for line in lines if line.startswith(b"gate ")]
    for line in lines:
        if line.startswith(b"pair "):
            answer = b" ".join(line.split(b" ")[3:])
            blocks.append([] if answer == b"match" else [answer])
        elif line.startswith((b"round ", b"guess ")) and blocks:
            blocks[-1].append(line)
        elif line.startswith(b"apart "):
            blocks = []
    found = []
    for line in database[database.index(b"\nZ("):].split(b"\n"):
        if re.match(rb" X\(", line):
            found.append([])
        elif entry := re.match(rb"   M\(E B\('(.*)'\)\)$", line):
            found[-1].append(unescaped(entry[1]))
        elif entry := re.match(rb"   M\(E B\((.*)\)\)$", line):
            found[-1].append(entry[1])
    if not blocks:
        return []
    blocks[-1] += gates
    if len(found) != len(blocks):
        return ["logs of %d pairs for %d" % (len(found), len(blocks))]
    return ["logs: %s for %s" % (a, b) for a, b in zip(found, blocks) if a != b]


def line_of(row, word, shown):
    """What the page says of a row of nets, devices or calls, or None."""
    left, right, status = row
    if right == "-":
        return word, "none in the schematic"
    if left == "-":
        return word, "none in the layout"
    if status == "Mismatch":
        return word, "among other neighbours"
    if word == "device" and shown["J"][int(left) - 1][:3] != shown["H"][int(right) - 1][:3]:
        return word, "in the layout"
    return None


def check_page(page, read):
    """Whether each pair that isn't all alike has a line for each node that has no partner, or one that isn't its like."""
    wanted = []
    for (left, right), pair in read["pairs"].items():
        if "()" not in (left, right):
            shown = {side: read[side][key]["devices"] for side, key in (("J", left), ("H", right))}
            lines = [line_of(row, word, shown) for kind, word in (("N", "net"), ("D", "device"), ("X", "call")) for row in pair[kind]]
            wanted.append(collections.Counter(line for line in lines if line))
    found = []
    for line in page.decode("latin-1").split("\n")[2:-1]:
        if line.startswith("Warning: "):
            continue
        if line.startswith("cell "):
            found.append(collections.Counter())
        elif ": joins nets " not in line and ": in the layout two parts, " not in line:
            word = line.split()[0]
            forms = ("none in the schematic", "none in the layout", "among other neighbours", "in the layout")
            found[-1][word if word in ("net", "call") else "device", next(form for form in forms if form in line)] += 1
    return [] if found == [lines for lines in wanted if lines] else ["page: %s for %s" % (found, wanted)]


def read_all(folder, databases):
    names = os.path.join(folder, "databases")
    put(names, {"list": "\n".join(databases).encode() + b"\n"})
    out = subprocess.run(["klayout", "-b", "-r", os.path.join(HERE, "read_back.rb"), "-rd", "list=" + names + ".list"],
                         stdout=subprocess.PIPE, stderr=subprocess.DEVNULL)
    return read_text(out.stdout.decode("utf-8", "replace"))


def make(view, lvs, prefix, case):
    """Runs both programs on a case; what is wrong with their answers, or None where both refuse it, or it is too far for KLayout."""
    put(prefix, dict(case.files, gds=positive(case.files["gds"])))
    inputs = ["--layout", prefix + ".gds", "--rules", prefix + ".lvs", "--schematic", prefix + ".cir"] + (["--top", case.top] if case.top else [])
    told = run(lvs, ["run"] + inputs + ["--shapes", prefix + ".out", "--netlist", prefix + ".net", "--report", prefix + ".rep"])
    seen = run(view, ["view"] + inputs + ["--database", prefix + ".lvsdb", "--page", prefix + ".page"])
    if told.returncode == 2 and seen.returncode == 2 and told.stdout == seen.stdout:
        return None
    if told.returncode in (0, 1, 3) and seen.stdout == b"refused view\n" and case.small and wanted.is_far(case.files["gds"], case.top):
        return None
    line = re.sub(rb"^(\w+) cells \d+ ", rb"view \1 ", told.stdout)
    if told.returncode != seen.returncode or told.returncode not in (0, 1, 3) or seen.stdout != line:
        return ["statuses %d and %d: %s%s" % (told.returncode, seen.returncode, told.stdout.decode("latin-1"), seen.stdout.decode("latin-1"))]
    return []


def judged(read, prefix, case, total):
    """What differs between a database as KLayout reads it and what it has to be."""
    files = get(prefix, "gds", "lvs", "cir", "net", "rep", "lvsdb", "page")
    if isinstance(read, str):
        return [read]
    wrong = check_logs(files["lvsdb"], files["rep"]) + check_page(files["page"], read)
    told = read_report(files["rep"])
    for number, pair in enumerate(told):
        why = check_pair(read, pair, number)
        if why:
            wrong.append("pair %s %s %s" % tuple([bytes.fromhex(n).decode("latin-1") for n in pair["names"]] + [why]))
    if not case.small:
        return wrong + check_circuits(read, "J", files["net"], told, True) + check_circuits(read, "H", files["cir"], told, "lost" not in case.name)
    right = wanted.Wanted(files, case.top.encode() if case.top else None)
    wrong += check_rows(read, right)
    if not wrong:
        drawn, counts = wanted.differences(read, right)
        wrong += drawn
        total.update(dict(zip(("circuits", "nets", "devices"), counts)))
    return wrong


def main():
    parser = argparse.ArgumentParser(description=__doc__, formatter_class=argparse.RawDescriptionHelpFormatter)
    parser.add_argument("view")
    parser.add_argument("lvs")
    parser.add_argument("--designs", nargs=2, type=int, default=(0, 0), metavar=("COUNT", "SEED"))
    parser.add_argument("--planted", action="store_true")
    parser.add_argument("--keep")
    given = parser.parse_args()
    folder = given.keep or tempfile.mkdtemp()
    os.makedirs(folder, exist_ok=True)
    todo = [one for case in cases(given.lvs, folder) for one in with_errors(case)]
    todo += list(planted(given.lvs, folder)) if given.planted else []
    todo += list(designs(*given.designs)) if given.designs[0] else []
    prefixes = [os.path.join(folder, "case%d" % k) for k in range(len(todo))]
    wrong = [make(given.view, given.lvs, prefix, case) for prefix, case in zip(prefixes, todo)]
    read = read_all(folder, [prefix + ".lvsdb" for prefix, w in zip(prefixes, wrong) if w == []])
    total = collections.Counter()
    for k, case in enumerate(todo):
        if wrong[k] == []:
            wrong[k] = judged(read.get(prefixes[k] + ".lvsdb", "not read"), prefixes[k], case, total)
        if wrong[k] is None:
            continue
        if wrong[k] or not case.name.startswith("design"):
            print("%-40s %s" % (case.name, "; ".join(wrong[k]) or "as it should be"), flush=True)
    bad = sum(1 for w in wrong if w)
    print("%d cases (%d refused), drawn %d circuits, %d nets, %d devices: %d differ"
          % (len(todo), wrong.count(None), total["circuits"], total["nets"], total["devices"], bad))
    if not given.keep:
        shutil.rmtree(folder)
    sys.exit(1 if bad else 0)


if __name__ == "__main__":
    main()
