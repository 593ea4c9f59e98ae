"""A placed and routed chip from a DEF, with the library's cells made by cells.py."""
import cells
import defin
import gds
import library
from gds import Cell

ORI = {"N": (False, 0), "S": (False, 2), "FS": (True, 0), "FN": (True, 2), "W": (False, 1), "E": (False, 3)}


def build(deff, leff, lib, style="inside", labels=True):
    """-> list of cells, top last; and the DEF"""
    d = defin.read(deff)
    layers, vias, macros = library.lef(leff)
    subs = library.spice(lib)
    vias.update(d["vias"])
    out, made = [], set()
    for _, cell, _, _, _ in d["components"]:
        if cell not in made:
            made.add(cell)
            if cell in subs:
                out.append(cells.cell(cell, subs[cell], macros[cell], style, labels=labels))
            else:
                out.append(cells.fill(cell, macros[cell], style))
    for v in dict.fromkeys(c[1] for c in d["cuts"]):
        c = Cell("VIA_" + v)
        for layer, rects in vias[v].items():
            for r in rects:
                c.rect(cells.L[layer], *r)
        out.append(c)
    top = Cell(d["design"])
    for inst, cell, x, y, o in d["components"]:
        w, h = macros[cell][0], macros[cell][1]
        m, q = ORI[o]
        ex, ey = {"N": (0, 0), "S": (w, h), "FS": (0, h), "FN": (w, 0), "W": (h, 0), "E": (0, w)}[o]
        top.ref(cell, x + ex, y + ey, m, q, inst)
    for net, v, x, y in d["cuts"]:
        top.ref("VIA_" + v, x, y, note=net)
    for net, layer, width, pts, special in d["wires"]:
        top.path(cells.L[layer], width if width else layers[layer], 0 if special else 2, pts)
        top.items[-1].append(net)
    for name, net, layer, (x1, y1, x2, y2), x, y, o in d["pins"]:
        top.rect(cells.L[layer], x + x1, y + y1, x + x2, y + y2)
        top.text(cells.TXT[layer], x, y, name)
    out.append(top)
    return out, d


def netlist(spc, lib, fills):
    """one text, the used subcircuits in front of the design: .include isn't read"""
    subs = library.spice(lib)
    lines = [l for l in open(spc).read().split("\n") if not l.lower().startswith(".include")]
    used = dict.fromkeys(l.split()[-1] for l in lines if l[:1].lower() == "x")
    out = ["* subcircuits of the library"]
    for c in used:
        if c in subs:
            out += subs[c][2] + [".ends"]
        elif c in fills:
            out += [".subckt %s vdd gnd" % c, ".ends"]
    return "\n".join(out + lines) + "\n"


def flat(text):
    """the calls of a two-level netlist replaced by their transistors"""
    subs, cur, name, out = {}, None, None, []
    for l in text.split("\n"):
        t = l.split()
        if not t or t[0].startswith("*"):
            continue
        k = t[0].lower()
        if k == ".subckt":
            name, cur = t[1], (t[2:], [])
            subs[name] = cur
        elif k == ".ends":
            cur = None
        elif cur is not None:
            cur[1].append(t)
    top = name
    out = [".subckt %s %s" % (top, " ".join(subs[top][0]))]
    for t in subs[top][1]:
        pins, cards = subs[t[-1]]
        m = dict(zip(pins, t[1:-1]))
        for c in cards:
            out.append(" ".join(["%s/%s" % ("M" + t[0], c[0])] + [m.get(x, t[0] + "/" + x) for x in c[1:5]] + c[5:]))
    return "\n".join(out + [".ends", ""])


def write(deff, spc, lef, lib, out, style, labels=True):
    """writes out.gds, out.lvs, out.cir (hierarchical) and out.flat.cir of a routed DEF; says what it holds"""
    made, d = build(deff, lef, lib, style, labels)
    gds.write(out + ".gds", made)
    write_texts(out, netlist(spc, lib, {"FILL"}))
    return "cells %d components %d wires %d vias %d" % (len(made), len(d["components"]), len(d["wires"]), len(d["cuts"]))


def write_texts(out, text):
    for name, content in ((".lvs", cells.RULES), (".cir", text), (".flat.cir", flat(text))):
        write_text(out + name, content)


def write_text(path, content):
    with open(path, "w") as f:
        f.write(content)
