"""Cells of a netlist placed in rows and routed by a simple generator, for designs that no router here ends in time.

Cells are ordered by a walk over the netlist and laid in a snake of rows that abut, flipped in turn; each net gets one level
track (metal3) and one upright column a pin (metal4), reached by a stack of cuts from metal1.
"""
import bisect
import collections
import cells
import chip
import gds
import library
from gds import Cell


def text_of(path):
    return open(path).read()


def read(spc, pins_of):
    name, ports, inst = None, [], []
    text = text_of(spc).replace("\n+", " ")
    for l in text.split("\n"):
        t = l.split()
        if not t:
            continue
        if t[0].lower() == ".subckt":
            name, ports = t[1], t[2:]
        elif t[0][0] in "xX" and t[-1] != "FILL":
            inst.append((t[0][1:], t[-1], dict(zip(pins_of[t[-1]], t[1:-1]))))
    return name, ports, inst


def order(inst, ports):
    of = collections.defaultdict(list)
    for k, (_, _, m) in enumerate(inst):
        for p, n in m.items():
            if p not in ("vdd", "gnd"):
                of[n].append(k)
    seen, out = set(), []
    for start in range(len(inst)):
        if start in seen:
            continue
        q = collections.deque([start])
        seen.add(start)
        while q:
            k = q.popleft()
            out.append(k)
            nb = set()
            for p, n in inst[k][2].items():
                if p not in ("vdd", "gnd") and len(of[n]) <= 12:
                    nb.update(of[n])
            for j in sorted(nb):
                if j not in seen:
                    seen.add(j)
                    q.append(j)
    return [inst[k] for k in out]


class Free:
    """x on a grid, each with the upright intervals taken there"""

    def __init__(self):
        self.at = collections.defaultdict(list)

    def fits(self, x, lo, hi):
        v = self.at[x]
        k = bisect.bisect(v, (lo,))
        return (k == 0 or v[k - 1][1] < lo) and (k == len(v) or v[k][0] > hi)

    def take(self, x, lo, hi):
        bisect.insort(self.at[x], (lo, hi))


def write(spc, lef, lib, out, style):
    """writes out.gds, out.lvs, out.cir (hierarchical) and out.flat.cir of a netlist of cells; says what it holds"""
    _, _, macros = library.lef(lef)
    subs = library.spice(lib)
    name, ports, inst = read(spc, {c: s[0] for c, s in subs.items()})
    inst = order(inst, ports)
    total = sum(macros[c][0] for _, c, _ in inst)
    h = 20000
    nrows = max(2, int((total / h) ** 0.5) + 1)
    width = -(-(total // nrows + 40000) // 1600) * 1600
    top, placed = Cell(name), []
    row, x = 0, 0
    rows = [[]]
    for i in inst:
        cw = macros[i[1]][0]
        if x + cw > width:
            rows.append([])
            x = 0
        rows[-1].append(i)
        x += cw
    used = dict.fromkeys(c for _, c, _ in inst)
    used["FILL"] = None
    fills = 0
    for r, line in enumerate(rows):
        if r & 1:
            line = line[::-1]
        x = 0
        y = r * h
        flip = bool(r & 1)
        for i in line + [None] * ((width - sum(macros[c][0] for _, c, _ in line)) // 1600):
            if i is None:
                top.ref("FILL", x, y + (h if flip else 0), flip, 0, "FILL%d" % fills)
                fills += 1
                x += 1600
            else:
                top.ref(i[1], x, y + (h if flip else 0), flip, 0, i[0])
                placed.append((i, x, y, flip))
                x += macros[i[1]][0]
    height = len(rows) * h
    # power: straps at both sides over the rails
    for k in range(len(rows) + 1):
        y = k * h
        side = -9000 if k & 1 else -4000                    # vdd at odd rails
        top.rect(cells.L["metal1"], side, y - 600, 0, y + 600)
    top.rect(cells.L["metal1"], -4400, -600, -4000, height + 600)
    top.text(cells.TXT["metal1"], -4200, 0, "gnd")
    for k in range(1, len(rows) + 1, 2):
        top.rect(cells.L["via1"], -8900, k * h - 200, -8500, k * h + 200)
    # rails of vdd cross the strap of gnd on metal1: cut them there and lead them over on metal2
    top.items = [i for i in top.items if not (i[0] == "rect" and i[1] == cells.L["metal1"] and i[2] == -9000)]
    for k in range(1, len(rows) + 1, 2):
        y = k * h
        top.rect(cells.L["metal1"], -3500, y - 600, 0, y + 600)
        top.rect(cells.L["via1"], -3400, y - 200, -3000, y + 200)
        top.rect(cells.L["metal2"], -9000, y - 400, -2900, y + 400)
    top.items = [i for i in top.items if not (i[0] == "rect" and i[1] == cells.L["via1"] and i[2] == -8900)]
    top.rect(cells.L["metal2"], -9000, h - 400, -8600, height + 400)
    top.text(cells.TXT["metal2"], -8800, h, "vdd")
    # nets
    pins = collections.defaultdict(list)
    for (n, c, m), x, y, flip in placed:
        for p, shapes in macros[c][4].items():
            if p in ("vdd", "gnd"):
                continue
            _, (x1, y1, x2, y2) = next(s for s in shapes if s[0] == "metal1")
            yy = (h - (y1 + y2) // 2) if flip else (y1 + y2) // 2
            bad = [(x + q[0], x + q[2], y + (h - q[3] if flip else q[1]), y + (h - q[1] if flip else q[3]))
                   for o, t in macros[c][4].items() if o != p for l_, q in t if l_ == "metal2"]
            yy = (y + yy) // 40 * 40
            bad = [q for q in bad if q[2] - 10 <= yy <= q[3] + 10]
            pins[m[p]].append((x + x1 + 30, x + x2 - 30, yy, bad))
    free, tracks = Free(), set()
    G, W = 40, 8                      # grid and half width
    v = Cell("STACK")
    for l_ in ("via1", "metal2", "via2", "metal3", "via3"):
        v.rect(cells.L[l_], -W, -W, W, W)
    u = Cell("CUT")
    u.rect(cells.L["via3"], -W, -W, W, W)
    for n in sorted(pins, key=lambda n: len(pins[n])):
        ps = pins[n]
        ys = sorted(p[2] for p in ps)
        t = ys[len(ys) // 2] // G * G + G // 2
        k = 0
        while t + G * ((k + 1) // 2) * (1 if k & 1 else -1) in tracks:
            k += 1
        t += G * ((k + 1) // 2) * (1 if k & 1 else -1)
        tracks.add(t)
        xs = []
        for x1, x2, y, bad in ps:
            lo, hi = min(y, t) - W, max(y, t) + W
            mid = (x1 + x2) // 2 // G * G
            for k in range(0, 2 * (x2 - x1) // G + 2):
                x = mid + G * ((k + 1) // 2) * (1 if k & 1 else -1)
                if x1 <= x <= x2 and free.fits(x, lo, hi) and not any(q[0] - W <= x <= q[1] + W for q in bad):
                    break
            else:
                raise SystemExit("no column for net %s" % n)
            free.take(x, lo, hi)
            xs.append(x)
            top.rect(cells.L["metal4"], x - W, lo, x + W, hi)
            top.ref("STACK", x, y, note=n)
            top.ref("CUT", x, t, note=n)
        if n in ports:
            xs.append(width + 2000)
            top.text(cells.TXT["metal3"], width + 1992, t, n)
        top.rect(cells.L["metal3"], min(xs) - W, t - W, max(xs) + W, t + W)
    made = [cells.cell(c, subs[c], macros[c], style) for c in used if c in subs and subs[c][1]]
    made += [cells.fill("FILL", macros["FILL"], style), v, u, top]
    gds.write(out + ".gds", made)
    text = chip.netlist(spc, lib, {"FILL"})
    text = "\n".join(l for l in text.split("\n") if not (l[:1].lower() == "x" and l.split()[-1] == "FILL"))
    chip.write_texts(out, text)
    return "cells %d rows %d fills %d nets %d pins %d" % (len(inst), len(rows), fills, len(pins), sum(map(len, pins.values())))
