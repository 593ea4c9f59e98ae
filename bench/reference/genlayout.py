"""Random small layouts: cells with shapes, texts and references in many spellings."""

import gds
import layout as layouts
from build import boundary, longs, path, rec, text
from chip import UNITS
from layout import ANGLES, short, xy
from squares import Motion

NAMES = [b"A", b"a", b"B", b"K$1", b"CELL", b"c$$2", b"sub_1", b"inv", b"INV", b"x<0>", b"M M",
         b"Q\xe9", b"row.a", b"nand", b"b$$3"]
TEXTS = [b"A", b"B", b"OUT", b"VSS", b"vdd", b"VDD", b"S", b"D", b"s", b"n$1", b"p q", b"x,y",
         b"Y\0\0", b"in"]
ANGLE_WORDS = {0: ["0000000000000000", "43168000" + "00000000", "C3168000" + "00000000"],
               1: ["425A000000000000", "C310E00000000000"],
               2: ["42B4000000000000", "C2B4000000000000"],
               3: ["4310E00000000000", "C25A000000000000"]}
ACTIVE, POLY, WELL, CONTACT, METAL, MARK = 2, 3, 1, 4, 5, 6
MOST_PATHS = 40
FAR = [2 ** 31 - 2 ** 17, 2 ** 30, 2 ** 30 - 5, 0]     # sums of them pass the border of 32 bits


class Draft:
    """A cell as it is made: shapes (layer, rect), texts and references."""

    def __init__(self, name):
        self.name, self.shapes, self.texts, self.refs = name, [], [], []
        self.extra = []         # whole elements
        self.far = (0, 0)       # added to the places of single references
        self.paths = 1


class Maker:
    """Makes a list of cells; the last one is the top."""

    def __init__(self, rng, devices):
        self.rng, self.devices = rng, devices
        self.scale = rng.choice([1, 1, 2, 2, 10, 250])
        self.exact = False      # whether shapes are written as they are
        self.cells = []
        names = list(NAMES)
        rng.shuffle(names)
        self.names = names

    # -- content ---------------------------------------------------------------------------

    def transistor(self, x, y):
        """Active and poly of a transistor, perhaps with contacts, metal and well."""
        rng = self.rng
        a, g, b, h = (rng.randint(1, 3), rng.randint(1, 2), rng.randint(1, 3), rng.randint(1, 4))
        low, high = rng.choice([0, 1, 2, 2]), rng.choice([0, 1, 2, 2])
        shapes = [(ACTIVE, (x, y, x + a + g + b, y + h)),
                  (POLY, (x + a, y - low, x + a + g, y + h + high))]
        if rng.random() < 0.3:
            shapes.append((POLY, (x + a + g + b, y - low, x + a + g + b + 1, y + h + high)))
            shapes.append((ACTIVE, (x + a + g + b, y, x + a + g + b + 3, y + h)))
        if rng.random() < 0.5:
            shapes.append((METAL, (x, y, x + 1, y + h + rng.randint(0, 3))))
            shapes.append((CONTACT, (x, y, x + 1, y + 1)))
        if rng.random() < 0.3:
            shapes.append((WELL, (x - 1, y - 1, x + a + g + b + 1, y + h + 1)))
        return self.perhaps_turned(shapes)

    def strip(self, x, y):
        """A strip with a mark over its middle, perhaps with a hole or two ends in one."""
        rng = self.rng
        layer = rng.choice([METAL, METAL, METAL, POLY, ACTIVE])
        a, g, b, h = (rng.randint(1, 2), rng.randint(1, 4), rng.randint(1, 2), rng.randint(1, 3))
        end, top = x + a + g + b, y + h
        low, high = rng.choice([0, 0, 1]), rng.choice([0, 0, 1, -1])
        shapes = [(layer, (x, y, end, top))]
        if rng.random() < 0.15:
            top = y + h + 2
            shapes = [(layer, (x, y, end, y + h)), (layer, (x, y, x + a + 1, top + 1)),
                      (layer, (end - b - 1, y, end, top + 1)), (layer, (x, top, end, top + 1))]
            top, high = top + 1, 0
        shapes.append((MARK, (x + a, y - low, x + a + g, max(top + high, y + 1))))
        if rng.random() < 0.5:
            shapes.append((METAL, (x, y, x + 1, y + rng.randint(1, 4))))
        return self.perhaps_turned(shapes)

    def junction(self, x, y):
        """Two layers that share a part, or two."""
        rng = self.rng
        plus = rng.choice([ACTIVE, POLY, METAL, WELL])
        minus = rng.choice([MARK, MARK, MARK, CONTACT])
        a, b, c, h = (rng.randint(0, 2), rng.randint(1, 3), rng.randint(0, 2), rng.randint(1, 3))
        shapes = [(plus, (x, y, x + a + b, y + h)), (minus, (x + a, y, x + a + b + c, y + h))]
        if rng.random() < 0.3:
            shapes.append((plus, (x + a, y + h + 1, x + a + b, y + h + 2)))
            shapes.append((minus, (x + a, y + h - rng.randint(0, 1), x + a + 1, y + h + 2)))
        return self.perhaps_turned(shapes)

    def perhaps_turned(self, shapes):
        """The shapes as they are, or turned and moved."""
        rng = self.rng
        if rng.random() < 0.4:
            turn = Motion.turned(rng.random() < 0.5, rng.randint(0, 3), 0, 0)
            turn = turn.then(Motion(1, 0, 0, 1, rng.randint(0, 9), rng.randint(0, 9)))
            shapes = [(layer, turn.rect(r)) for layer, r in shapes]
        return shapes

    def content(self, draft):
        """Fills a cell."""
        rng = self.rng
        if self.devices and rng.random() < 0.8:
            for _ in range(rng.randint(1, 2)):
                draft.shapes += self.transistor(rng.randint(0, 8), rng.randint(0, 8))
        for kind in (self.strip, self.junction):
            if self.devices and rng.random() < 0.6:
                draft.shapes += kind(rng.randint(0, 9), rng.randint(0, 9))
        for _ in range(rng.randint(0, 2 if self.devices else 4)):
            x, y = rng.randint(0, 12), rng.randint(0, 12)
            layers = [POLY, METAL, METAL, CONTACT, WELL, MARK] if self.devices else [1, 2, 3, 4]
            wide, high = rng.choice([(1, 5), (6, 1), (3, 3), (1, 1), (9, 2)])
            draft.shapes.append((rng.choice(layers), (x, y, x + wide, y + high)))
        while not self.devices and rng.random() < 0.4:
            draft.extra.append(self.loop() if rng.random() < 0.5 else self.wire())
        for layer, r in draft.shapes:
            if rng.random() < 0.25:
                at = (rng.choice([r[0], r[2], (r[0] + r[2]) // 2]), rng.choice([r[1], r[3]]))
                draft.texts.append((METAL, rng.choice([1, 1, 1, 2]), at, rng.choice(TEXTS)))

    def walk(self, most):
        """Points whose neighbours differ in x or in y alone."""
        rng = self.rng
        points = [(rng.randint(0, 12), rng.randint(0, 12))]
        for k in range(rng.randint(2, most)):
            x, y = points[-1]
            step = rng.randint(-6, 6)
            across = rng.random() < 0.5 if rng.random() < 0.2 else k % 2
            points.append((x + step, y) if across else (x, y + step))
        return points

    def loop(self):
        """A boundary that may cross itself and wind more than once."""
        points = self.walk(9)
        points.append((points[0][0], points[-1][1]))
        if self.rng.random() < 0.2:
            points += [points[0]] + points[1:]
        points.append(points[0])
        return boundary(self.rng.randint(1, 4), self.scaled(points))

    def wire(self):
        """A path of several segments."""
        rng = self.rng
        ends = rng.choice([None, 0, 2, 4])
        begin, end = (rng.choice([None, 3, -3, 0, -20]), rng.choice([None, 1, -7]))
        width = rng.choice([None, 0, 2, 2, 4, -6, 10])
        points = self.scaled(self.walk(5))
        if all(p == points[0] for p in points):
            points.append((points[0][0] + 1, points[0][1]))
        return path(rng.randint(1, 4), points, width, ends, begin, end)

    def scaled(self, points):
        """Points in database units."""
        return [(x * self.scale, y * self.scale) for x, y in points]

    def references(self, draft):
        """Places cells made before."""
        rng, room = self.rng, MOST_PATHS
        for _ in range(rng.randint(1, 3)):
            child = rng.choice(self.cells[-3:])
            columns, rows = rng.choice([(1, 1)] * 6 + [(2, 1), (1, 2), (2, 2), (3, 1)])
            if draft.paths + columns * rows * child.paths > room:
                continue
            draft.paths += columns * rows * child.paths
            step = [rng.choice([0, 3, 5, 8, 12]) for _ in range(2)]
            sway = [rng.choice([0, 0, 0, 1, -2]) for _ in range(2)]
            draft.refs.append((child, rng.random() < 0.3, rng.choice([0, 0, 1, 2, 3]),
                               (rng.randint(-6, 14), rng.randint(-6, 14)), columns, rows,
                               (step[0], sway[0]), (sway[1], step[1])))
            if rng.random() < 0.08 and draft.paths + child.paths <= room:
                draft.refs.append(draft.refs[-1][:4] + (1, 1, (0, 0), (0, 0)))
                draft.paths += child.paths

    def scatter(self, draft):
        """Moves some shapes of a cell into a new cell below it."""
        rng = self.rng
        moved = [s for s in draft.shapes if rng.random() < 0.4]
        if not moved or not self.names:
            return
        below = Draft(self.names.pop())
        mirrored, quarters = rng.random() < 0.5, rng.randint(0, 3)
        at = (rng.randint(-3, 9), rng.randint(-3, 9))
        back = Motion.turned(mirrored, quarters, *at).inverse()
        below.shapes = [(layer, back.rect(r)) for layer, r in moved]
        draft.shapes = [s for s in draft.shapes if s not in moved]
        draft.refs.append((below, mirrored, quarters, at, 1, 1, (0, 0), (0, 0)))
        draft.paths += 1
        self.cells.append(below)

    def make(self):
        """All cells, children first."""
        rng = self.rng
        for level in range(rng.randint(1, 5)):
            draft = Draft(self.names.pop())
            self.content(draft)
            if level:
                self.references(draft)
            if rng.random() < 0.5:
                self.scatter(draft)
            self.cells.append(draft)
        top = self.cells[-1]
        if rng.random() < 0.7:
            top.name = b"TOP"
        for cell in self.unplaced()[:-1]:
            if rng.random() < 0.8 and top.paths + cell.paths <= MOST_PATHS:
                top.paths += cell.paths
                top.refs.append((cell, False, rng.choice([0, 0, 2]), (rng.randint(-9, 9), 0),
                                 1, 1, (0, 0), (0, 0)))
        return self.cells

    def spread(self, rng):
        """Places what most cells place far away."""
        for cell in self.cells:
            if rng.random() < 0.8:
                cell.far = tuple(rng.choice([1, 1, -1]) * rng.choice(FAR) for _ in range(2))

    def share(self, rng):
        """Places some cells once more, a little beside where they are or at the very same place."""
        for cell in self.cells:
            for ref in list(cell.refs):
                if rng.random() < 0.5 and cell.paths + ref[0].paths <= MOST_PATHS:
                    cell.paths += ref[0].paths
                    step = rng.choice([(0, 0), (1, 0), (3, 0), (7, 0), (0, 1), (0, 4), (2, 2)])
                    at = tuple(a + b for a, b in zip(ref[3], step))
                    cell.refs.append(ref[:3] + (at, 1, 1, (0, 0), (0, 0)))

    def rings(self, sizes):
        """Rings of transistors beside each other, perhaps one cell further down."""
        rng, x = self.rng, 0
        self.exact = True
        ring = Draft(b"RING")
        for size in sizes:
            end = x + 2 * size
            ring.shapes.append((ACTIVE, (x, 0, end + 1, 2)))
            ring.shapes += [(POLY, (x + 1 + 2 * k, -1, x + 2 + 2 * k, 3)) for k in range(size)]
            ring.shapes += [(METAL, (x, 0, x + 1, 6)), (METAL, (x, 5, end + 1, 6)),
                            (METAL, (end, 0, end + 1, 6))]
            x = end + 4
        self.cells = [ring]
        if rng.random() < 0.4:
            top = Draft(b"TOP")
            top.shapes = self.transistor(0, 20) if rng.random() < 0.5 else []
            for k in range(rng.randint(1, 2)):
                top.refs.append((ring, False, 0, (0, -10 * k), 1, 1, (0, 0), (0, 0)))
            self.cells.append(top)
        return self.cells

    def unplaced(self):
        """The cells that no reference names."""
        placed = {ref[0].name for cell in self.cells for ref in cell.refs}
        return [cell for cell in self.cells if cell.name not in placed]

    # -- records ------------------------------------------------------------------------------

    def flags(self):
        """ELFLAGS and PLEX, mostly none."""
        out = b""
        if self.rng.random() < 0.05:
            out += rec(gds.ELFLAGS, b"\0\1")
        if self.rng.random() < 0.05:
            out += rec(gds.PLEX, bytes(4))
        return out

    def tail(self):
        """Properties, mostly none, and the element's end."""
        out = b""
        while self.rng.random() < 0.05:
            out += rec(gds.PROPATTR, short(3)) + rec(gds.PROPVALUE, b"odd")
        return out + rec(gds.ENDEL)

    def shape(self, layer, r):
        """One rectangle as a boundary, a box or a path."""
        rng = self.rng
        x1, y1, x2, y2 = (n * self.scale for n in r)
        key = rec(gds.LAYER, short(layer))
        zero = short(0)
        style = rng.random()
        if style < 0.15:
            corners = xy((x1, y1), (x2, y1), (x2, y2), (x1, y2), (x1, y1))
            return rec(gds.BOX) + self.flags() + key + rec(gds.BOXTYPE, zero) + corners \
                + self.tail()
        if style < 0.35 and not self.exact and (y2 - y1) % 4 == 0:
            return self.path(key, (x1, y1, x2, y2))
        points = [(x1, y1), (x1, y2), (x2, y2), (x2, y1)]
        if rng.random() < 0.3:
            points.reverse()
        if style > 0.9 and not self.exact and x2 - x1 > 1 and y2 - y1 > 1:
            # one corner bitten off
            middle = ((x1 + x2) // 2, (y1 + y2) // 2)
            points = [(x1, y1), (x1, y2), (middle[0], y2), middle, (x2, middle[1]), (x2, y1)]
        turn = rng.randrange(len(points))
        points = points[turn:] + points[:turn]
        if rng.random() < 0.1:
            points.insert(1, points[0])
        return rec(gds.BOUNDARY) + self.flags() + key + rec(gds.DATATYPE, zero) \
            + xy(*points, points[0]) + self.tail()

    def path(self, key, r):
        """A rectangle as a path with one of the kinds of ends, or an elbow from its corner."""
        rng = self.rng
        x1, y1, x2, y2 = r
        half, middle = (y2 - y1) // 2, (y1 + y2) // 2
        ends = rng.choice([None, 0, 2, 4])
        begin, end = {2: (half, half), 4: (rng.randint(-2, 3), rng.randint(-2, 3))}.get(
            ends, (0, 0))
        points = [(x1 + begin, middle), (x2 - end, middle)]
        if points[0] == points[1]:
            points[1] = (x2 + 1, middle)
        if rng.random() < 0.2:
            points.append((points[1][0], middle + rng.choice([-4, 5]) * self.scale))
        if rng.random() < 0.2:
            points.insert(1, points[0])
        out = rec(gds.PATH) + self.flags() + key + rec(gds.DATATYPE, short(0))
        if ends is not None:
            out += rec(gds.PATHTYPE, short(ends))
        out += rec(gds.WIDTH, longs(rng.choice([1, -1]) * 2 * half))
        if ends == 4:
            out += rec(gds.BGNEXTN, longs(begin)) + rec(gds.ENDEXTN, longs(end))
        return out + xy(*points) + self.tail()

    def turn(self, mirrored, quarters):
        """STRANS, MAG and ANGLE in one of their spellings."""
        rng = self.rng
        if not mirrored and not quarters and rng.random() < 0.7:
            return b""
        out = rec(gds.STRANS, b"\x80\0" if mirrored else rng.choice([b"\0\0", b"\0\1"]))
        if rng.random() < 0.1:
            out += rec(gds.MAG, bytes.fromhex("4110000000000000"))
        if quarters or rng.random() < 0.1:
            out += rec(gds.ANGLE, bytes.fromhex(rng.choice(ANGLE_WORDS[quarters])))
        return out

    def reference(self, ref, far):
        """One reference; a single one may be an array of one."""
        child, mirrored, quarters, at, columns, rows, column_step, row_step = ref
        s = self.scale
        at = (at[0] * s, at[1] * s)
        single = columns == rows == 1
        head = self.flags() + rec(gds.SNAME, child.name) + self.turn(mirrored, quarters)
        if single and self.rng.random() < 0.9:
            return rec(gds.SREF) + head + xy((at[0] + far[0], at[1] + far[1])) + self.tail()
        ends = [tuple(at[k] + count * step[k] * s for k in (0, 1))
                for count, step in ((columns, column_step), (rows, row_step))]
        return rec(gds.AREF) + head + rec(gds.COLROW, short(columns, rows)) + xy(at, *ends) \
            + self.tail()

    def stream(self):
        """The whole stream."""
        rng, s = self.rng, self.scale
        out = [rec(gds.HEADER, short(rng.choice([3, 600]))), rec(gds.BGNLIB, bytes(range(24)))]
        if rng.random() < 0.1:
            out.append(gds.struct.pack(">HBB", 8, 0x1F, 6) + b"REF\0")
        out.append(rec(gds.LIBNAME, rng.choice([b"LIB", b"L\0\0\0", b"", b"lib1"])))
        out.append(rec(gds.UNITS, UNITS))
        order = list(self.cells)
        if rng.random() < 0.3:
            rng.shuffle(order)
        for cell in order:
            out += [rec(gds.BGNSTR, bytes([rng.randrange(200)]) * 24),
                    rec(gds.STRNAME, cell.name)]
            elements = [self.shape(layer, r) for layer, r in cell.shapes]
            elements += cell.extra
            elements += [text(layer, kind, (at[0] * s, at[1] * s), string)
                         for layer, kind, at, string in cell.texts]
            elements += [self.reference(ref, cell.far) for ref in cell.refs]
            if rng.random() < 0.1:
                elements.append(rec(gds.NODE) + rec(gds.LAYER, short(1))
                                + rec(gds.NODETYPE, short(0)) + xy((0, 0)) + rec(gds.ENDEL))
            out += elements + [rec(gds.ENDSTR)]
        return b"".join(out + [rec(gds.ENDLIB)])


def placements(data, top):
    """The number of paths from the top of an accepted stream, 0 for a refused one."""
    try:
        design = layouts.Layout(gds.read_library(data), top)
    except (gds.GdsFault, layouts.LinkFault):
        return 0
    count = {}
    for cell in design.order:
        count[cell] = 1 + sum(ref.columns * ref.rows * count[child] for ref, child in
                              zip(design.library.cells[cell].refs, design.children[cell]))
    return count[design.top]


assert set(ANGLES) < set(ANGLE_WORDS)
