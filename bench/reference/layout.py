"""From a library to linked cells: fills, the top, the faults of linking, heights and hulls."""

import gds
from squares import Motion, canon

REACH = 1 << 36
MAX_CELLS = 65536


class LinkFault(Exception):
    """A fault of the linked cells: its number and the names that it carries."""

    def __init__(self, number, *names):
        super().__init__(number, *names)
        self.number, self.names = number, names


def fill_boundary(points):
    """The squares round which the winding number isn't 0."""
    xs = sorted({p[0] for p in points})
    ys = sorted({p[1] for p in points})
    rects = []
    for y1, y2 in zip(ys, ys[1:]):
        turns = {}
        for (xa, ya), (xb, yb) in zip(points, points[1:]):
            if xa == xb and min(ya, yb) <= y1 and y2 <= max(ya, yb):
                turns[xa] = turns.get(xa, 0) + (1 if yb > ya else -1)
        winding = 0
        for x1, x2 in zip(xs, xs[1:]):
            winding += turns.get(x1, 0)
            if winding:
                rects.append((x1, y1, x2, y2))
    return rects


def fill_path(points, half, begin, end):
    """The union of the widened and lengthened segments."""
    turning = [p for k, p in enumerate(points) if k == 0 or p != points[k - 1]]
    rects, last = [], len(turning) - 2
    for k, ((xa, ya), (xb, yb)) in enumerate(zip(turning, turning[1:])):
        before = begin if k == 0 else half
        after = end if k == last else half
        dx, dy = (xb > xa) - (xb < xa), (yb > ya) - (yb < ya)
        xa, ya = xa - dx * before, ya - dy * before
        xb, yb = xb + dx * after, yb + dy * after
        if dx:
            x1, x2 = (xa, xb) if dx > 0 else (xb, xa)
            rect = (x1, ya - half, x2, ya + half)
        else:
            y1, y2 = (ya, yb) if dy > 0 else (yb, ya)
            rect = (xa - half, y1, xa + half, y2)
        if rect[0] < rect[2] and rect[1] < rect[3]:
            rects.append(rect)
    return rects


def fill(form):
    """The rectangles that a shape covers."""
    if form[0] == "boundary":
        return fill_boundary(form[1])
    if form[0] == "path":
        return fill_path(*form[1:])
    xs = [p[0] for p in form[1]]
    ys = [p[1] for p in form[1]]
    rect = (min(xs), min(ys), max(xs), max(ys))
    return [rect] if rect[0] < rect[2] and rect[1] < rect[3] else []


class Layout:
    """The linked cells.  Cells go by their number in file order."""

    def __init__(self, library, top):
        self.library = library
        self.names = [cell.name for cell in library.cells]
        if len(self.names) > MAX_CELLS:
            raise LinkFault(26)
        self.number = {}
        for k, name in enumerate(self.names):
            if name in self.number:
                raise LinkFault(20, name)
            self.number[name] = k
        self.children = [self._children(cell) for cell in library.cells]
        self._cycles()
        self.heights = self._heights()
        for k, height in enumerate(self.heights):
            if height > 64:
                raise LinkFault(27, self.names[k])
        self.top = self._top(top)
        self.own = [self._own(cell) for cell in library.cells]
        self.hulls = [None] * len(self.names)
        for k in sorted(range(len(self.names)), key=lambda k: (self.heights[k], k)):
            self.hulls[k] = hull = self.hull(k)
            if hull and max(map(abs, hull)) > REACH:
                raise LinkFault(25, self.names[k])
        reached = self._below(self.top)
        self.order = sorted(reached, key=lambda k: (self.heights[k], k))
        self._places = {}

    def _children(self, cell):
        out = []
        for ref in cell.refs:
            if ref.cell not in self.number:
                raise LinkFault(21, ref.cell)
            out.append(self.number[ref.cell])
        return out

    def _below(self, cell):
        seen, todo = {cell}, [cell]
        while todo:
            for child in self.children[todo.pop()]:
                if child not in seen:
                    seen.add(child)
                    todo.append(child)
        return seen

    def _cycles(self):
        """Cells that no chain leads back to are taken away from the bottom; the rest is tried."""
        waiting = [set(c) for c in self.children]
        callers = [[] for _ in self.names]
        for k, children in enumerate(waiting):
            for child in children:
                callers[child].append(k)
        todo = [k for k, children in enumerate(waiting) if not children]
        left = set(range(len(self.names)))
        while todo:
            k = todo.pop()
            left.discard(k)
            for caller in callers[k]:
                waiting[caller].discard(k)
                if not waiting[caller]:
                    todo.append(caller)
        for k in sorted(left):
            if any(k in self._below(child) for child in self.children[k]):
                raise LinkFault(22, self.names[k])

    def _heights(self):
        heights = {}
        for k in range(len(self.names)):
            todo = [k]
            while todo:
                cell = todo[-1]
                missing = [c for c in self.children[cell] if c not in heights]
                if missing:
                    todo += missing
                else:
                    heights[cell] = 1 + max((heights[c] for c in self.children[cell]), default=-1)
                    todo.pop()
        return [heights[k] for k in range(len(self.names))]

    def _top(self, top):
        if top is not None:
            if top not in self.number:
                raise LinkFault(24)
            return self.number[top]
        called = {child for children in self.children for child in children}
        free = [k for k in range(len(self.names)) if k not in called]
        if not free:
            raise LinkFault(24)
        if len(free) > 1:
            raise LinkFault(23, self.names[free[0]], self.names[free[1]])
        return free[0]

    @staticmethod
    def _own(cell):
        rects = {}
        for key, form in cell.shapes:
            rects.setdefault(key, []).extend(fill(form))
        return {key: canon(some) for key, some in rects.items() if some}

    def hull(self, cell):
        """The least range of the cell's points, also one without width or height; or None."""
        boxes = [r for rects in self.own[cell].values() for r in rects]
        boxes += [at + at for _, at, _ in self.library.cells[cell].texts]
        for ref, child in zip(self.library.cells[cell].refs, self.children[cell]):
            for column in {0, ref.columns - 1}:
                for row in {0, ref.rows - 1}:
                    motion = ref_motion(ref, column, row)
                    boxes.append((motion.dx, motion.dy) * 2)
                    if self.hulls[child]:
                        boxes.append(motion.rect(self.hulls[child]))
        if not boxes:
            return None
        return (min(b[0] for b in boxes), min(b[1] for b in boxes),
                max(b[2] for b in boxes), max(b[3] for b in boxes))

    def places(self, cell):
        """The cell's placements in order: (placed cell, motion)."""
        if cell not in self._places:
            self._places[cell] = [
                (child, ref_motion(ref, column, row))
                for ref, child in zip(self.library.cells[cell].refs, self.children[cell])
                for row in range(ref.rows) for column in range(ref.columns)]
        return self._places[cell]


def ref_motion(ref, column, row):
    """The motion of one placement of a reference."""
    mirrored, quarters = ref.turn
    dx, dy = (ref.origin[k] + column * ref.column_step[k] + row * ref.row_step[k]
              for k in (0, 1))
    return Motion.turned(mirrored, quarters, dx, dy)


def shapes_stream(layout, outputs, local):
    """The written stream and its number of rectangles.

    `outputs` is the list of (name's number, key); `local(cell, name)` gives rectangles.
    """
    library, rec, count = layout.library, gds.record, 0
    out = [rec(gds.HEADER, library.version), rec(gds.BGNLIB, library.dates),
           rec(gds.LIBNAME, library.name), rec(gds.UNITS, library.units)]
    for k in sorted(layout.order):
        cell = library.cells[k]
        out += [rec(gds.BGNSTR, cell.dates), rec(gds.STRNAME, cell.name)]
        for ref in cell.refs:
            out += reference_records(ref)
        for name, key in outputs:
            for rect in local(k, name):
                out += rectangle_records(key, rect)
                count += 1
        out.append(rec(gds.ENDSTR))
    out.append(rec(gds.ENDLIB))
    return b"".join(out), count


def short(*numbers):
    """Two-byte numbers."""
    return b"".join((n & 0xFFFF).to_bytes(2, "big") for n in numbers)


def xy(*points):
    """The record of some points."""
    return gds.record(gds.XY, b"".join(n.to_bytes(4, "big", signed=True)
                                       for p in points for n in p))


ANGLES = {1: bytes.fromhex("425A000000000000"), 2: bytes.fromhex("42B4000000000000"),
          3: bytes.fromhex("4310E00000000000")}


def reference_records(ref):
    """The records of one reference."""
    rec, single = gds.record, ref.columns == ref.rows == 1
    mirrored, quarters = ref.turn
    out = [rec(gds.SREF if single else gds.AREF), rec(gds.SNAME, ref.cell)]
    if mirrored or quarters:
        out.append(rec(gds.STRANS, b"\x80\0" if mirrored else b"\0\0"))
    if quarters:
        out.append(rec(gds.ANGLE, ANGLES[quarters]))
    if single:
        out.append(xy(ref.origin))
    else:
        out.append(rec(gds.COLROW, short(ref.columns, ref.rows)))
        ends = [tuple(ref.origin[k] + times * step[k] for k in (0, 1))
                for times, step in ((ref.columns, ref.column_step), (ref.rows, ref.row_step))]
        out.append(xy(ref.origin, *ends))
    out.append(rec(gds.ENDEL))
    return out


def rectangle_records(key, rect):
    """The records of one rectangle as a boundary."""
    x1, y1, x2, y2 = rect
    return [gds.record(gds.BOUNDARY), gds.record(gds.LAYER, short(key[0])),
            gds.record(gds.DATATYPE, short(key[1])),
            xy((x1, y1), (x1, y2), (x2, y2), (x2, y1), (x1, y1)), gds.record(gds.ENDEL)]
