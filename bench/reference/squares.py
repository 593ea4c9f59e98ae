"""Sets of unit squares over a compressed grid, their lists of rectangles, and motions.

A rectangle is (x1, y1, x2, y2) with x1 < x2 and y1 < y2.  A set of squares is a Python set of
cells (column, row) of a Grid, whose lines stand at all coordinates that matter.
"""

from bisect import bisect_left


class Motion:
    """A point (x, y) goes to (a x + b y + dx, c x + d y + dy)."""

    def __init__(self, a, b, c, d, dx, dy):
        self.a, self.b, self.c, self.d, self.dx, self.dy = a, b, c, d, dx, dy

    @staticmethod
    def turned(mirrored, quarters, dx, dy):
        """Mirror about the x axis first, then quarter turns, then the shift."""
        a, b, c, d = (1, 0, 0, -1) if mirrored else (1, 0, 0, 1)
        for _ in range(quarters):
            a, b, c, d = -c, -d, a, b
        return Motion(a, b, c, d, dx, dy)

    def point(self, x, y):
        """The image of a point."""
        return (self.a * x + self.b * y + self.dx, self.c * x + self.d * y + self.dy)

    def rect(self, rect):
        """The image of a rectangle, which may have no width or height."""
        xa, ya = self.point(rect[0], rect[1])
        xb, yb = self.point(rect[2], rect[3])
        return (min(xa, xb), min(ya, yb), max(xa, xb), max(ya, yb))

    def then(self, outer):
        """This motion first, then the outer one."""
        dx, dy = outer.point(self.dx, self.dy)
        return Motion(outer.a * self.a + outer.b * self.c, outer.a * self.b + outer.b * self.d,
                      outer.c * self.a + outer.d * self.c, outer.c * self.b + outer.d * self.d,
                      dx, dy)

    def inverse(self):
        """The motion that undoes this one; the turn's matrix is orthogonal."""
        a, b, c, d = self.a, self.c, self.b, self.d
        return Motion(a, b, c, d, -(a * self.dx + b * self.dy), -(c * self.dx + d * self.dy))


STAY = Motion(1, 0, 0, 1, 0, 0)


def clip(rect, window):
    """The part of a rectangle in the window, or None."""
    x1, y1 = max(rect[0], window[0]), max(rect[1], window[1])
    x2, y2 = min(rect[2], window[2]), min(rect[3], window[3])
    return (x1, y1, x2, y2) if x1 < x2 and y1 < y2 else None


def grown(rect, size):
    """The rectangle with a margin on all four sides."""
    return (rect[0] - size, rect[1] - size, rect[2] + size, rect[3] + size)


class Grid:
    """Lines in x and in y; a cell is the rectangle between neighbouring lines."""

    def __init__(self, rects, margins=(0,), further=()):
        """Lines at the sides of `rects`, moved by each margin, and at those of `further`."""
        xs = {x + m for r in rects for x in (r[0], r[2]) for m in margins}
        ys = {y + m for r in rects for y in (r[1], r[3]) for m in margins}
        self.xs = sorted(xs.union(x for r in further for x in (r[0], r[2])))
        self.ys = sorted(ys.union(y for r in further for y in (r[1], r[3])))

    def cells(self, rects):
        """The cells of the grid that the rectangles cover; their sides lie on its lines."""
        out = set()
        most_x, most_y = len(self.xs) - 1, len(self.ys) - 1
        for x1, y1, x2, y2 in rects:
            left, right = bisect_left(self.xs, x1), min(bisect_left(self.xs, x2), most_x)
            for row in range(bisect_left(self.ys, y1), min(bisect_left(self.ys, y2), most_y)):
                out.update((column, row) for column in range(left, right))
        return out

    def all_cells(self):
        """Every cell of the grid."""
        return {(x, y) for x in range(len(self.xs) - 1) for y in range(len(self.ys) - 1)}

    def width(self, cell):
        """The cell's extent in x."""
        return self.xs[cell[0] + 1] - self.xs[cell[0]]

    def height(self, cell):
        """The cell's extent in y."""
        return self.ys[cell[1] + 1] - self.ys[cell[1]]

    def area(self, cells):
        """The number of unit squares in the cells."""
        return sum(self.width(c) * self.height(c) for c in cells)

    def least(self, cells):
        """The least square (ordered by y, then x) of some cells."""
        column, row = min(cells, key=lambda c: (c[1], c[0]))
        return (self.xs[column], self.ys[row])

    def canon(self, cells):
        """The list of rectangles of a set of cells.

        In each rectangle's rows its x range is a maximal run of the set, and neither the row
        below nor the row above has the same run.  Ordered by y, then x.
        """
        rows = {}
        for column, row in cells:
            rows.setdefault(row, []).append(column)
        open_runs, done = {}, []
        last = None
        for row in sorted(rows) + [None]:
            runs = set() if row is None else self._runs(sorted(rows[row]))
            if row is None or last is None or row != last + 1:
                done += [(x1, y1, x2, self.ys[last + 1]) for (x1, x2), y1 in open_runs.items()]
                open_runs = {}
            still = {}
            for run, y1 in open_runs.items():
                if run in runs:
                    still[run] = y1
                else:
                    done.append((run[0], y1, run[1], self.ys[last + 1]))
            if row is not None:
                for run in runs:
                    still.setdefault(run, self.ys[row])
            open_runs, last = still, row
        return sorted(done, key=lambda r: (r[1], r[0]))

    def _runs(self, columns):
        runs, first = set(), columns[0]
        for here, after in zip(columns, columns[1:] + [None]):
            if after != here + 1:
                runs.add((self.xs[first], self.xs[here + 1]))
                first = after
        return runs


def canon(rects):
    """The list of rectangles of the union."""
    grid = Grid(rects)
    return grid.canon(grid.cells(rects))


def sides(cell):
    """The four cells that share a side."""
    x, y = cell
    return ((x - 1, y), (x + 1, y), (x, y - 1), (x, y + 1))


def around(cell):
    """The eight cells that share a side or a corner."""
    x, y = cell
    return ((x - 1, y - 1), (x, y - 1), (x + 1, y - 1), (x - 1, y), (x + 1, y),
            (x - 1, y + 1), (x, y + 1), (x + 1, y + 1))


def parts(cells):
    """The classes of cells that chains of shared sides join."""
    left, out = set(cells), []
    while left:
        first = left.pop()
        part, todo = {first}, [first]
        while todo:
            for beside in sides(todo.pop()):
                if beside in left:
                    left.remove(beside)
                    part.add(beside)
                    todo.append(beside)
        out.append(part)
    return out


class Classes:
    """Union and find over the numbers from 0."""

    def __init__(self, count):
        self.above = list(range(count))

    def find(self, item):
        """The least item of the class."""
        while self.above[item] != item:
            self.above[item] = self.above[self.above[item]]
            item = self.above[item]
        return item

    def join(self, one, other):
        """Makes one class of two."""
        one, other = self.find(one), self.find(other)
        self.above[max(one, other)] = min(one, other)
