"""Flat, disturbed, kept and local squares of each cell, from their definitions.

A cell leaves a square for an input layer where it is disturbed; with `keep_covered` only where it
has nothing of this layer there itself.

All paths from the top are listed, so this is for layouts with few placements.
"""

from squares import STAY, Grid, clip, grown


def dilated(grid, cells, size):
    """The cells of the squares within `size` of a square of the set."""
    return grid.cells([grown(r, size) for r in grid.canon(cells)]) if size else cells


def all_paths(layout, cell, motion=STAY, path=()):
    """Every path below a cell with its motion and its end, the empty path first."""
    yield path, motion, cell
    for k, (child, inner) in enumerate(layout.places(cell)):
        yield from all_paths(layout, child, inner.then(motion), path + (k,))


class View:
    """The layers of one cell as cells of its own grid."""

    def __init__(self, deep, cell):
        self.deep, self.cell = deep, cell
        layout, rules = deep.layout, deep.rules
        hull = layout.hulls[cell]
        self.window = None
        if hull and hull[0] < hull[2] and hull[1] < hull[3]:
            self.window = grown(hull, 2 * deep.reach + 1)
        flat_rects = deep.flat_rects[cell]
        zone_rects = deep.zone_rects(cell, self.window)
        images = [(name, motion.rect(rect)) for child, motion in layout.places(cell)
                  for name, rects in deep.kept_rects[child].items() for rect in rects]
        further = [r for rects in zone_rects.values() for r in rects]
        margins = deep.margins if rules.keep_covered else deep.zone_margins
        further = [grown(r, m) for r in further for m in margins]
        further += [rect for _, rect in images]
        self.grid = Grid([r for rects in flat_rects.values() for r in rects], deep.margins,
                         further)
        self.zone = {key: self.grid.cells(rects) for key, rects in zone_rects.items()}
        self.inputs = {key: self.grid.cells(rects) for key, rects in flat_rects.items()}
        self.left = self.zone
        if rules.keep_covered:
            self.left = {key: cells - self.inputs[key] for key, cells in self.zone.items()}
        self.flat = {}
        for name, form in enumerate(rules.forms):
            self.flat[name] = self._flat(form)
        self.kept, self.local = {}, {}
        for name, form in enumerate(rules.forms):
            if form[0] == "labels":
                continue
            if form[0] == "input":
                self.kept[name] = self.flat[name]
                self.local[name] = self.grid.cells(layout.own[cell].get(form[1], ()))
                continue
            self.kept[name] = self.flat[name] - self.near(rules.inputs(name), rules.reach(name))
            placed = self.grid.cells([rect for other, rect in images if other == name])
            self.local[name] = self.kept[name] - placed
        self.kept_rects = {n: self.grid.canon(cells) for n, cells in self.kept.items()}
        self.local_rects = {n: self.grid.canon(cells) for n, cells in self.local.items()}

    def _flat(self, form):
        word = form[0]
        if word == "input":
            return self.inputs[form[1]]
        if word in ("labels", "empty"):
            return set()
        one = self.flat[form[1]]
        if word == "sized":
            return self._sized(one, form[2])
        other = self.flat[form[2]]
        return {"and": one & other, "or": one | other, "not": one - other,
                "xor": one ^ other}[word]

    def _sized(self, cells, size):
        if size > 0:
            return dilated(self.grid, cells, size)
        return cells - dilated(self.grid, self.grid.all_cells() - cells, -size)

    def near(self, inputs, reach):
        """The cells within `reach` of a square that the cell leaves for one of these inputs."""
        found = set().union(*(self.left[key] for key in inputs))
        return dilated(self.grid, found, reach)

    def lone(self, name):
        """The most that the shapes of others may make of a name without the cell's."""
        form = self.deep.rules.forms[name]
        word = form[0]
        if word == "input":
            return self.zone[form[1]]
        if word in ("labels", "empty"):
            return set()
        one = self.lone(form[1])
        if word == "sized":
            return self._sized(one, form[2])
        if word == "not":
            return one
        other = self.lone(form[2])
        return one & other if word == "and" else one | other


class Deep:
    """All cells reached from the top."""

    def __init__(self, layout, rules):
        self.layout, self.rules = layout, rules
        self.keys = sorted({form[1] for form in rules.forms if form[0] == "input"})
        self.reach = max((rules.reach(n) for n in range(len(rules.forms))), default=0)
        offsets = self._offsets()
        self.margins = sorted({o + m for o in offsets for m in (-1, 0, 1)}
                              if rules.devices else offsets)
        self.zone_margins = sorted({rules.reach(n) for n in range(len(rules.forms))} | {0})
        self.flat_rects = {}
        for cell in layout.order:
            self.flat_rects[cell] = self._flat(cell)
        self.paths = list(all_paths(layout, layout.top))
        self.shapes = [(path, key, motion.rect(rect)) for path, motion, cell in self.paths
                       for key in self.keys for rect in layout.own[cell].get(key, ())]
        self.kept_rects, self.views = {}, {}
        for cell in layout.order:
            self.views[cell] = View(self, cell)
            self.kept_rects[cell] = self.views[cell].kept_rects

    def _offsets(self):
        """How far the sides of any name may lie from those of the inputs."""
        per_name = []
        for form in self.rules.forms:
            if form[0] in ("input", "labels", "empty"):
                per_name.append({0})
            elif form[0] == "sized":
                size = abs(form[2])
                per_name.append({o + s for o in per_name[form[1]] for s in (-size, 0, size)})
            else:
                per_name.append(per_name[form[1]] | per_name[form[2]])
        return {0}.union(*per_name)

    def _flat(self, cell):
        """Per input layer the rectangles of the cell and of all cells below it."""
        out = {key: list(self.layout.own[cell].get(key, ())) for key in self.keys}
        for child, motion in self.layout.places(cell):
            for key, rects in self.flat_rects[child].items():
                out[key] += [motion.rect(r) for r in rects]
        return {key: sorted(set(rects)) for key, rects in out.items()}

    def zone_rects(self, cell, window):
        """Per input layer the disturbed squares in the window.

        A square is disturbed where, seen from the top through some path to the cell, a shape
        lies on it whose own path doesn't begin with that path.
        """
        found = {key: set() for key in self.keys}
        if window is None:
            return found
        for path, motion, end in self.paths:
            if end != cell:
                continue
            seen, back = motion.rect(window), motion.inverse()
            for other, key, rect in self.shapes:
                part = clip(rect, seen)
                if part and other[:len(path)] != path:
                    found[key].add(back.rect(part))
        return found
