"""Items and nets of each cell, their squares, base names and pins."""

from squares import Classes, sides


class CellNets:
    """The nets of a cell.

    `items` are ("own", conductor, rect's position), ("child", placement, net) or
    ("global", name); `net_of` has the net of each item.  `squares[net]` maps each conductor to
    rectangles, `globals[net]` is a set of names.
    """

    def __init__(self, nets, view):
        self.view = view
        layout, rules = view.deep.layout, view.deep.rules
        self.places = layout.places(view.cell)
        self.items, squares, held = [], [], []
        for conductor in rules.conductors():
            for k, rect in enumerate(view.local_rects[conductor]):
                self.items.append(("own", conductor, k))
                squares.append({conductor: [rect]})
                held.append(set())
        for place, (child, motion) in enumerate(self.places):
            below = nets[child]
            for net in range(below.count):
                self.items.append(("child", place, net))
                squares.append({c: [motion.rect(r) for r in rects]
                                for c, rects in below.squares[net].items()})
                held.append(set(below.globals[net]))
        for name in rules.global_names():
            self.items.append(("global", name))
            squares.append({})
            held.append({name})
        self._classes(squares, held)

    def _classes(self, squares, held):
        joined = self._linked(squares, held)
        numbers = {}
        self.net_of = [numbers.setdefault(joined.find(k), len(numbers))
                       for k in range(len(self.items))]
        self.count = len(numbers)
        self.squares = [{} for _ in range(self.count)]
        self.globals = [set() for _ in range(self.count)]
        self.size = [0] * self.count
        for k, net in enumerate(self.net_of):
            self.size[net] += 1
            self.globals[net] |= held[k]
            for conductor, rects in squares[k].items():
                self.squares[net].setdefault(conductor, []).extend(rects)
        grid = self.view.grid
        for net in range(self.count):
            self.squares[net] = {c: grid.canon(grid.cells(rects))
                                 for c, rects in self.squares[net].items()}
        self.of_child = {item[1:]: net for item, net in zip(self.items, self.net_of)
                         if item[0] == "child"}

    def _linked(self, squares, held):
        """Joins items whose squares or globals are linked."""
        rules, grid = self.view.deep.rules, self.view.grid
        joined = Classes(len(self.items))
        owner = {c: {} for c in rules.conductors()}     # cell -> an item that has it
        for k, some in enumerate(squares):
            for conductor, rects in some.items():
                for cell in grid.cells(rects):
                    joined.join(k, owner[conductor].setdefault(cell, k))
        pairs = {(c, c) for c in owner}
        pairs |= {(a, b) for a, b in rules.connects if a in owner and b in owner}
        for one, other in pairs:
            for cell, item in owner[one].items():
                for beside in sides(cell) + (cell,):
                    if beside in owner[other]:
                        joined.join(item, owner[other][beside])
        at_global = {item[1]: k for k, item in enumerate(self.items) if item[0] == "global"}
        for k, some in enumerate(squares):
            for name in held[k]:
                joined.join(k, at_global[name])
            for conductor, name in rules.globals:
                if some.get(conductor):
                    joined.join(k, at_global[name])
        return joined

    def at(self, conductor, square):
        """The net that has this square on the conductor."""
        x, y = square
        for net, some in enumerate(self.squares):
            for x1, y1, x2, y2 in some.get(conductor, ()):
                if x1 <= x < x2 and y1 <= y < y2:
                    return net
        raise AssertionError("no net holds the square")

    def with_global(self, name):
        """The net that holds the global."""
        return next(net for net, some in enumerate(self.globals) if name in some)


def attached(nets, rules, texts):
    """Per net the set of texts that attach to it."""
    found = [set() for _ in range(nets.count)]
    labels = {n: f[1] for n, f in enumerate(rules.forms) if f[0] == "labels"}
    joined = {(a, b) for a, b in rules.connects} | {(b, a) for a, b in rules.connects}
    for key, (x, y), text in texts:
        carriers = {c for c, n in joined if n in labels and labels[n] == key}
        for net, some in enumerate(nets.squares):
            for conductor in carriers:
                for x1, y1, x2, y2 in some.get(conductor, ()):
                    if x1 <= x <= x2 and y1 <= y <= y2:
                        found[net].add(text)
    return found


class Pins:
    """Per cell which nets are pins, and their base names (b"" for none)."""

    def __init__(self, layout, rules, nets, gates):
        self.pin, self.base = {}, {}
        for cell in layout.order:
            own = nets[cell]
            texts = attached(own, rules, layout.library.cells[cell].texts)
            self.base[cell] = [b",".join(sorted(t | g)) for t, g in zip(texts, own.globals)]
            self.pin[cell] = [bool(t) or bool(g) for t, g in zip(texts, own.globals)]
        for cell in reversed(layout.order):         # callers before the called
            own = nets[cell]
            used = {n for gate in gates[cell] if gate.good for n in gate.terminals()}
            for (place, net), above in own.of_child.items():
                child = own.places[place][0]
                if own.size[above] > 1 or above in used or self.pin[cell][above]:
                    self.pin[child][net] = True
