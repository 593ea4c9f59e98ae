"""Devices of each cell: the edge-connected parts of the gate layer with their sizes."""

from squares import around, canon, parts, sides


class Gate:
    """A device of a cell; `cause` is None where it is good, else the report's word for it."""

    def __init__(self, number, device, area, least):
        self.number, self.device, self.area, self.least = number, device, area, least
        self.cause = None
        self.twice_w = self.twice_l = 0
        self.source = self.drain = self.gate = self.bulk = None

    @property
    def good(self):
        """Whether it has no cause against it."""
        return self.cause is None

    def terminals(self):
        """The nets of its four terminals."""
        return (self.source, self.drain, self.gate, self.bulk)


def device_layers(device):
    """The names of one device rule by their plain meaning."""
    layers = device.layers
    if device.kind == "mos":
        return {"gate": layers[b"G"], "sd": layers[b"SD"], "end": layers[b"tS"],
                "top": layers[b"tG"], "bulk": layers[b"tB"]}
    if device.kind == "resistor":
        return {"gate": layers[b"R"], "sd": layers[b"C"], "end": layers[b"tA"],
                "top": None, "bulk": layers[b"tW"]}
    return {"end": layers[b"tA"], "bulk": layers[b"tC"]}


class CellGates:
    """The gates of one cell.  `settled` has the areas of all that are settled in it."""

    def __init__(self, view, nets, below):
        self.view, self.nets = view, nets
        self.rules = view.deep.rules
        self.listed, self.settled = [], set()
        images = {(number, tuple(canon([motion.rect(r) for r in area])))
                  for child, motion in view.deep.layout.places(view.cell)
                  for number, area in below[child].settled}
        for number, device in enumerate(self.rules.devices):
            found = []
            for part, ring in self._settled(device):
                area = tuple(view.grid.canon(part))
                self.settled.add((number, area))
                if (number, area) not in images:
                    gate = Gate(number, device, area, view.grid.least(part))
                    self._measure(gate, part, ring)
                    found.append(gate)
            self.listed += sorted(found, key=lambda g: (g.least[1], g.least[0]))

    def _settled(self, device):
        """The parts that, with their rings, lie off all squares that the cell leaves.

        With `keep_covered` some square of the part must be one that others don't make alone.
        """
        view, rules = self.view, self.rules
        names = device.layers.values()
        inputs = frozenset().union(*(rules.inputs(n) for n in names))
        left = view.near(inputs, max(rules.reach(n) for n in names))
        regions = [device_layers(device).get("gate")]
        if device.kind == "diode":
            regions = [device.layers[b"P"], device.layers[b"N"]]
        area = set.intersection(*(view.flat[name] for name in regions))
        lone = set()
        if rules.keep_covered:
            lone = set.intersection(*(view.lone(name) for name in regions))
        for part in parts(area):
            ring = {near for cell in part for near in around(cell)} - part
            if not (part | ring) & left and part - lone:
                yield part, ring

    def _measure(self, gate, part, ring):
        if gate.device.kind == "diode":
            self._diode(gate, part)
            return
        view, grid = self.view, self.view.grid
        layers = device_layers(gate.device)
        sd = view.flat[layers["sd"]]
        beside_part = {b for cell in part for b in sides(cell)} - part
        groups = [g for g in parts(ring & sd) if g & beside_part]
        for cell in part:
            for beside in sides(cell):
                if beside not in part:
                    edge = grid.height(cell) if beside[1] == cell[1] else grid.width(cell)
                    if beside in sd:
                        gate.twice_w += edge
                    else:
                        gate.twice_l += edge
        gate.cause = self._cause(gate, part, groups, layers)
        if gate.cause:
            return
        groups.sort(key=lambda g: grid.least(g)[::-1])
        gate.source, gate.drain = (self._net(layers["end"], g) for g in groups)
        gate.bulk = self._global_or_net(layers["bulk"], part)
        gate.gate = gate.bulk
        if layers["top"] is not None:
            gate.gate = self._net(layers["top"], part)

    def _cause(self, gate, part, groups, layers):
        flat = self.view.flat
        if len(groups) != 2:
            total = len(groups)
            return b"groups-%d" % total
        if layers["top"] is not None and part - flat[layers["top"]]:
            return b"off-gate"
        if set().union(*groups) - flat[layers["end"]]:
            return b"off-sd"
        if self._misses(layers["bulk"], part):
            return b"no-bulk"
        return None if gate.twice_l else b"no-length"

    def _diode(self, gate, part):
        grid = self.view.grid
        layers = device_layers(gate.device)
        gate.twice_w = grid.area(part)
        gate.twice_l = 2 * sum(
            grid.height(cell) if beside[1] == cell[1] else grid.width(cell)
            for cell in part for beside in sides(cell) if beside not in part)
        if self._misses(layers["end"], part):
            gate.cause = b"off-sd"
        elif self._misses(layers["bulk"], part):
            gate.cause = b"no-bulk"
        else:
            gate.source = gate.drain = self._global_or_net(layers["end"], part)
            gate.gate = gate.bulk = self._global_or_net(layers["bulk"], part)

    def _misses(self, layer, part):
        """Whether the layer has no global and doesn't cover the part."""
        return self.rules.global_of(layer) is None and bool(part - self.view.flat[layer])

    def _net(self, layer, cells):
        return self.nets.at(layer, self.view.grid.least(cells))

    def _global_or_net(self, layer, part):
        name = self.rules.global_of(layer)
        return self._net(layer, part) if name is None else self.nets.with_global(name)
