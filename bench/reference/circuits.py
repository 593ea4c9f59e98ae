"""From the tables of the cells to the netlist, and the whole extraction."""

from gates import CellGates
from layers import Deep
from names import folded
from netlist import DIODE, RESISTOR, Call, Circuit, Device, normal
from nets import CellNets, Pins


class Extracted:
    """All tables of the cells and the netlist, cell by cell in the design's order."""

    def __init__(self, layout, rules):
        self.layout, self.rules = layout, rules
        self.deep = Deep(layout, rules)
        self.nets, gates = {}, {}
        for cell in layout.order:
            self.nets[cell] = CellNets(self.nets, self.deep.views[cell])
            gates[cell] = CellGates(self.deep.views[cell], self.nets[cell], gates)
        self.gates = {cell: found.listed for cell, found in gates.items()}
        self.pins = Pins(layout, rules, self.nets, self.gates)
        self.drawn = {}
        self.circuits, self.position = [], {}
        for cell in layout.order:
            self.drawn[cell] = self._drawn(cell)
            self._circuit(cell)
        self.top = self.position[layout.top]
        self.bad = [(cell, gate) for cell in layout.order for gate in self.gates[cell]
                    if not gate.good]

    def _drawn(self, cell):
        nets = self.nets[cell]
        drawn = [False] * nets.count
        for gate in self.gates[cell]:
            if gate.good:
                for net in gate.terminals():
                    drawn[net] = True
        for (place, net), above in nets.of_child.items():
            child = nets.places[place][0]
            if self.pins.pin[child][net] and self.drawn[child][net]:
                drawn[above] = True
        return drawn

    def _names(self, cell):
        """The names of the drawn nets."""
        names, seen, number = {}, set(), 0
        for net in range(self.nets[cell].count):
            if not self.drawn[cell][net]:
                continue
            number += 1
            base = folded(self.pins.base[cell][net])
            plain = base and b"$" not in base and base not in seen
            names[net] = base if plain else base + b"$%d" % number
            seen.add(base)
        return names

    def pin_nets(self, cell):
        """The drawn nets of the cell that are pins, in order."""
        return [n for n in range(self.nets[cell].count)
                if self.drawn[cell][n] and self.pins.pin[cell][n]]

    def _circuit(self, cell):
        layout, nets = self.layout, self.nets[cell]
        good = [gate for gate in self.gates[cell] if gate.good]
        calls = [(place, child) for place, (child, _) in enumerate(nets.places)
                 if child in self.position]
        if not good and not calls and cell != layout.top:
            return
        name = folded(layout.names[cell])
        earlier = {folded(layout.names[c]) for c in self.position}
        if b"$$" in name or name in earlier:
            name += b"$$%d" % (len(self.circuits) + 1)
        names = self._names(cell)
        rows = [Call(self.position[child], [nets.of_child[place, n] for n in self.pin_nets(child)])
                for place, child in calls]
        circuit = normal(Circuit(name), self.pin_nets(cell),
                         [self._row(gate) for gate in good], rows, names.__getitem__)
        self.position[cell] = len(self.circuits)
        self.circuits.append(circuit)

    def _row(self, gate):
        unit = self.layout.library.unit_pm
        length, width = gate.twice_l * unit * 500, gate.twice_w * unit * 500
        device_class = folded(gate.device.device_class)
        if gate.device.kind == "resistor":
            device_class = RESISTOR + device_class
        elif gate.device.kind == "diode":
            device_class = DIODE + device_class
            width = gate.twice_w * unit * unit
        return Device(device_class, length, width, gate.drain, gate.gate, gate.source, gate.bulk)
