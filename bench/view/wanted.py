"""What a database has to show of a case, by the independent implementation of the rules (../reference)."""

import os
import sys

HERE = os.path.dirname(os.path.abspath(__file__))
sys.path[:0] = [os.path.join(HERE, "..", "reference")]
import cli
import turns
from circuits import Extracted
from netlist import merged
from squares import canon


def cell_nets(extracted, cell):
    """The cell's nets in the order of its circuit's."""
    order = {net: None for net in extracted.pin_nets(cell)}
    good = [gate for gate in extracted.gates[cell] if gate.good]
    for gate in good:
        order.update(dict.fromkeys((gate.drain, gate.gate, gate.source, gate.bulk)))
    nets = extracted.nets[cell]
    for place, (child, _) in enumerate(nets.places):
        if child in extracted.position:
            order.update(dict.fromkeys(nets.of_child[place, net] for net in extracted.pin_nets(child)))
    return list(order)


def turn(motion):
    """A motion as read_back.rb prints one."""
    mirrored = motion.a * motion.d - motion.b * motion.c < 0
    angle = {(1, 0): 0, (0, 1): 90, (-1, 0): 180, (0, -1): 270}[motion.a, motion.c]
    return "%s,%d,%d,%d" % ("m" if mirrored else "r", angle, motion.dx, motion.dy)


def is_far(stream, top):
    """Whether something of the layout lies 2^30 or more from its cell's origin."""
    design = cli.take_layout(stream, top.encode() if top else None)
    return any(abs(c) >= 2 ** 30 for cell in design.order for c in design.hulls[cell] or ())


class Wanted:
    """The circuits that are compared, and of each circuit of the layout what is drawn."""

    def __init__(self, files, top):
        rules = cli.take_rules(files["lvs"])
        design = cli.take_layout(files["gds"], top)
        schematic = cli.take_schematic(files["cir"])
        self.extracted = ex = Extracted(design, rules)
        self.circuits, self.rules = ex.circuits, rules
        if rules.combine:
            self.circuits, schematic = [merged(c) for c in ex.circuits], [merged(c) for c in schematic]
        self.rights = schematic
        self.pairs, self.answers, _, _ = turns.compare(self.circuits, ex.top, schematic, rules)
        self.cell = {ex.circuits[k].name: cell for cell, k in ex.position.items()}
        self.lefts = [left for left, _ in self.pairs] if self.pairs else self.circuits

    def shown(self, circuit):
        """The circuit's name as the layout has it."""
        return self.extracted.layout.names[self.cell[circuit.name]]

    def nets(self, circuit):
        """Of each net its rectangles by layer."""
        found = self.extracted.nets[self.cell[circuit.name]]
        names = self.rules.names
        return [{names[c].decode(): canon(rects) for c, rects in found.squares[net].items() if rects}
                for net in cell_nets(self.extracted, self.cell[circuit.name])]

    def turns(self, circuit):
        return [turn(motion) for child, motion in self.extracted.layout.places(self.cell[circuit.name])
                if child in self.extracted.position]

    def hull(self, circuit):
        return self.extracted.layout.hulls[self.cell[circuit.name]]

    def same_rows(self, circuit):
        """Whether a circuit as it is compared has the nets, pins and calls of its cell's."""
        own = self.circuits[self.extracted.position[self.cell[circuit.name]]]
        calls = [self.lefts[c.circuit].name for c in circuit.calls], [self.circuits[c.circuit].name for c in own.calls]
        return circuit.nets == own.nets and circuit.pins == own.pins and calls[0] == calls[1] \
            and [c.nets for c in circuit.calls] == [c.nets for c in own.calls]

    def own(self, circuit):
        """The circuit of its cell."""
        return self.circuits[self.extracted.position[self.cell[circuit.name]]]

    def has_own_nets(self, circuit):
        """Whether none of its cell's nets was dropped."""
        own = self.own(circuit)
        return set(own.nets) <= set(circuit.nets) and len(own.pins) == len(circuit.pins)

    def nets_by_name(self, circuit):
        """The rectangles of the nets whose names are one net's in the circuit and in its cell's, by number."""
        own, nets = self.own(circuit), self.nets(circuit)
        return {circuit.nets.index(name): nets[k] for k, name in enumerate(own.nets)
                if own.nets.count(name) == circuit.nets.count(name) == 1}

    def all_regions(self, cell):
        """The regions of a cell's devices and, moved, of those of the cells whose circuits stand in no pair."""
        kept, found = {c.name for c in self.lefts}, [gate.area for gate in self.extracted.gates[cell] if gate.good]
        for child, motion in self.extracted.layout.places(cell):
            if child in self.extracted.position and self.circuits[self.extracted.position[child]].name not in kept:
                found += [[motion.rect(r) for r in area] for area in self.all_regions(child)]
        return found

    def same_devices(self, circuit):
        return circuit.devices == self.extracted.circuits[self.extracted.position[self.cell[circuit.name]]].devices


def rects(text):
    """Rectangles of read_back.rb."""
    return canon([tuple(map(int, r.split(","))) for r in text.split(";")])


def layers(words):
    return {word.split(":")[0]: rects(word.split(":")[1]) for word in words}


def whole(wanted, circuit, memo):
    """Whether the circuit and all below it have the nets of their cells, and more."""
    if circuit.name not in memo:
        memo[circuit.name] = wanted.has_own_nets(circuit) and all(
            whole(wanted, wanted.lefts[call.circuit], memo) for call in circuit.calls)
    return memo[circuit.name]


def differences(read, wanted):
    """What differs between what KLayout read as drawn and what is wanted, and how many circuits, nets and devices were compared."""
    wrong, memo, counts = [], {}, [0, 0, 0]
    for circuit in wanted.lefts:
        key = wanted.shown(circuit).hex()
        name = wanted.shown(circuit).decode("latin-1")
        if key not in read["J"]:
            wrong.append("circuit %s isn't there" % name)
            continue
        shown = read["J"][key]
        if not whole(wanted, circuit, memo):
            continue
        counts[0] += 1
        is_own = wanted.same_rows(circuit)
        hull = wanted.hull(circuit)
        if shown["box"] != ("-" if hull is None else ",".join(map(str, hull))):
            wrong.append("box of %s: %s for %s" % (name, shown["box"], hull))
        if is_own and shown["turns"] != wanted.turns(circuit):
            wrong.append("calls of %s: %s for %s" % (name, shown["turns"], wanted.turns(circuit)))
        right = dict(enumerate(wanted.nets(circuit))) if is_own else wanted.nets_by_name(circuit)
        for k in right:
            counts[1] += 1
            if layers(shown["shapes"][k]) != right[k]:
                wrong.append("net %d of %s: %s for %s" % (k + 1, name, layers(shown["shapes"][k]), right[k]))
        if wanted.rules.combine and not wanted.same_devices(circuit):
            continue
        counts[2] += len(circuit.devices)
        regions = [canon(area) for area in wanted.all_regions(wanted.cell[circuit.name])]
        found = [rects(r) for r in shown["regions"]]
        if (found, sorted(found))[not is_own] != (regions, sorted(regions))[not is_own]:
            wrong.append("regions of %s" % name)
    return wrong, counts
