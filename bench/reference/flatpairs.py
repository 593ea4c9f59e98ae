#!/usr/bin/env python3
"""Compares layouts and schematics whose devices are split in several ways, and flat by brute force.

flatpairs.py PROGRAM COUNT SEED0 [--jobs N]

Of a random netlist two are made: devices are split into fingers, which stand beside each other or
in cells of their own, calls are dissolved, and parts are gathered in new cells, on each side in
another way; often one side is changed. One is drawn, the other written as a schematic, and the
program compares them with each choice of the lines `flatten_unmatched` and `combine_devices`. Both
netlists are expanded, with `combine_devices` alike devices are made one, and a correspondence is
sought: with `flatten_unmatched` the status must be 0 where there is one and 1 where there is none,
without it 0 only where there is one.
"""

import argparse
import collections
import multiprocessing
import os
import random
import subprocess
import sys
import tempfile

import build
from netlist import RESISTOR, Call, Circuit, Device, normal, write

# in nanometres: a step of the drawing, and a micrometre, by which widths go
STEP, UNIT = 100, 1000
# in femtometres: the lengths of a transistor's gate and of a resistor, and a micrometre
LENGTH, LONG, MICRON = 2 * 10 ** 8, 16 * 10 ** 8, 10 ** 9
KINDS = [b"N", b"N", b"P", RESISTOR + b"R"]

# A cell's nets are names; calls are (number of the cell, nets), of a finger's cell (None, its
# device) in the number's place.
Cell = collections.namedtuple("Cell", "name pins devices calls")

RULES = b"""well = input(1, 0)
active = input(2, 0)
poly = input(3, 0)
marked = input(4, 0)
body = input(5, 0)
head = input(6, 0)
tap = input(7, 0)
contact = input(8, 0)
column = input(9, 0)
via = input(10, 0)
row = input(11, 0)
txt = labels(11, 1)
nactive = active - marked
pactive = active & marked
ngate = nactive & poly
pgate = pactive & poly
nsd = nactive - poly
psd = pactive - poly
connect(nsd, contact)
connect(psd, contact)
connect(poly, contact)
connect(head, contact)
connect(tap, contact)
connect(tap, well)
connect(contact, column)
connect(column, via)
connect(via, row)
connect(row, txt)
extract_devices(mos4("N"), { "SD" => nsd, "G" => ngate, "W" => well, "tG" => poly })
extract_devices(mos4("P"), { "SD" => psd, "G" => pgate, "W" => well, "tG" => poly })
extract_devices(resistor_with_bulk("R"), { "R" => body, "C" => head, "W" => well })
"""


def is_resistor(device):
    """Whether it is a resistor, whose gate is its bulk."""
    return device.device_class[:1] == RESISTOR


def ends_exchanged(device):
    """The device the other way round."""
    return device._replace(drain=device.source, source=device.drain)


class Pairs:
    """Makes two netlists of one."""

    def __init__(self, seed):
        self.rng = random.Random(seed)

    def device(self, kinds, nets):
        """A device over some of these nets."""
        drain, gate, source, bulk = (self.rng.choice(nets) for _ in range(4))
        kind = self.rng.choice(kinds)
        if kind[:1] == RESISTOR:
            gate = bulk
        return Device(kind, 1, self.rng.choice([1, 1, 2]), drain, gate, source, bulk)

    def base(self):
        """Few cells over few nets, so that alike devices are common; the top is the last."""
        rng, cells = self.rng, []
        for k in range(rng.randint(1, 2)):
            nets = [b"n%d" % i for i in range(rng.randint(3, 4))]
            devices = [self.device(KINDS, nets) for _ in range(rng.randint(1, 3))]
            used = sorted({net for device in devices for net in device[3:]})
            cells.append(Cell(b"C%d" % k, used[:rng.randint(1, len(used))], devices, []))
        nets = [b"t%d" % i for i in range(rng.randint(3, 5))]
        devices = [self.device(KINDS[:3], nets) for _ in range(rng.randint(0, 2))]
        calls = []
        for _ in range(rng.randint(1, 4)):
            number = rng.randrange(len(cells))
            calls.append((number, [rng.choice(nets) for _ in cells[number].pins]))
        return cells + [Cell(b"TOP", sorted(rng.sample(nets, rng.randint(1, 2))), devices, calls)]

    def parts(self, device):
        """The devices and the calls that stand for a device."""
        rng, part = self.rng, self.rng.random()
        if is_resistor(device) or part >= 0.5:
            return [device], []
        if part < 0.35:
            widths = [1] * device.width if rng.random() < 0.7 else [device.width]
            calls = []
            for width in widths:
                one = device if rng.random() < 0.5 else ends_exchanged(device)
                unit = device._replace(width=width, drain=b"d", gate=b"g", source=b"s", bulk=b"b")
                calls.append((unit, list(one[3:])))
            return [], calls
        if device.width == 1:
            return [device], []
        rest = device._replace(width=device.width - 1)
        return [device._replace(width=1), ends_exchanged(rest)], []

    def split(self, cells):
        """The cells with some devices in parts."""
        out = []
        for cell in cells:
            devices, calls = [], list(cell.calls)
            for device in cell.devices:
                own, units = self.parts(device)
                devices += own
                calls += units
            out.append(Cell(cell.name, cell.pins, devices, calls))
        return out

    def dissolve(self, cells):
        """A call of the top gives way to what stands in its cell."""
        top = cells[-1]
        places = [k for k, call in enumerate(top.calls) if isinstance(call[0], int)]
        if not places:
            return cells
        number, outer = top.calls[self.rng.choice(places)]
        inside, mark = cells[number], b"i%d" % self.rng.randrange(10 ** 6)
        known = dict(zip(inside.pins, outer))

        def at(net):
            return known.get(net, mark + net)

        calls = list(top.calls)
        calls.remove((number, outer))
        devices = top.devices + [d._replace(drain=at(d.drain), gate=at(d.gate), source=at(d.source),
                                            bulk=at(d.bulk)) for d in inside.devices]
        calls += [(one, [at(net) for net in nets]) for one, nets in inside.calls]
        return cells[:-1] + [Cell(top.name, top.pins, devices, calls)]

    def gather(self, cells):
        """Some of the top stands in a cell of its own, whose nets are all pins."""
        top, inner, outer = cells[-1], ([], []), ([], [])
        for k, rows in enumerate((top.devices, top.calls)):
            for row in rows:
                (inner if self.rng.random() < 0.5 else outer)[k].append(row)
        nets = sorted({net for d in inner[0] for net in d[3:]}
                      | {net for call in inner[1] for net in call[1]})
        if not nets:
            return cells
        new = Cell(b"G%d" % self.rng.randrange(1000), nets, *inner)
        return cells[:-1] + [new, Cell(top.name, top.pins, outer[0],
                                       outer[1] + [(len(cells) - 1, nets)])]

    def changed(self, cells):
        """A width, a gate's net or two nets of a call are others."""
        rng, number = self.rng, self.rng.randrange(len(cells))
        cell = cells[number]
        devices, calls = list(cell.devices), list(cell.calls)
        if devices and rng.random() < 0.6:
            k = rng.randrange(len(devices))
            one = devices[k]
            if is_resistor(one) or rng.random() < 0.5:
                devices[k] = one._replace(width=one.width + 1)
            else:
                devices[k] = one._replace(gate=rng.choice([one.drain, one.source, one.bulk]))
        elif calls:
            k = rng.randrange(len(calls))
            one, nets = calls[k]
            calls[k] = (one, nets[1::-1] + nets[2:])
        return cells[:number] + [Cell(cell.name, cell.pins, devices, calls)] + cells[number + 1:]

    def side(self, cells, changes, renames):
        """One side's circuits, and the others' names in some cases."""
        cells = self.split(cells)
        for _ in range(2):
            if self.rng.random() < 0.4:
                cells = self.dissolve(cells)
            if self.rng.random() < 0.4:
                cells = self.gather(cells)
        if self.rng.random() < changes:
            cells = self.changed(cells)
        return circuits_of(cells, b"Z" if self.rng.random() < renames else b"")

    def pair(self):
        """The layout's circuits and the schematic's."""
        base = self.base()
        return self.side(base, 0.3, 0.5), self.side(base, 0.4, 0.4)


def reached(cells):
    """The cells that the top reaches, by new numbers."""
    goes = {len(cells) - 1}
    for number in range(len(cells) - 1, -1, -1):
        if number in goes:
            goes |= {one for one, _ in cells[number].calls if isinstance(one, int)}
    to = {number: k for k, number in enumerate(sorted(goes))}
    return [cells[number]._replace(calls=[(to[one] if isinstance(one, int) else one, nets)
                                          for one, nets in cells[number].calls])
            for number in to]


def circuits_of(cells, before):
    """Circuits, callees first and the top last; each kind of finger has a cell."""
    cells = reached(cells)
    units, out, numbers = [], [], []
    for cell in cells:
        for one, _ in cell.calls:
            if not isinstance(one, int) and one not in units:
                units.append(one)
    for k, unit in enumerate(units):
        pins = [b"d", b"g", b"s", b"b"]
        out.append(normal(Circuit(before + b"U%d" % k), pins, [unit], [], lambda net: net))
    names = set()
    for cell in cells:
        name = cell.name if cell.name == b"TOP" else before + cell.name
        while name in names:
            name += b"x"
        names.add(name)
        calls = [Call(numbers[one] if isinstance(one, int) else units.index(one), nets)
                 for one, nets in cell.calls]
        numbers.append(len(out))
        out.append(normal(Circuit(name), cell.pins, cell.devices, calls, lambda net: net))
    return out


# ---- what is drawn, and what is written

class Drawing:
    """A cell's elements. Items stand in a row; above them each net has a horizontal row, and columns
    lead from terminals up to these, and from these to the pins at the upper edge."""

    def __init__(self):
        self.elements, self.terminals, self.width, self.height = [], [], 0, 0

    def rect(self, layer, x1, y1, x2, y2):
        """A rectangle, in steps."""
        self.elements.append(build.rect(layer, x1 * STEP, y1 * STEP, x2 * STEP, y2 * STEP))

    def terminal(self, x, y, net, contact):
        """A column from here to the items' upper edge, which is drawn with its net's row."""
        if contact:
            self.rect(8, x, y, x + 2, y + 2)
        self.terminals.append((x, y, net))

    def device(self, device):
        """A device over a well of its own."""
        x, top = self.width, device.width * UNIT // STEP
        if is_resistor(device):
            self.rect(6, x, 0, x + 4, top)
            self.rect(5, x + 4, 0, x + 20, top)
            self.rect(6, x + 20, 0, x + 24, top)
        else:
            self.rect(2, x, 0, x + 24, top)
            self.rect(3, x + 11, -6, x + 13, top + 2)
            if device.device_class == b"P":
                self.rect(4, x - 2, -2, x + 26, top + 2)
            self.terminal(x + 11, -5, device.gate, True)
        self.rect(1, x - 4, -8, x + 40, top + 4)
        self.rect(7, x + 32, 1, x + 36, 5)
        self.terminal(x + 1, 1, device.source, True)
        self.terminal(x + 21, 1, device.drain, True)
        self.terminal(x + 33, 2, device.bulk, True)
        self.width, self.height = x + 50, max(self.height, top + 8)

    def call(self, name, below, nets):
        """A cell, whose lower left corner is put in the row."""
        x = self.width
        self.elements.append(build.sref(name, (x * STEP, 8 * STEP)))
        for (pin, top), net in zip(below.pins, nets):
            self.terminal(x + pin, 8 + top - 2, net, False)
        self.width, self.height = x + below.width + 10, max(self.height, below.height + 16)

    def finish(self, circuit, is_top):
        """The nets' rows, the columns and the pins."""
        self.pins = []
        level = {net: self.height + 6 * k for k, net in enumerate(range(len(circuit.nets)))}
        for x, y, net in self.terminals:
            self.rect(9, x, y, x + 2, level[net] + 2)
            self.rect(10, x, level[net], x + 2, level[net] + 2)
        top = self.height + 6 * len(circuit.nets) + 4
        for net in circuit.pins:
            x = self.width
            self.rect(9, x, level[net], x + 2, top)
            self.rect(10, x, level[net], x + 2, level[net] + 2)
            self.pins.append((x, top))
            self.width += 6
        for net, y in level.items():
            self.rect(11, 0, y, self.width, y + 2)
            if is_top and net in circuit.pins:
                self.elements.append(build.text(11, 1, (0, y * STEP), b"p%d" % net))
        self.height = top


def drawn(circuits):
    """A stream whose cells are these circuits."""
    drawings = []
    for circuit in circuits:
        one = Drawing()
        for device in circuit.devices:
            one.device(device)
        for call in circuit.calls:
            one.call(circuits[call.circuit].name, drawings[call.circuit], call.nets)
        one.finish(circuit, circuit is circuits[-1])
        drawings.append(one)
    return build.stream([(circuit.name, one.elements) for circuit, one in zip(circuits, drawings)])


def written(circuits):
    """The schematic's text."""
    out = []
    for circuit in circuits:
        one = Circuit(circuit.name)
        one.nets, one.pins, one.calls = circuit.nets, circuit.pins, circuit.calls
        one.devices = [d._replace(length=LONG if is_resistor(d) else LENGTH,
                                  width=d.width * MICRON) for d in circuit.devices]
        out.append(one)
    return write(out)


# ---- the flat comparison

def expanded(circuits):
    """The devices of the top, each with a key, its ends, gate and bulk; and the nets of its pins."""
    rows, count = [], 0

    def walk(circuit, outer):
        nonlocal count
        known = dict(zip(circuit.pins, outer))

        def at(net):
            nonlocal count
            if net not in known:
                known[net] = count
                count += 1
            return known[net]

        for d in circuit.devices:
            ends = tuple(sorted((at(d.drain), at(d.source))))
            rows.append((d.device_class, d.width, ends, at(d.gate), at(d.bulk)))
        for call in circuit.calls:
            walk(circuits[call.circuit], [at(net) for net in call.nets])

    pins = list(range(len(circuits[-1].pins)))
    count = len(pins)
    walk(circuits[-1], pins)
    return rows, set(pins)


def combined(rows):
    """Alike transistors are one, as wide as all of them."""
    widths, out = collections.Counter(), []
    for kind, width, ends, gate, bulk in rows:
        if kind[:1] == RESISTOR:
            out.append((kind, width, ends, gate, bulk))
        else:
            widths[kind, ends, gate, bulk] += width
    return out + [(kind, width, ends, gate, bulk)
                  for (kind, ends, gate, bulk), width in widths.items()]


class Search:
    """Whether devices go one to one to devices, and their nets to nets, pins to pins."""

    def __init__(self, left, right, steps):
        (self.left, self.pins), (self.right, self.others) = left, right
        self.to, self.back, self.steps = {}, {}, steps
        self.used = [False] * len(self.right)

    def put(self, log, net, other):
        """Whether a net may go to another, which it does then."""
        if net in self.to or other in self.back:
            return self.to.get(net) == other and self.back.get(other) == net
        if (net in self.pins) != (other in self.others):
            return False
        self.to[net], self.back[other] = other, net
        log.append((net, other))
        return True

    def goes(self, k):
        """Whether the devices from here on find theirs."""
        if k == len(self.left):
            return True
        self.steps -= 1
        if self.steps < 0:
            raise TimeoutError
        kind, width, ends, gate, bulk = self.left[k]
        for j, other in enumerate(self.right):
            if self.used[j] or other[:2] != (kind, width):
                continue
            for one, two in {other[2], other[2][::-1]}:
                log, nets = [], [(gate, other[3]), (bulk, other[4]), (ends[0], one), (ends[1], two)]
                if all(self.put(log, net, to) for net, to in nets):
                    self.used[j] = True
                    if self.goes(k + 1):
                        return True
                    self.used[j] = False
                for net, to in log:
                    del self.to[net], self.back[to]
        return False


def in_order(rows):
    """The devices so that those that share nets follow each other."""
    out, rest, nets = [], list(rows), set()
    while rest:
        best = max(range(len(rest)), key=lambda k: len(nets & {*rest[k][2], *rest[k][3:]}))
        row = rest.pop(best)
        out.append(row)
        nets |= {*row[2], *row[3:]}
    return out


def corresponds(left, right, combine):
    """Whether the two correspond flat."""
    sides = [(combined(rows) if combine else rows, pins) for rows, pins in (left, right)]
    (one, pins), (two, others) = sides
    if sorted(row[:2] for row in one) != sorted(row[:2] for row in two):
        return False
    return Search((in_order(one), pins), (two, others), 60_000).goes(0)


# ---- the run

def status(program, files, lines):
    """The status of a run with these lines behind the rules."""
    with tempfile.TemporaryDirectory(prefix="lvs-pairs-") as folder:
        for name, data in list(files.items()) + [("r", RULES + lines)]:
            with open(os.path.join(folder, name), "wb") as file:
                file.write(data)
        words = ["run", "--layout=l", "--rules=r", "--schematic=c", "--shapes=s", "--netlist=n",
                 "--report=p"]
        return subprocess.run(program + words, cwd=folder, stdout=subprocess.PIPE, check=False,
                              timeout=60).returncode


def answered(job):
    """Of one seed what is counted, and what is wrong."""
    program, seed = job
    left, right = Pairs(seed).pair()
    one, two = expanded(left), expanded(right)
    if len(one[0]) + len(two[0]) > 24:
        return ["left out: more than 24 devices"], []
    try:
        truth = {combine: corresponds(one, two, combine) for combine in (False, True)}
    except TimeoutError:
        return ["left out: no end of the search"], []
    files, counted, wrong = {"l": drawn(left), "c": written(right)}, ["pairs"], []
    for flatten in (False, True):
        for combine in (False, True):
            lines = b"flatten_unmatched\n" * flatten + b"combine_devices\n" * combine
            found = status(program, files, lines)
            name = lines.decode().replace("\n", " ") or "neither "
            counted.append("%sstatus %d, flat %s" % (
                name, found, "correspond" if truth[combine] else "don't"))
            if found not in ((0, 1) if not flatten else (1 - truth[combine],)) \
                    or (found == 0 and not truth[combine]):
                wrong.append("seed %d: %sstatus %d" % (seed, name, found))
    return counted, wrong


def main():
    """Compares so many pairs; answers 1 where one is wrong."""
    parser = argparse.ArgumentParser()
    parser.add_argument("program")
    parser.add_argument("count", type=int)
    parser.add_argument("seed0", type=int)
    parser.add_argument("--jobs", type=int, default=1)
    options = parser.parse_args()
    path = options.program
    program = [os.path.abspath(path) if os.path.exists(path) else path]
    if path.endswith(".py"):
        program.insert(0, sys.executable)
    jobs = [(program, seed) for seed in range(options.seed0, options.seed0 + options.count)]
    tally, bad = collections.Counter(), 0
    with multiprocessing.Pool(options.jobs) as pool:
        for counted, wrong in pool.imap_unordered(answered, jobs, 16):
            tally.update(counted)
            bad += len(wrong)
            for text in wrong:
                print(text)
    for text in sorted(tally):
        print("%6d %s" % (tally[text], text))
    print("%d wrong" % bad)
    return 1 if bad else 0


if __name__ == "__main__":
    sys.exit(main())
