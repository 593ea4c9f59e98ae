"""Netlists: circuits with nets, pins, devices and calls, their normal form and their text."""

from collections import namedtuple

from names import escape
from values import area_text, micron_text

# The four terminals are net numbers of the circuit.
Device = namedtuple("Device", "device_class length width drain gate source bulk")
Call = namedtuple("Call", "circuit nets")

RESISTOR, DIODE = b"\x01", b"\x02"     # first bytes of the further devices' classes


class Circuit:
    """A circuit; `pins` are net numbers, a call's `circuit` is what the holder makes of it."""

    def __init__(self, name):
        self.name = name
        self.nets, self.pins, self.devices, self.calls = [], [], [], []


def terminals(device):
    """A device's nets in the order in which nets are numbered."""
    return (device.drain, device.gate, device.source, device.bulk)


def renumbered(device, number):
    """The device with other net numbers."""
    drain, gate, source, bulk = (number(n) for n in terminals(device))
    return device._replace(drain=drain, gate=gate, source=source, bulk=bulk)


def normal(circuit, pins, devices, calls, name_of):
    """Fills a circuit from pins, devices and calls over any net keys.

    The nets are the pins, then the others by first appearance over the devices, then the calls.
    """
    order = {}
    for net in pins:
        order.setdefault(net, len(order))
    for device in devices:
        for net in terminals(device):
            order.setdefault(net, len(order))
    for call in calls:
        for net in call.nets:
            order.setdefault(net, len(order))
    circuit.nets = [name_of(net) for net in order]
    circuit.pins = [order[net] for net in pins]
    circuit.devices = [renumbered(d, order.__getitem__) for d in devices]
    circuit.calls = [Call(c.circuit, [order[n] for n in c.nets]) for c in calls]
    return circuit


def device_line(number, device, names):
    """The card of a device."""
    drain, gate, source, bulk = (names[n] for n in terminals(device))
    length, width = micron_text(device.length), micron_text(device.width)
    kind, rest = device.device_class[:1], escape(device.device_class[1:])
    if kind == RESISTOR:
        return b"R%d %s %s %s %s L=%sU W=%sU" % (number, source, drain, bulk, rest, length, width)
    if kind == DIODE:
        return b"D%d %s %s %s A=%sP P=%sU" % (number, source, bulk, rest,
                                             area_text(device.width), length)
    return b"M%d %s %s %s %s %s L=%sU W=%sU" % (number, drain, gate, source, bulk,
                                               escape(device.device_class), length, width)


def write(circuits):
    """The text of a netlist; a call's `circuit` is a position in the list."""
    lines = [b"* lvs netlist"]
    for circuit in circuits:
        names = [escape(n) for n in circuit.nets]
        lines.append(b" ".join([b".SUBCKT", escape(circuit.name)]
                               + [names[p] for p in circuit.pins]))
        lines += [device_line(k, d, names) for k, d in enumerate(circuit.devices, 1)]
        for k, call in enumerate(circuit.calls, 1):
            lines.append(b" ".join([b"X%d" % k] + [names[n] for n in call.nets]
                                   + [escape(circuits[call.circuit].name)]))
        lines.append(b".ENDS " + escape(circuit.name))
    lines.append(b".END")
    return b"".join(line + b"\n" for line in lines)


def merged(circuit, widest=10 ** 27):
    """The circuit with each class of alike devices made one, or None where one is wider than this."""
    places, devices = {}, []
    for device in circuit.devices:
        key = (device.device_class, device.length, device.gate, device.bulk,
               min(device.source, device.drain), max(device.source, device.drain))
        if device.device_class[0] <= 32:
            devices.append(device)
        elif key in places:
            first = devices[places[key]]
            devices[places[key]] = first._replace(width=first.width + device.width)
        else:
            places[key] = len(devices)
            devices.append(device)
    if widest is not None and any(d.width > widest for d in devices if d.device_class[0] > 32):
        return None
    out = Circuit(circuit.name)
    return normal(out, circuit.pins, devices, circuit.calls, circuit.nets.__getitem__)
