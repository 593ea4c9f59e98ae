"""Partners of circuits, and the two netlists cut down to the circuits that pair."""

from netlist import Call, Circuit, normal, renumbered


def partner_of_top(left, top, right, same):
    """The schematic circuit that pairs with the layout's top, or None."""
    by_name = {c.name: k for k, c in enumerate(right)}
    found = _named_partner(left[top].name, by_name, same)
    if found is not None or left[top].name in dict(same):
        return found
    called = {call.circuit for c in right for call in c.calls}
    free = [k for k in range(len(right)) if k not in called]
    if len(free) == 1 and right[free[0]].name not in {b for _, b in same}:
        return free[0]
    return None


def _named_partner(name, by_name, same):
    """The circuit that a line or an equal name gives, or None."""
    lines = dict(same)
    if name in lines:
        return by_name.get(lines[name])
    if name in {b for _, b in same}:
        return None
    return by_name.get(name)


def _reached(circuits, top):
    seen, todo = {top}, [top]
    while todo:
        for call in circuits[todo.pop()].calls:
            if call.circuit not in seen:
                seen.add(call.circuit)
                todo.append(call.circuit)
    return seen


def _with_devices(circuits):
    """The circuits in or below which a device stands."""
    return {k for k in range(len(circuits))
            if any(circuits[c].devices for c in _reached(circuits, k))}


class _Side:
    """One netlist, seen through its kept circuits (a map from their number to their pair)."""

    def __init__(self, circuits, pair_of):
        self.circuits, self.pair_of = circuits, pair_of
        self.made = {}

    def _walk(self, number, prefix, outer):
        """All devices and kept calls along the paths that run through circuits not kept.

        `outer` maps the circuit's pin nets to nets of the caller; a net is (its name, path).
        """
        circuit = self.circuits[number]

        def net(k):
            return outer.get(k, (prefix + circuit.nets[k], (prefix, k)))
        devices = [renumbered(d, net) for d in circuit.devices]
        calls, inner = [], []
        for position, call in enumerate(circuit.calls, 1):
            nets = [net(k) for k in call.nets]
            if call.circuit in self.pair_of:
                kept = self.kept_pins(call.circuit)
                calls.append(Call(self.pair_of[call.circuit], [nets[k] for k in kept]))
            else:
                pins = dict(zip(self.circuits[call.circuit].pins, nets))
                inner.append((call.circuit, prefix + b"X%d/" % position, pins))
        for called, longer, pins in inner:
            more_devices, more_calls = self._walk(called, longer, pins)
            devices += more_devices
            calls += more_calls
        return devices, calls

    def make(self, number):
        """The aligned circuit and the positions of its kept pins."""
        if number not in self.made:
            circuit = self.circuits[number]
            devices, calls = self._walk(number, b"", {})
            used = {n for d in devices for n in d[3:]} | {n for c in calls for n in c.nets}
            nets = [(circuit.nets[k], (b"", k)) for k in circuit.pins]
            kept = [k for k, net in enumerate(nets) if net in used]
            made = normal(Circuit(circuit.name), [nets[k] for k in kept], devices, calls,
                          lambda net: net[0])
            self.made[number] = (made, kept)
        return self.made[number]

    def kept_pins(self, number):
        """Which of a kept circuit's pins are kept."""
        return self.make(number)[1]


def align(left, top, right, same, apart=(frozenset(), frozenset())):
    """The aligned pairs (left circuit, right circuit) in layout order, or None.

    A call's `circuit` is the number of its pair.  The circuits of `apart`, names of either side,
    have no partner; the tops aren't among them.
    """
    partner = partner_of_top(left, top, right, same)
    if partner is None:
        return None
    by_name = {c.name: k for k, c in enumerate(right)}
    reached_left, reached_right = _reached(left, top), _reached(right, partner)
    full_left, full_right = _with_devices(left), _with_devices(right)
    pairs = []
    for k, circuit in enumerate(left):
        if k == top:
            pairs.append((k, partner))
            continue
        found = _named_partner(circuit.name, by_name, same)
        if circuit.name in apart[0] or found is not None and right[found].name in apart[1]:
            continue
        if found is not None and found != partner and found in reached_right \
                and k in reached_left and k in full_left and found in full_right:
            pairs.append((k, found))
    one = _Side(left, {a: n for n, (a, _) in enumerate(pairs)})
    other = _Side(right, {b: n for n, (_, b) in enumerate(pairs)})
    return [(one.make(a)[0], other.make(b)[0]) for a, b in pairs]
