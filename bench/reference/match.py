"""Comparison of the two circuits of a pair: rounds of colours, then guesses."""

from collections import Counter

from names import folded

DEVICE, CALL, NET = "device", "call", "net"
REPORT_ORDER = {DEVICE: 0, CALL: 1, NET: 2}
GUESS_ORDER = {NET: 0, DEVICE: 1, CALL: 2}


class _Solved(Exception):
    def __init__(self, colours):
        super().__init__()
        self.colours = colours


class _Limit(Exception):
    pass


class Answer:
    """`word` is match, differs, undecided or skipped; the rest as the word needs it.

    `pairing` maps each kind to the right numbers; `round` is (round, side, kind, number, left
    count, right count); a guess is [depth, kind, left, right, end].
    """

    def __init__(self, word, pairing=None, evidence=None, guesses=None, skipped=None):
        self.word, self.pairing, self.evidence = word, pairing, evidence
        self.guesses, self.skipped = guesses, skipped


class _Pair:
    """Nodes are (side, kind, number), side 0 being the layout."""

    def __init__(self, left, right, pin_maps, told):
        self.sides = (left, right)
        self.pin_maps = pin_maps
        self.first, self.links = {}, {}
        for side, circuit in enumerate(self.sides):
            pins = set(circuit.pins)
            for k in range(len(circuit.nets)):
                named = folded(circuit.nets[k]) if told and k in pins else None
                self._node((side, NET, k), (NET, k in pins, named))
            for k, device in enumerate(circuit.devices):
                self._node((side, DEVICE, k),
                           (DEVICE, device.device_class, device.length, device.width))
            for k, call in enumerate(circuit.calls):
                self._node((side, CALL, k), (CALL, call.circuit))

    def _node(self, node, colour):
        self.first[node] = colour
        self.links[node] = []

    def link(self):
        """Joins devices and calls with their nets; all called pairs are matched by now."""
        for side, circuit in enumerate(self.sides):
            for k, device in enumerate(circuit.devices):
                for kind, net in (("sd", device.source), ("sd", device.drain),
                                  ("gate", device.gate), ("bulk", device.bulk)):
                    self._join((side, DEVICE, k), kind, (side, NET, net))
            for k, call in enumerate(circuit.calls):
                for pin, net in enumerate(call.nets):
                    if side == 0:
                        pin = self.pin_maps[call.circuit][pin]
                    self._join((side, CALL, k), "pin%d" % pin, (side, NET, net))

    def _join(self, node, kind, net):
        self.links[node].append((kind, net))
        self.links[net].append((kind, node))

    # -- rounds ----------------------------------------------------------------------------

    @staticmethod
    def _numbered(signatures):
        numbers = {}
        return {node: numbers.setdefault(s, len(numbers)) for node, s in signatures.items()}

    def start(self, guesses=()):
        """The colours of round 0."""
        signatures = {node: (colour, None) for node, colour in self.first.items()}
        for k, (kind, left, right) in enumerate(guesses):
            for node in ((0, kind, left), (1, kind, right)):
                signatures[node] = (self.first[node], k)
        return self._numbered(signatures)

    def step(self, colours):
        """The colours of the next round."""
        return self._numbered({
            node: (colours[node], tuple(sorted((kind, colours[n]) for kind, n in links)))
            for node, links in self.links.items()})

    def unequal(self, colours):
        """A class with unequal counts as (side, kind, number, left, right), or None."""
        counts = Counter((colour, node[0]) for node, colour in colours.items())
        bad = [(REPORT_ORDER[kind], side, number, kind, colour)
               for (side, kind, number), colour in colours.items()
               if counts[colour, 0] != counts[colour, 1]]
        if not bad:
            return None
        _, side, number, kind, colour = min(bad)
        return (side, kind, number, counts[colour, 0], counts[colour, 1])

    def rounds(self, guesses=()):
        """(round, class) of the first unequal counts, or (None, stable colours)."""
        colours, number = self.start(guesses), 0
        while True:
            found = self.unequal(colours)
            if found:
                return number, found
            following = self.step(colours)
            if len(set(following.values())) == len(set(colours.values())):
                return None, colours
            colours, number = following, number + 1

    # -- guesses ---------------------------------------------------------------------------

    @staticmethod
    def classes(colours):
        """Per colour the layout nodes and the schematic nodes, ascending."""
        out = {}
        for node in sorted(colours):
            out.setdefault(colours[node], ([], []))[node[0]].append(node)
        return list(out.values())

    def single(self, colours):
        """Whether every class is one pair."""
        return all(len(left) == 1 for left, _ in self.classes(colours))

    def candidates(self, colours):
        """The next guess: its kind, the layout node and the schematic nodes in order."""
        tied = [(len(left), GUESS_ORDER[left[0][1]], left[0][2], left, right)
                for left, right in self.classes(colours) if len(left) > 1]
        _, _, number, left, right = min(tied)
        kind = left[0][1]
        numbers = [node[2] for node in right]
        if kind == NET:
            name = self.sides[0].nets[number]
            numbers.sort(key=lambda k: (self.sides[1].nets[k] != name, k))
        return kind, number, numbers

    def pairing(self, colours):
        """The right number of each left node where every class is one pair."""
        found = {NET: {}, DEVICE: {}, CALL: {}}
        for (left,), (right,) in self.classes(colours):
            found[left[1]][left[2]] = right[2]
        return {kind: [some[k] for k in range(len(some))] for kind, some in found.items()}


class _Tree:
    def __init__(self, pair, limit):
        self.pair, self.limit = pair, limit
        self.refuted, self.guesses = 0, []

    def explore(self, above, colours):
        """Tries all candidates below the guesses above."""
        kind, left, numbers = self.pair.candidates(colours)
        for right in numbers:
            if self.refuted == self.limit:
                raise _Limit()
            guess = [len(above) + 1, kind, left, right, "open"]
            self.guesses.append(guess)
            here = above + [(kind, left, right)]
            number, found = self.pair.rounds(here)
            if number is not None:
                guess[4] = number
                self.refuted += 1
            elif self.pair.single(found):
                raise _Solved(found)
            else:
                self.explore(here, found)
                guess[4] = "below"


def compare(left, right, pin_maps, limit, told=False):
    """The answer for a pair; `pin_maps` has per pair None or the right pin of each left pin; `told`
    is whether names tell the pair's own pins apart."""
    pair = _Pair(left, right, pin_maps, told)
    found = pair.unequal(pair.start())
    if found:
        return Answer("differs", evidence=(0,) + found)
    for call in left.calls:
        if pin_maps[call.circuit] is None:
            return Answer("skipped", skipped=call.circuit)
    pair.link()
    number, found = pair.rounds()
    if number is not None:
        return Answer("differs", evidence=(number,) + found)
    if pair.single(found):
        return Answer("match", pairing=pair.pairing(found))
    tree = _Tree(pair, limit)
    try:
        tree.explore([], found)
    except _Solved as solved:
        return Answer("match", pairing=pair.pairing(solved.colours))
    except _Limit:
        return Answer("undecided", guesses=tree.guesses)
    return Answer("differs", guesses=tree.guesses)


def pin_map(left, right, answer):
    """The right pin of each left pin of a matched pair."""
    place = {net: k for k, net in enumerate(right.pins)}
    return [place[answer.pairing[NET][net]] for net in left.pins]


def compare_all(pairs, limit, told=None):
    """The answers of all pairs in order, children first; names tell the pins of pair `told`
    apart."""
    pin_maps, answers = [None] * len(pairs), [None] * len(pairs)
    done = set()

    def work(number):
        if number in done:
            return
        done.add(number)
        left, right = pairs[number]
        for call in left.calls:
            work(call.circuit)
        answers[number] = compare(left, right, pin_maps, limit, number == told)
        if answers[number].word == "match":
            pin_maps[number] = pin_map(left, right, answers[number])

    for number in range(len(pairs)):
        work(number)
    return answers


def is_correspondence(left, right, pin_maps, pairing, told=False):
    """Whether a pairing keeps pins, devices and calls, and with `told` the pins' names."""
    nets, devices, calls = pairing[NET], pairing[DEVICE], pairing[CALL]
    for some, ours, theirs in ((nets, left.nets, right.nets),
                               (devices, left.devices, right.devices),
                               (calls, left.calls, right.calls)):
        if len(ours) != len(theirs) or sorted(some) != list(range(len(theirs))):
            return False
    if any((k in left.pins) != (nets[k] in right.pins) for k in range(len(left.nets))):
        return False
    if told and any(folded(left.nets[k]) != folded(right.nets[nets[k]]) for k in left.pins):
        return False
    for k, device in enumerate(left.devices):
        other = right.devices[devices[k]]
        ends = sorted((nets[device.source], nets[device.drain]))
        if device[:3] != other[:3] or ends != sorted((other.source, other.drain)) \
                or nets[device.gate] != other.gate or nets[device.bulk] != other.bulk:
            return False
    for k, call in enumerate(left.calls):
        other, pins = right.calls[calls[k]], pin_maps[call.circuit]
        if call.circuit != other.circuit:
            return False
        if any(nets[net] != other.nets[pins[i]] for i, net in enumerate(call.nets)):
            return False
    return True
