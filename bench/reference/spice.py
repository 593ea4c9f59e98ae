"""Reading SPICE text into a netlist, or the first fault with its line."""

import re

import names
import values
from netlist import DIODE, RESISTOR, Call, Circuit, Device, normal
from rules import lines_of

PASSED = {b"AS", b"AD", b"PS", b"PD", b"NRD", b"NRS", b"NF"}
WORDS = {b".SUBCKT", b".ENDS", b".GLOBAL", b".END", b".MODEL", b".OPTION", b".OPTIONS"}
TOP = b".TOP"
COUNT = re.compile(rb"[0-9]{1,4}")


class SpiceFault(Exception):
    """A fault: number, line (for 42 the circuit's name), for 53 the value's fault."""

    def __init__(self, number, place, value=None):
        super().__init__(number, place, value)
        self.number, self.place, self.value = number, place, value


class _Draft:
    """A circuit as it is read; nets are names."""

    def __init__(self, name, pins, line):
        self.name, self.pins, self.line = name, pins, line
        self.devices, self.calls = [], []       # calls: (line, nodes, circuit's name)


def cards_of(data):
    """The cards as (line, pieces), a piece being one line's text; raises the fault of a `+`."""
    cards = []
    for line, text in enumerate(lines_of(data), 1):
        if not text.strip(b" \t") or text[:1] == b"*":
            continue
        if text[:1] == b"+":
            if not cards:
                raise SpiceFault(51, line)
            cards[-1][1].append(text[1:])
        else:
            cards.append((line, [text]))
    return cards


def tokens_of(text):
    """The tokens of a card: each a list of pieces, cut at each `=` that isn't escaped.

    Blanks round such an `=` don't separate tokens.
    """
    items, word, escaped = [], bytearray(), False
    for byte in text + b" ":
        if byte in b" \t" or (byte == 0x3D and not escaped):
            if word:
                items.append(bytes(word))
                word = bytearray()
            if byte == 0x3D:
                items.append(None)
            escaped = False
        else:
            word.append(byte)
            escaped = byte == 0x5C and not escaped
    tokens, joined = [], False
    for item in items:
        if item is None:
            if not tokens:
                tokens.append([b""])
            tokens[-1].append(b"")
            joined = True
        elif joined:
            tokens[-1][-1] = item
            joined = False
        else:
            tokens.append([item])
    return tokens


class _Reader:
    def __init__(self):
        self.circuits, self.globals = [], []
        self.open = None
        self.outside = None

    # -- pieces of a card ----------------------------------------------------------------------

    @staticmethod
    def _name(text, line):
        try:
            return names.folded(names.unescape(text))
        except names.BadEscape:
            raise SpiceFault(51, line) from None

    def _split(self, tokens, line):
        """Names and parameters of a card; 51 for what isn't of this form."""
        plain, params = [], []
        for token in tokens:
            if len(token) == 1:
                if params:
                    raise SpiceFault(51, line)
                plain.append(self._name(token[0], line))
            elif len(token) == 2 and token[0] and token[1]:
                params.append((names.folded(token[0]), token[1]))
            else:
                raise SpiceFault(51, line)
        return plain, params

    def _here(self, line):
        """The circuit that a card belongs to."""
        if self.open:
            return self.open
        if not self.outside:
            self.outside = _Draft(TOP, [], line)
        return self.outside

    # -- cards ---------------------------------------------------------------------------------

    def take(self, line, text):
        """Reads one card; true after `.END`."""
        tokens = tokens_of(text)
        first, rest = tokens[0], tokens[1:]
        word = names.folded(first[0]) if len(first) == 1 else None
        letters = b"MXRD"
        letter = names.folded(first[0][:1])
        if word in WORDS:
            return self._dotted(word, rest, line)
        if not letter or letter not in letters:
            raise SpiceFault(50, line)
        if len(first) != 1:
            raise SpiceFault(51, line)
        plain, params = self._split(rest, line)
        if letter == b"X":
            self._call(plain, params, line)
        else:
            self._device(letter, plain, params, line)
        return False

    def _dotted(self, word, rest, line):
        if word in (b".MODEL", b".OPTION", b".OPTIONS"):
            return False
        plain, params = self._split(rest, line)
        if word == b".SUBCKT":
            if self.open or not plain or len(set(plain[1:])) != len(plain) - 1:
                raise SpiceFault(51, line)
            if params:
                raise SpiceFault(52, line)
            self.open = _Draft(plain[0], plain[1:], line)
            self.circuits.append(self.open)
            return False
        if params:
            raise SpiceFault(51, line)
        if word == b".ENDS":
            if not self.open or len(plain) > 1:
                raise SpiceFault(51, line)
            self.open = None
        elif word == b".GLOBAL":
            if not plain:
                raise SpiceFault(51, line)
            self.globals += [n for n in plain if n not in self.globals]
        elif plain:
            raise SpiceFault(51, line)
        return word == b".END"

    def _device(self, letter, plain, params, line):
        sizes = (b"A", b"P") if letter == b"D" else (b"L", b"W")
        count = {b"M": 5, b"R": 4, b"D": 3}[letter]
        given = [k for k, _ in params if k in sizes]
        if len(plain) != count or sorted(given) != sorted(sizes):
            raise SpiceFault(51, line)
        if letter == b"M" and plain[4][0] in (1, 2):
            raise SpiceFault(51, line)
        times = self._parameters(params, sizes, letter, line)
        size = {}
        for key, text in params:
            if key in sizes:
                try:
                    parse = values.parse_area if key == b"A" else values.parse_length
                    size[key] = parse(text)
                except values.ValueFault as fault:
                    raise SpiceFault(53, line, fault.number) from None
        if letter == b"M":
            drain, gate, source, bulk, model = plain
            device = Device(model, size[b"L"], size[b"W"], drain, gate, source, bulk)
        elif letter == b"R":
            one, other, bulk, model = plain
            device = Device(RESISTOR + model, size[b"L"], size[b"W"], other, bulk, one, bulk)
        else:
            anode, cathode, model = plain
            device = Device(DIODE + model, size[b"P"], size[b"A"], anode, cathode, anode, cathode)
        self._here(line).devices += [device] * times

    @staticmethod
    def _parameters(params, sizes, letter, line):
        """Tests the other parameters; the number of devices that the card stands for."""
        times = 1
        for key, text in params:
            if key in sizes:
                continue
            if key == b"M" and text == b"1":
                times = 1
            elif key == b"M" and letter != b"X" and COUNT.fullmatch(text) \
                    and 1 <= int(text) <= 1000:
                times = int(text)
            elif letter != b"M" or key not in PASSED:
                raise SpiceFault(52, line)
        return times

    def _call(self, plain, params, line):
        if not plain:
            raise SpiceFault(51, line)
        self._parameters(params, (), b"X", line)
        self._here(line).calls.append((line, plain[:-1], plain[-1]))

    # -- after the cards ---------------------------------------------------------------------

    def finish(self):
        """The circuits, tested and in normal form."""
        if self.open:
            raise SpiceFault(54, self.open.line)
        circuits = self.circuits + ([self.outside] if self.outside else [])
        number = {}
        for k, circuit in enumerate(circuits):
            if circuit.name in number:
                raise SpiceFault(44, circuit.line)
            number[circuit.name] = k
        calls = sorted((call for c in circuits for call in c.calls), key=lambda call: call[0])
        for line, _, name in calls:
            if name not in number:
                raise SpiceFault(41, line)
        for line, nodes, name in calls:
            if len(nodes) != len(circuits[number[name]].pins):
                raise SpiceFault(43, line)
        called = [{number[name] for _, _, name in c.calls} for c in circuits]
        self._cycles(circuits, called)
        needed = self._needed(circuits, called)
        out = []
        for k, circuit in enumerate(circuits):
            rows = [Call(number[name], nodes + needed[number[name]])
                    for _, nodes, name in circuit.calls]
            out.append(normal(Circuit(circuit.name), circuit.pins + needed[k], circuit.devices,
                              rows, lambda name: name))
        return out

    @staticmethod
    def _cycles(circuits, called):
        for k, circuit in enumerate(circuits):
            seen, todo = set(), [k]
            while todo:
                for other in called[todo.pop()]:
                    if other == k:
                        raise SpiceFault(42, circuit.name)
                    if other not in seen:
                        seen.add(other)
                        todo.append(other)

    def _needed(self, circuits, called):
        """Per circuit the global names that it needs, in the order of the globals."""
        used = []
        for circuit in circuits:
            here = {n for d in circuit.devices for n in d[3:]}
            here |= {n for _, nodes, _ in circuit.calls for n in nodes}
            used.append((here & set(self.globals)) - set(circuit.pins))
        grew = True
        while grew:
            grew = False
            for k, circuit in enumerate(circuits):
                more = set().union(*(used[c] for c in called[k])) - set(circuit.pins) - used[k]
                if more:
                    used[k] |= more
                    grew = True
        return [[g for g in self.globals if g in some] for some in used]


def read_spice(data):
    """The circuits of the text in normal form; a call's `circuit` is a position among them."""
    reader = _Reader()
    for line, pieces in cards_of(data):
        if reader.take(line, b" ".join(pieces)):
            break
    return reader.finish()
