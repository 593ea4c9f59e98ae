"""Reading a rule file: its statements, or the first fault with its line."""

import re

from names import folded

NAME_LIMIT = 256
TOKEN = re.compile(rb"""(?P<name>[A-Za-z0-9_]+)
                      | (?P<string>"[\x20\x21\x23-\x7e]+" | '[\x20-\x26\x28-\x7e]+')
                      | (?P<mark>=> | [-=.(){},&|^])""", re.VERBOSE)
NAME = re.compile(rb"[a-z_][A-Za-z0-9_]{0,63}")
NUMBER = re.compile(rb"[0-9]{1,7}")
AREA = re.compile(rb"[0-9]{1,18}")
RELATIONS = {b"interacting": ("interacting", False), b"not_interacting": ("interacting", True),
             b"overlapping": ("overlapping", False), b"not_overlapping": ("overlapping", True),
             b"inside": ("inside", False), b"not_inside": ("inside", True),
             b"outside": ("outside", False), b"not_outside": ("outside", True)}
MEASURES = {b"with_area": False, b"without_area": True}
OPERATORS = {b"&": "and", b"|": "or", b"-": "not", b"^": "xor"}
WORDS = {b"connect", b"connect_global", b"extract_devices", b"same_circuits", b"max_guesses",
         b"deep", b"netlist", b"align", b"compare", b"schematic", b"input", b"labels",
         b"polygon_layer", b"output", b"mos4", b"flatten_unmatched", b"same_pins",
         b"keep_covered", b"combine_devices", b"resistor_with_bulk", b"diode"}
PATTERN = frozenset(b"*?[{")
BAD_BYTES = frozenset(range(32)) - frozenset((9, 10, 13)) | {127}
MOST_REACH = 10000


class RuleFault(Exception):
    """A fault: its number and its line, for 36 the offset."""

    def __init__(self, number, place):
        super().__init__(number, place)
        self.number, self.place = number, place


class Device:
    """A device rule.  `layers` maps each key of its kind to the number of a name."""

    def __init__(self, kind, device_class, layers, line):
        self.kind, self.device_class, self.layers, self.line = kind, device_class, layers, line


class Select:
    """A selection: the number of its name, what is asked of which regions and of which other name,
    and whether those are chosen that don't have it."""

    def __init__(self, name, ask, others, region, other):
        self.name, self.ask, self.others = name, ask, others
        self.region, self.other = region, other


class Rules:
    """What a rule file states.  Names go by their number from 0.

    `forms` has per name ("input", key), ("labels", key), ("empty",), (operator, a, b) or
    ("sized", a, d); a selection reads as the input of layer 65536 and its number.  `devices` has
    the transistors first, then the further devices.
    """

    def __init__(self):
        self.names, self.forms, self.outputs, self.selects = [], [], [], []
        self.connects, self.globals, self.devices, self.same = [], [], [], []
        self.max_guesses = 1000
        self.flat = (set(), set())
        self.flatten_unmatched = False
        self.same_pins = False
        self.keep_covered = False
        self.combine = False
        self.lines = {}

    def inputs(self, name):
        """The input layers that a name reads."""
        form = self.forms[name]
        if form[0] == "input":
            return frozenset([form[1]])
        if form[0] in ("empty", "labels"):
            return frozenset()
        if form[0] == "sized":
            return self.inputs(form[1])
        return self.inputs(form[1]) | self.inputs(form[2])

    def reach(self, name):
        """How far a name looks beside a square."""
        form = self.forms[name]
        if form[0] in ("input", "empty", "labels"):
            return 0
        if form[0] == "sized":
            return self.reach(form[1]) + abs(form[2])
        return max(self.reach(form[1]), self.reach(form[2]))

    def is_labels(self, name):
        """Whether the name stands for texts."""
        return self.forms[name][0] == "labels"

    def conductors(self):
        """The polygon layers that a connect or connect_global line names, in order."""
        named = {n for pair in self.connects for n in pair} | {n for n, _ in self.globals}
        return [n for n in sorted(named) if not self.is_labels(n)]

    def global_names(self):
        """The different globals in order of first definition."""
        return list(dict.fromkeys(g for _, g in self.globals))

    def global_of(self, name):
        """The first global that a line gives this layer, or None."""
        return next((g for n, g in self.globals if n == name), None)


class _NoFit(Exception):
    """The line fits no row."""


class _Tokens:
    """The tokens of one line, taken from the left; what is none has the kind None."""

    def __init__(self, line):
        self.items, self.spans, place = [], [], 0
        while place < len(line):
            if line[place] in b" \t":
                place += 1
                continue
            if line[place:place + 1] == b"#":
                break
            found = TOKEN.match(line, place)
            if not found:
                self.items.append((None, line[place:]))
                break
            self.items.append((found.lastgroup, found.group()))
            self.spans.append(found.span())
            place = found.end()
        self.place = 0

    def peek(self, ahead=0):
        """A token that isn't taken yet; (None, None) past the end."""
        place = self.place + ahead
        return self.items[place] if place < len(self.items) else (None, None)

    def take(self):
        token = self.peek()
        self.place += 1
        return token

    def mark(self, *texts):
        for text in texts:
            kind, found = self.take()
            if kind != "mark" or found != text:
                raise _NoFit()

    def word(self, text):
        kind, found = self.take()
        if kind != "name" or found != text:
            raise _NoFit()

    def name(self):
        kind, found = self.take()
        if kind != "name" or not NAME.fullmatch(found):
            raise _NoFit()
        return found

    def string(self):
        kind, found = self.take()
        if kind != "string":
            raise _NoFit()
        return found[1:-1]

    def number(self, least, most):
        kind, found = self.take()
        if kind != "name" or not NUMBER.fullmatch(found) or not least <= int(found) <= most:
            raise _NoFit()
        return int(found)

    def key(self):
        self.mark(b"(")
        layer = self.number(0, 65535)
        self.mark(b",")
        kind = self.number(0, 65535)
        self.mark(b")")
        return (layer, kind)

    def end(self):
        if self.place != len(self.items):
            raise _NoFit()


DEVICE_KEYS = {
    "mos": ([b"SD", b"G", b"W"], {b"tS": b"SD", b"tD": b"SD", b"tG": b"G", b"tB": b"W"},
            (b"tS", b"tD")),
    "resistor": ([b"R", b"C", b"W"], {b"tA": b"C", b"tB": b"C", b"tW": b"W"}, (b"tA", b"tB")),
    "diode": ([b"P", b"N"], {b"tA": b"P", b"tC": b"N"}, None),
}
CONDUCTOR_KEYS = {"mos": [b"tS", b"tG", b"tB"], "resistor": [b"tA", b"tW"],
                  "diode": [b"tA", b"tC"]}


class _Reader:
    def __init__(self):
        self.rules = Rules()
        self.number_of = {}
        self.output_keys, self.classes = set(), set()
        self.left_names, self.right_names = set(), set()

    # -- the form of a line ---------------------------------------------------------------

    def form(self, tokens):
        """The statement of a line as a tuple."""
        kind, first = tokens.peek()
        if kind == "name" and NAME.fullmatch(first):
            after = tokens.peek(1)
            output = after == ("mark", b".") and tokens.peek(2) == ("name", b"output")
            if first not in WORDS or output:
                return self._defined(tokens, after, output)
        return self._statement(tokens)

    def _defined(self, tokens, after, output):
        if output:
            name = tokens.name()
            tokens.mark(b".")
            tokens.word(b"output")
            statement = ("output", name, tokens.key())
            tokens.end()
            return statement
        if after != ("mark", b"="):
            raise RuleFault(30, None)
        name = tokens.name()
        tokens.mark(b"=")
        statement = ("define", name, self._right(tokens))
        tokens.end()
        return statement

    @staticmethod
    def _right(tokens):
        first = tokens.name()
        mark = tokens.peek()
        if first in (b"input", b"labels") and mark == ("mark", b"("):
            return (first.decode(), tokens.key())
        if first == b"polygon_layer" and mark == (None, None):
            return ("empty",)
        if mark == ("mark", b"."):
            if tokens.peek(1) == ("name", b"sized"):
                return ("sized", first, _Reader._size(tokens))
            return ("select", first) + _Reader._asked(tokens, first)
        operator = tokens.take()
        if operator[0] != "mark" or operator[1] not in OPERATORS:
            raise _NoFit()
        return (OPERATORS[operator[1]], first, tokens.name())

    @staticmethod
    def _size(tokens):
        tokens.mark(b".")
        tokens.word(b"sized")
        tokens.mark(b"(")
        minus = tokens.peek() == ("mark", b"-")
        if minus:
            tokens.take()
        if len(tokens.peek()[1] or b"") > 5:
            raise _NoFit()
        size = tokens.number(1, MOST_REACH)
        tokens.mark(b")")
        return -size if minus else size

    @staticmethod
    def _asked(tokens, region):
        """The other name, what is asked, and whether the others are chosen."""
        tokens.mark(b".")
        word = tokens.name()
        tokens.mark(b"(")
        if word in RELATIONS:
            ask, others = RELATIONS[word]
            found = (tokens.name(), (ask,), others)
        elif word in MEASURES:
            found = (region, _Reader._range(tokens), MEASURES[word])
        else:
            raise _NoFit()
        tokens.mark(b")")
        return found

    @staticmethod
    def _range(tokens):
        bounds = [_Reader._bound(tokens)]
        if tokens.peek() == ("mark", b","):
            tokens.take()
            bounds.append(_Reader._bound(tokens))
        if bounds in ([None], [None, None]):
            raise _NoFit()
        low, high = bounds if len(bounds) == 2 else (bounds[0], bounds[0] + 1)
        return ("area", low or 0, high)

    @staticmethod
    def _bound(tokens):
        kind, found = tokens.take()
        if (kind, found) == ("name", b"nil"):
            return None
        if kind != "name" or not AREA.fullmatch(found):
            raise _NoFit()
        return int(found)

    def _statement(self, tokens):
        word = tokens.name()
        statement = None
        if word in (b"netlist", b"schematic") and tokens.peek() == ("mark", b"."):
            tokens.mark(b".")
            tokens.word(b"flatten_circuit")
            tokens.mark(b"(")
            name = tokens.string()
            if PATTERN & set(name):
                raise _NoFit()
            tokens.mark(b")")
            statement = ("flatten", 0 if word == b"netlist" else 1, name)
        elif word == b"flatten_unmatched":
            statement = ("flatten_unmatched",)
        elif word == b"same_pins":
            statement = ("same_pins",)
        elif word == b"keep_covered":
            statement = ("keep_covered",)
        elif word in (b"deep", b"netlist", b"align", b"compare"):
            statement = ("nothing",)
        elif word == b"combine_devices":
            statement = ("combine",)
        elif word == b"schematic":
            tokens.mark(b"(")
            tokens.string()
            tokens.mark(b")")
            statement = ("nothing",)
        elif word == b"max_guesses":
            tokens.mark(b"(")
            statement = ("guesses", tokens.number(1, 1000000))
            tokens.mark(b")")
        elif word in (b"connect", b"connect_global", b"same_circuits"):
            tokens.mark(b"(")
            one = tokens.string() if word == b"same_circuits" else tokens.name()
            tokens.mark(b",")
            other = tokens.name() if word == b"connect" else tokens.string()
            tokens.mark(b")")
            statement = (word.decode(), one, other)
        elif word == b"extract_devices":
            statement = self._device(tokens)
        if statement is None:
            raise _NoFit()
        tokens.end()
        return statement

    @staticmethod
    def _device(tokens):
        tokens.mark(b"(")
        kinds = {b"mos4": "mos", b"resistor_with_bulk": "resistor", b"diode": "diode"}
        kind = kinds.get(tokens.name())
        if kind is None:
            raise _NoFit()
        tokens.mark(b"(")
        device_class = tokens.string()
        if kind == "resistor" and tokens.peek() == ("mark", b","):
            tokens.take()
            _Reader._sheet(tokens)
        tokens.mark(b")", b",", b"{")
        must, may, same = DEVICE_KEYS[kind]
        given = {}
        while True:
            key = tokens.string()
            if key in given or (key not in must and key not in may):
                raise _NoFit()
            tokens.mark(b"=>")
            given[key] = tokens.name()
            if tokens.peek() != ("mark", b","):
                break
            tokens.take()
        tokens.mark(b"}", b")")
        if any(key not in given for key in must):
            raise _NoFit()
        layers = dict(given)
        for key, default in may.items():
            layers.setdefault(key, given[default])
        if same and layers[same[0]] != layers[same[1]]:
            raise _NoFit()
        return ("device", kind, device_class, layers)

    @staticmethod
    def _sheet(tokens):
        """A decimal number that is passed over; it has no blanks inside."""
        tokens.number(0, 9999999)
        if tokens.peek() == ("mark", b"."):
            tokens.take()
            tokens.number(0, 9999999)
            spans = tokens.spans[tokens.place - 3:tokens.place]
            if any(a[1] != b[0] for a, b in zip(spans, spans[1:])):
                raise _NoFit()

    # -- the meaning of a line ----------------------------------------------------------------

    def _find(self, *names):
        for name in names:
            if name not in self.number_of:
                raise RuleFault(32, None)
        return [self.number_of[name] for name in names]

    def _layers(self, *names):
        numbers = self._find(*names)
        if any(self.rules.is_labels(n) for n in numbers):
            raise RuleFault(34, None)
        return numbers

    def take(self, statement, line):
        """Adds a statement; raises its fault."""
        rules, word = self.rules, statement[0]
        if word == "define":
            self._define(statement[1], statement[2])
        elif word == "output":
            number = self._find(statement[1])[0]
            if statement[2] in self.output_keys:
                raise RuleFault(33, None)
            self._layers(statement[1])
            self.output_keys.add(statement[2])
            rules.outputs.append((number, statement[2]))
        elif word == "connect":
            one, other = self._find(*statement[1:])
            if rules.is_labels(one) and rules.is_labels(other):
                raise RuleFault(34, None)
            rules.connects.append((one, other))
        elif word == "connect_global":
            rules.globals.append((self._layers(statement[1])[0], statement[2]))
        elif word == "device":
            kind, device_class, layers = statement[1:]
            self._find(*layers.values())
            if folded(device_class) in self.classes:
                raise RuleFault(33, None)
            numbers = dict(zip(layers, self._layers(*layers.values())))
            self.classes.add(folded(device_class))
            rules.devices.append(Device(kind, device_class, numbers, line))
        elif word == "same_circuits":
            left, right = folded(statement[1]), folded(statement[2])
            if left in self.left_names | rules.flat[0] or right in self.right_names | rules.flat[1]:
                raise RuleFault(33, None)
            self.left_names.add(left)
            self.right_names.add(right)
            rules.same.append((left, right))
        elif word == "flatten":
            side, name = statement[1], folded(statement[2])
            if name in rules.flat[side] or name in (self.left_names, self.right_names)[side]:
                raise RuleFault(33, None)
            rules.flat[side].add(name)
        elif word == "flatten_unmatched":
            if rules.flatten_unmatched:
                raise RuleFault(33, None)
            rules.flatten_unmatched = True
        elif word == "same_pins":
            if rules.same_pins:
                raise RuleFault(33, None)
            rules.same_pins = True
        elif word == "keep_covered":
            if rules.keep_covered:
                raise RuleFault(33, None)
            rules.keep_covered = True
        elif word == "guesses":
            rules.max_guesses = statement[1]
        elif word == "combine":
            rules.combine = True

    def _define(self, name, form):
        rules, word = self.rules, form[0]
        operands = {"input": (), "labels": (), "empty": (), "sized": form[1:2],
                    "select": form[1:3]}
        operands = operands.get(word, form[1:])
        if operands:
            numbers = self._find(*operands)
            if word == "sized" and rules.reach(numbers[0]) + abs(form[2]) > MOST_REACH:
                raise RuleFault(31, None)
        if name in self.number_of:
            raise RuleFault(33, None)
        if operands:
            self._layers(*operands)
            if word == "sized":
                form = (word, numbers[0], form[2])
            elif word != "select":
                form = (word, *numbers)
        if len(rules.names) == NAME_LIMIT:
            raise RuleFault(35, None)
        number = len(rules.names)
        if word == "select":
            rules.selects.append(Select(number, form[3], form[4], *numbers))
            form = ("input", (65536, number))
        self.number_of[name] = number
        rules.names.append(name)
        rules.forms.append(form)


def lines_of(data):
    """The lines of a text; LF or CR LF ends one, a rest without an end is one too."""
    pieces = data.split(b"\n")
    ended, rest = pieces[:-1], pieces[-1]
    lines = [p[:-1] if p.endswith(b"\r") else p for p in ended]
    return lines + ([rest] if rest else [])


def read_rules(data):
    """The rules of the bytes; raises RuleFault."""
    for place, byte in enumerate(data):
        if byte in BAD_BYTES:
            raise RuleFault(36, place)
    reader = _Reader()
    for line, text in enumerate(lines_of(data), 1):
        tokens = _Tokens(text)
        if not tokens.items:
            continue
        try:
            reader.take(reader.form(tokens), line)
        except _NoFit:
            raise RuleFault(31, line) from None
        except RuleFault as fault:
            raise RuleFault(fault.number, line) from None
    rules = reader.rules
    conductors = set(rules.conductors())
    for device in rules.devices:
        if any(device.layers[key] not in conductors for key in CONDUCTOR_KEYS[device.kind]):
            raise RuleFault(34, device.line)
    rules.devices.sort(key=lambda device: device.kind != "mos")
    return rules
