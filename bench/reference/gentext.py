"""Random rule files and schematics that fit random layouts."""

from names import escape, folded
from netlist import DIODE, RESISTOR, terminals

NOISE = [b"deep", b"netlist", b"align", b"compare", b"schematic('x.cir')", b"# a comment", b"",
         b"  \t", b"netlist # 'x"]


PASSED = [b"\n", b"*\n", b".model n nmos (level=1)\n", b".option a\n"]


def _asked(rng, names):
    """What a selection asks: a word with another name, or an area."""
    if rng.random() < 0.7:
        word = rng.choice([b"interacting", b"overlapping", b"inside", b"outside"])
        return rng.choice([b"", b"", b"not_"]) + b"%s(%s)" % (word, rng.choice(names))
    bounds = sorted(rng.choice([0, 1, 2, 4, 9, 20, 100, 2500, 62500]) for _ in range(2))
    given = [b"%d" % bound for bound in bounds]
    if rng.random() < 0.3:
        given[rng.randrange(2)] = b"nil"
    elif rng.random() < 0.3:
        given.pop()
    return rng.choice([b"with_area", b"without_area"]) + b"(%s)" % b", ".join(given)


class RuleMaker:
    """Makes the lines of a rule file."""

    def __init__(self, rng):
        self.rng, self.lines, self.names = rng, [], []

    def layers(self):
        """Booleans over four inputs, with outputs."""
        rng = self.rng
        for k in range(1, 5):
            self.lines.append(b"in%d = input(%d, 0)" % (k, k))
            self.names.append(b"in%d" % k)
        if rng.random() < 0.3:
            self.lines.append(b"none = polygon_layer")
            self.names.append(b"none")
        self.booleans(rng.randint(1, 5))
        self.outputs()

    def booleans(self, count):
        """Derived layers of what is there."""
        rng = self.rng
        for k in range(count):
            name = b"d%d" % k
            if rng.random() < 0.3:
                size = rng.choice([1, 2, 3, -1, -2])
                self.lines.append(b"%s = %s.sized(%d)" % (name, rng.choice(self.names), size))
            else:
                self.lines.append(b"%s = %s %s %s" % (
                    name, rng.choice(self.names), rng.choice([b"&", b"|", b"-", b"^"]),
                    rng.choice(self.names)))
            self.names.append(name)

    def outputs(self):
        """Some output lines on pairs of their own."""
        rng = self.rng
        for k, name in enumerate(rng.sample(self.names, min(len(self.names), rng.randint(0, 4)))):
            self.lines.append(b"%s.output(%d, %d)" % (name, 10 + k, rng.choice([0, 7])))

    def plain(self):
        """One kind of transistor, for layouts whose wires are metal."""
        self.lines += [
            b"active = input(2, 0)", b"poly = input(3, 0)", b"metal = input(5, 0)",
            b"txt = labels(5, 1)", b"bulk = polygon_layer", b"gate = active & poly",
            b"sd = active - poly", b"connect(sd, metal)", b"connect(poly, txt)",
            b"extract_devices(mos4('N'), { 'SD' => sd, 'G' => gate, 'W' => bulk, 'tG' => poly })",
            b"connect_global(bulk, 'VSS')"]
        if self.rng.random() < 0.5:
            self.lines.append(b"connect_global(poly, 'G')")

    def devices(self):
        """Transistor rules with connections."""
        rng, add = self.rng, self.lines.append
        well = rng.random() < 0.4
        for name, layer in ((b"well", 1), (b"active", 2), (b"poly", 3), (b"contact", 4),
                            (b"metal", 5)):
            add(b"%s = input(%d, 0)" % (name, layer))
        self.names = [b"well", b"active", b"poly", b"contact", b"metal"]
        add(b"txt = labels(5, 1)")
        more_texts = rng.random() < 0.3
        if more_texts:
            add(b"txt2 = labels(5, 2)")
        add(b"bulk = polygon_layer")
        bulk_layer = b"bulk"
        if well:
            add(b"pact = active & well")
            add(b"nact = active - well")
            kinds = [(b"PMOS", b"p", b"pact", b"well"), (b"NMOS", b"n", b"nact", bulk_layer)]
        else:
            kinds = [(rng.choice([b"NMOS", b"nmos", b"N 4"]), b"", b"active", bulk_layer)]
        connects = []
        for device_class, prefix, active, bulk in kinds:
            gate, sd = prefix + b"gate", prefix + b"sd"
            add(b"%s = %s & poly" % (gate, active))
            add(b"%s = %s - poly" % (sd, active))
            self.names += [gate, sd]
            keys = [b'"SD" => ' + sd, b'"G" => ' + gate, b'"W" => ' + bulk, b"'tG' => poly"]
            if rng.random() < 0.15:
                keys += [b'"tS" => active', b'"tD" => active']
                connects.append((b"active", b"metal"))
            if bulk == b"well" and rng.random() < 0.3:
                keys.append(b'"tB" => well')
            rng.shuffle(keys)
            add(b'extract_devices(mos4("%s"), { %s })' % (device_class, b", ".join(keys)))
            connects.append((sd, rng.choice([b"metal", b"contact", b"txt"])))
        connects += [(b"poly", rng.choice([b"contact", b"metal", b"txt"])), (b"metal", b"txt")]
        if rng.random() < 0.8:
            connects.append((b"contact", b"metal"))
        if well and (rng.random() < 0.5):
            connects.append((b"well", rng.choice([b"metal", b"txt"])))
        elif well:
            add(b'connect_global(well, "%s")' % rng.choice([b"VDD", b"VSS", b"nw"]))
        if more_texts:
            connects.append((rng.choice([b"poly", b"metal"]), b"txt2"))
        for pair in connects:
            add(b"connect(%s, %s)" % (pair if rng.random() < 0.7 else pair[::-1]))
        if rng.random() < 0.9:
            add(b'connect_global(bulk, "%s")' % rng.choice([b"VSS", b"VSS", b"gnd", b"SUB!"]))
        else:
            add(b"connect(bulk, metal)")
        if rng.random() < 0.1:
            add(b'connect_global(%s, "VSS")' % rng.choice([b"poly", b"contact"]))
        self.further()
        self.booleans(rng.randint(0, 2))
        self.outputs()

    def further(self):
        """Perhaps resistors and diodes, of layers that no transistor has."""
        rng, add = self.rng, self.lines.append
        if rng.random() < 0.25:
            return
        add(b"mark = input(6, 0)")
        self.names.append(b"mark")
        kinds = rng.choice([b"r", b"r", b"d", b"d", b"rd", b"dr", b"rr", b"dd"])
        for k, kind in enumerate(kinds):
            (self.resistor if kind == b"r"[0] else self.diode)(b"%d" % k)

    def resistor(self, tail):
        """Strips of one layer, between what the mark leaves of it."""
        rng, add = self.rng, self.lines.append
        strip = rng.choice([b"metal", b"metal", b"metal", b"poly", b"active"])
        body, ends, bulk = b"body" + tail, b"ends" + tail, rng.choice([b"bulk", b"bulk", b"well"])
        add(b"%s = %s & mark" % (body, strip))
        add(b"%s = %s - mark" % (ends, strip))
        self.names += [body, ends]
        keys = [b'"R" => ' + body, b"'C' => " + ends, b'"W" => ' + bulk]
        if rng.random() < 0.2:
            keys += [b'"tA" => ' + strip, b'"tB" => ' + strip]
            ends = strip
        if rng.random() < 0.2:
            bulk = rng.choice([b"bulk", b"well", b"mark"])
            keys.append(b'"tW" => ' + bulk)
        rng.shuffle(keys)
        sheet = rng.choice([b"", b", 50", b", 0.5", b", 0000000.0000001"])
        add(b'extract_devices(resistor_with_bulk("%s"%s), { %s })' % (
            rng.choice([b"RES", b"Res ", b"r="]) + tail, sheet, b", ".join(keys)))
        self.joined(ends)
        if bulk != b"bulk" or rng.random() < 0.1:
            self.joined(bulk)

    def diode(self, tail):
        """What two layers share."""
        rng, add = self.rng, self.lines.append
        plus = rng.choice([b"active", b"poly", b"metal", b"well"])
        minus = rng.choice([b"mark", b"mark", b"mark", b"contact", b"metal", b"bulk"])
        if rng.random() < 0.3:
            add(b"plus%s = %s - poly" % (tail, plus))
            plus = b"plus" + tail
            self.names.append(plus)
        anode, cathode = plus, minus
        keys = [b'"P" => ' + plus, b"'N' => " + minus]
        if rng.random() < 0.2:
            anode = rng.choice([b"active", b"metal", b"bulk"])
            keys.append(b'"tA" => ' + anode)
        if rng.random() < 0.2:
            cathode = rng.choice([b"well", b"mark", b"bulk"])
            keys.append(b'"tC" => ' + cathode)
        rng.shuffle(keys)
        add(b'extract_devices(diode("%s"), { %s })' % (
            rng.choice([b"DIO", b"d/", b"\\"]) + tail, b", ".join(keys)))
        for name in (anode, cathode):
            self.joined(name)

    def joined(self, name):
        """A line that makes a layer a conductor, nearly always."""
        rng, add = self.rng, self.lines.append
        if rng.random() < 0.02:
            return
        if rng.random() < 0.2:
            add(b'connect_global(%s, "%s")' % (name, rng.choice([b"VSS", b"VSS", b"gnd", b"E"])))
        else:
            other = rng.choice([b"txt", b"txt", b"metal", b"contact"])
            add(b"connect(%s, %s)" % (name, other))

    def choose(self, rng):
        """Selections over what is there, in front of the devices, which may read them; names and
        outputs over them."""
        at = next((k for k, line in enumerate(self.lines) if line.startswith(b"extract_devices")),
                  len(self.lines))
        known = [line.split()[0] for line in self.lines[:at]
                 if b" = " in line and b"labels" not in line]
        gates = [name for name in known if name.endswith(b"gate")]
        added, chosen = [], []
        for k in range(rng.randint(1, 3)):
            region = rng.choice(gates if gates and rng.random() < 0.5 else known + chosen)
            chosen.append(b"s%d" % k)
            added.append(b"s%d = %s.%s" % (k, region, _asked(rng, known + chosen[:-1])))
            if region in gates and rng.random() < 0.7:
                self.lines = [line.replace(b'"G" => ' + region, b'"G" => ' + chosen[-1])
                              for line in self.lines]
        for k in range(rng.randint(0, 2)):
            one, other = rng.choice(chosen), rng.choice(known + chosen)
            right = (b"%s.sized(%d)" % (one, rng.choice([1, 2, -1])) if rng.random() < 0.4 else
                     b"%s %s %s" % (one, rng.choice([b"&", b"|", b"-", b"^"]), other))
            added.append(b"t%d = %s" % (k, right))
            chosen.append(b"t%d" % k)
        self.lines[at:at] = added
        for k, name in enumerate(rng.sample(chosen, rng.randint(0, len(chosen)))):
            self.lines.append(b"%s.output(%d, 0)" % (name, 30 + k))

    def text(self):
        """The file."""
        rng = self.rng
        lines = []
        for line in self.lines:
            while rng.random() < 0.07:
                lines.append(rng.choice(NOISE))
            if rng.random() < 0.1:
                line += b"  # note"
            if rng.random() < 0.05:
                line = line.replace(b", ", b"\t,  ")
            lines.append(line)
        end = b"\r\n" if rng.random() < 0.2 else b"\n"
        return end.join(lines) + (end if rng.random() < 0.9 else b"")


class SchematicMaker:
    """Writes circuits in a random spelling, perhaps with a damage."""

    DAMAGES = ["width", "exchange", "more", "less", "class", "call", "pin"]

    def __init__(self, rng, circuits):
        self.rng = rng
        self.circuits = circuits
        self.names, self.same = {}, []

    def damage(self, kind):
        """Changes one thing in one circuit, where it has one."""
        rng = self.rng
        full = [c for c in self.circuits if c.devices]
        if kind in ("width", "exchange", "more", "less", "class") and full:
            circuit = rng.choice(full)
            place = rng.randrange(len(circuit.devices))
            device = circuit.devices[place]
            if kind == "width":
                device = device._replace(width=device.width * 2)
            elif kind == "class":
                device = device._replace(device_class=device.device_class + b"X")
            elif kind == "exchange":
                groups = {RESISTOR: [("drain",), ("source",), ("gate", "bulk")],
                          DIODE: [("drain", "source"), ("gate", "bulk")]}
                keys = rng.choice(groups.get(device.device_class[:1],
                                             [("gate",), ("drain",), ("source",)]))
                net = rng.randrange(len(circuit.nets))
                device = device._replace(**{key: net for key in keys})
            elif kind == "more":
                circuit.devices.insert(rng.randrange(place + 1), device)
            else:
                del circuit.devices[place]
                return
            circuit.devices[place] = device
        elif kind == "call":
            full = [c for c in self.circuits if c.calls]
            if full:
                calls = rng.choice(full).calls
                call = rng.choice(calls)
                if len(call.nets) > 1:
                    call.nets[0], call.nets[1] = call.nets[1], call.nets[0]
        elif kind == "pin":
            top = self.circuits[-1]
            free = [n for n in range(len(top.nets)) if n not in top.pins]
            if free:
                top.pins.append(rng.choice(free))

    def text(self):
        """The file's text; `same` gets the pairs that rule lines must name."""
        rng = self.rng
        style = rng.choice(["plain", "renamed", "renamed", "shuffled"])
        for circuit in self.circuits:
            self.names[circuit.name] = circuit.name
            if rng.random() < 0.1:
                other = b"Z" + circuit.name
                self.names[circuit.name] = other
                if rng.random() < 0.6:
                    self.same.append((circuit.name, other))
        self.globals = set()
        if rng.random() < 0.25:
            shared = [{c.nets[p] for p in c.pins} for c in self.circuits]
            every = set.intersection(*shared) if shared else set()
            self.globals = {n for n in every if n.isalpha()}
        pieces = [self._circuit(c, style) for c in self.circuits]
        if rng.random() < 0.4:
            rng.shuffle(pieces)
        lines = [line for piece in pieces for line in piece]
        if self.globals:
            card = b".global " + b" ".join(sorted(self.globals))
            lines.insert(0 if rng.random() < 0.5 else len(lines), card)
        if rng.random() < 0.5:
            lines.append(rng.choice([b".END", b".end", b".End\nnothing (at) all"]))
        return self._folded_lines(lines)

    def _folded_lines(self, lines):
        rng, out = self.rng, [b"* made\n"]
        end = b"\r\n" if rng.random() < 0.2 else b"\n"
        for line in lines:
            words = line.split(b" ")
            while rng.random() < 0.15 and len(words) > 3:
                place = rng.randrange(1, len(words))
                words[place] = rng.choice([b"\n+", b"\n+ ", b"\n* x\n+\t", b"\n\n+"]) + words[place]
            out.append(b" ".join(words) + end)
            if rng.random() < 0.03:
                out.append(rng.choice(PASSED))
        return b"".join(out)

    def _spelled(self, name, style, inner):
        rng = self.rng
        if style == "renamed" and inner:
            name = b"w%s" % name.replace(b"$", b"_")
        text = escape(name)
        if rng.random() < 0.2:
            text = text.lower() if b"\\" not in text else text
        if rng.random() < 0.03 and text[:1].isalpha():
            text = b"\\" + text if text[:1] not in b"xX" else text
        return text

    def _size(self, femto):
        rng = self.rng
        spellings = [b"%dF" % femto, b"%de-15" % femto, b"%d.0E-9Umeter" % femto]
        for suffix, power in ((b"n", 6), (b"u", 9), (b"P", 3)):
            if femto % 10 ** power == 0:
                spellings.append(b"%d%s" % (femto // 10 ** power, suffix))
        return rng.choice(spellings)

    def _area(self, square_pico):
        return self.rng.choice([b"%dE-24" % square_pico, b"%de-12p" % square_pico])

    def _circuit(self, circuit, style):
        rng = self.rng
        words = {}
        for k, name in enumerate(circuit.nets):
            hidden = name in self.globals
            words[k] = self._spelled(name, style, k not in circuit.pins and not hidden)
        cards = []
        for device in circuit.devices:
            cards.append(self._device(device, words))
        for call in circuit.calls:
            called = self.circuits[call.circuit]
            nets = [words[n] for n, p in zip(call.nets, called.pins)
                    if called.nets[p] not in self.globals]
            cards.append(b" ".join([b"X"] + nets + [escape(self.names[called.name])]))
        if style != "plain":
            rng.shuffle(cards)
        pins = [words[p] for p in circuit.pins if circuit.nets[p] not in self.globals]
        head = b" ".join([rng.choice([b".SUBCKT", b".subckt"]), escape(self.names[circuit.name])]
                         + pins)
        cards = [card[:1] + b"%d" % k + card[1:] for k, card in enumerate(cards, 1)]
        return [head] + cards + [rng.choice([b".ENDS", b".ends x"])]

    def _device(self, device, words):
        rng = self.rng
        drain, gate, source, bulk = (words[n] for n in terminals(device))
        if device.device_class[:1] == DIODE:
            params = [b"A=" + self._area(device.width), b"P=" + self._size(device.length)]
            head = [b"D", source, bulk, escape(device.device_class[1:])]
        else:
            params = [b"L=" + self._size(device.length), b"w = " + self._size(device.width)]
            if rng.random() < 0.4:
                drain, source = source, drain
            if device.device_class[:1] == RESISTOR:
                head = [b"R", source, drain, bulk, escape(device.device_class[1:])]
            else:
                head = [b"M", drain, gate, source, bulk, escape(device.device_class)]
                if rng.random() < 0.1:
                    params += [b"AS=1p", b"nrd=x"]
        if rng.random() < 0.1:
            params.append(b"m=1")
        rng.shuffle(params)
        return b" ".join(head + params)


def fits(name):
    """Whether the name can stand in quotes."""
    return all(32 <= b <= 126 and b not in b"\"'" for b in name)


def flatten_lines(rng, maker):
    """Perhaps rule lines by which circuits are flattened."""
    lines = []
    if rng.random() < 0.5:
        lines.append(b"flatten_unmatched")
    if rng.random() < 0.3:
        lines.append(b"same_pins")
    if rng.random() < 0.3:
        lines.append(b"combine_devices")
    while rng.random() < 0.25:
        name = rng.choice(maker.circuits).name if rng.random() < 0.9 else b"NoSuch"
        layout = rng.random() < 0.5
        if not layout:
            name = maker.names.get(name, name)
        said = {folded(pair[0 if layout else 1]) for pair in maker.same}
        if fits(name) and (folded(name) not in said or rng.random() < 0.1):
            side = b"netlist" if layout else b"schematic"
            name = name.lower() if rng.random() < 0.3 else name
            lines.append(b'%s.flatten_circuit("%s")' % (side, name))
    rng.shuffle(lines)
    return lines


def same_lines(pairs):
    """The rule lines for pairs of circuits whose names can stand in quotes."""
    return [b'same_circuits("%s", "%s")' % pair for pair in pairs
            if fits(pair[0]) and fits(pair[1]) and folded(pair[0])]
