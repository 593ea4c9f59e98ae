"""Reading a GDSII stream into a library, with the first fault, and writing records."""

import struct

import values

HEADER, BGNLIB, LIBNAME, UNITS, ENDLIB = 0x00, 0x01, 0x02, 0x03, 0x04
BGNSTR, STRNAME, ENDSTR = 0x05, 0x06, 0x07
BOUNDARY, PATH, SREF, AREF, TEXT, NODE, BOX = 0x08, 0x09, 0x0A, 0x0B, 0x0C, 0x15, 0x2D
LAYER, DATATYPE, WIDTH, XY, ENDEL = 0x0D, 0x0E, 0x0F, 0x10, 0x11
SNAME, COLROW, TEXTTYPE, PRESENTATION, STRING = 0x12, 0x13, 0x16, 0x17, 0x19
STRANS, MAG, ANGLE, PATHTYPE = 0x1A, 0x1B, 0x1C, 0x21
ELFLAGS, NODETYPE, PROPATTR, PROPVALUE, BOXTYPE = 0x26, 0x2A, 0x2B, 0x2C, 0x2E
PLEX, BGNEXTN, ENDEXTN = 0x2F, 0x30, 0x31
OPTIONS = frozenset((0x1F, 0x20, 0x23, 0x22, 0x36, 0x37, 0x38))

FORMS = {
    HEADER: 2, BGNLIB: 2, LIBNAME: 6, UNITS: 5, ENDLIB: 0, BGNSTR: 2, STRNAME: 6, ENDSTR: 0,
    BOUNDARY: 0, PATH: 0, SREF: 0, AREF: 0, TEXT: 0, NODE: 0, BOX: 0,
    LAYER: 2, DATATYPE: 2, WIDTH: 3, XY: 3, ENDEL: 0, SNAME: 6, COLROW: 2, TEXTTYPE: 2,
    PRESENTATION: 1, STRING: 6, STRANS: 1, MAG: 5, ANGLE: 5, PATHTYPE: 2, ELFLAGS: 1,
    NODETYPE: 2, PROPATTR: 2, PROPVALUE: 6, BOXTYPE: 2, PLEX: 3, BGNEXTN: 3, ENDEXTN: 3,
}
SIZES = {
    HEADER: 2, LAYER: 2, DATATYPE: 2, TEXTTYPE: 2, NODETYPE: 2, BOXTYPE: 2, PATHTYPE: 2,
    ELFLAGS: 2, PRESENTATION: 2, STRANS: 2, PROPATTR: 2, WIDTH: 4, BGNEXTN: 4, ENDEXTN: 4,
    COLROW: 4, PLEX: 4, MAG: 8, ANGLE: 8, UNITS: 16, BGNLIB: 24, BGNSTR: 24,
}
KNOWN = frozenset(FORMS) | OPTIONS

# The parts of each element in order: (kind, what).  "must" stands once, "may" at most once,
# "after" at most once and only where the part named third stands.
_FLAGS = [(ELFLAGS, "may"), (PLEX, "may")]
_TURN = [(STRANS, "may"), (MAG, "after"), (ANGLE, "after")]
BODIES = {
    BOUNDARY: _FLAGS + [(LAYER, "must"), (DATATYPE, "must"), (XY, "must")],
    PATH: _FLAGS + [(LAYER, "must"), (DATATYPE, "must"), (PATHTYPE, "may"), (WIDTH, "may"),
                    (BGNEXTN, "may"), (ENDEXTN, "may"), (XY, "must")],
    SREF: _FLAGS + [(SNAME, "must")] + _TURN + [(XY, "must")],
    AREF: _FLAGS + [(SNAME, "must")] + _TURN + [(COLROW, "must"), (XY, "must")],
    TEXT: _FLAGS + [(LAYER, "must"), (TEXTTYPE, "must"), (PRESENTATION, "may"),
                    (PATHTYPE, "may"), (WIDTH, "may")] + _TURN + [(XY, "must"),
                                                                 (STRING, "must")],
    NODE: _FLAGS + [(LAYER, "must"), (NODETYPE, "must"), (XY, "must")],
    BOX: _FLAGS + [(LAYER, "must"), (BOXTYPE, "must"), (XY, "must")],
}
MAX_POINTS = 1000000


class GdsFault(Exception):
    """The first fault of a stream: its number, the record's number and offset."""

    def __init__(self, number, index, offset):
        super().__init__(number, index, offset)
        self.number, self.index, self.offset = number, index, offset


class _Bad(Exception):
    def __init__(self, number):
        super().__init__(number)
        self.number = number


class Cell:
    """A structure: shapes (key, form), texts (key, point, string) and references."""

    def __init__(self, dates):
        self.dates = dates
        self.name = b""
        self.shapes = []
        self.texts = []
        self.refs = []


class Ref:
    """A reference; `turn` is (mirrored, quarter turns)."""

    def __init__(self, cell, turn, origin, columns, rows, column_step, row_step):
        self.cell, self.turn, self.origin = cell, turn, origin
        self.columns, self.rows = columns, rows
        self.column_step, self.row_step = column_step, row_step


class Library:
    """What a stream holds."""

    def __init__(self):
        self.version = self.dates = self.name = self.units = b""
        self.unit_pm = 0
        self.cells = []


def points_of(data):
    """The points of an XY record, or None where they aren't whole points."""
    if len(data) % 8:
        return None
    numbers = struct.unpack(">%di" % (len(data) // 4), data)
    return list(zip(numbers[0::2], numbers[1::2]))


def _slanted(points):
    return any(a[0] != b[0] and a[1] != b[1] for a, b in zip(points, points[1:]))


def _closed(points):
    return len(points) >= 4 and points[0] == points[-1]


def _moves(points):
    return any(a != b for a, b in zip(points, points[1:]))


class Reader:
    """Takes one record after another; `accept` raises the first fault of a record."""

    def __init__(self):
        self.library = Library()
        self.state = "header"
        self.cell = None
        self.start = None       # kind of the open element
        self.step = 0           # place in the element's list of parts
        self.got = {}           # data of the open element's parts
        self.points = []        # points of the open element
        self.done = False

    # -- which kind may stand next ------------------------------------------------------

    def _next_part(self, kind):
        """The place after `kind` in the open element's list, or None."""
        parts = BODIES[self.start]
        place = self.step
        while place < len(parts):
            part, what = parts[place]
            if part == kind and (what != "after" or STRANS in self.got):
                return place + 1
            if what == "must":
                return None
            place += 1
        return None

    def _fits(self, kind):
        """The state after a record of this kind, or None where it can't stand here."""
        state = self.state
        if state == "header":
            return "bgnlib" if kind == HEADER else None
        if state == "bgnlib":
            return "libname" if kind == BGNLIB else None
        if state == "libname":
            return state if kind in OPTIONS else "units" if kind == LIBNAME else None
        if state == "units":
            return state if kind in OPTIONS else "cells" if kind == UNITS else None
        if state == "cells":
            return {BGNSTR: "strname", ENDLIB: "end"}.get(kind)
        if state == "strname":
            return "elements" if kind == STRNAME else None
        if state == "elements":
            return "body" if kind in BODIES else "cells" if kind == ENDSTR else None
        if state == "body":
            place = self._next_part(kind)
            if place is None:
                return None
            self.next_step = place
            return "tail" if place == len(BODIES[self.start]) else "body"
        if state == "tail":
            if kind == XY and self.previous == XY and self.start in (BOUNDARY, PATH):
                return "tail"
            return {PROPATTR: "value", ENDEL: "elements"}.get(kind)
        if state == "value":
            return "tail" if kind == PROPVALUE else None
        return None

    # -- one record -----------------------------------------------------------------------

    def accept(self, kind, form, data):
        """Takes a record whose framing is right."""
        following = self._fits(kind)
        if following is None:
            raise _Bad(4)
        if self.state == "tail" and self.previous == XY and kind != XY:
            if self.start == BOUNDARY and not _closed(self.points):
                raise _Bad(5)
            if self.start == PATH and not _moves(self.points):
                raise _Bad(5)
        if kind not in OPTIONS:
            if form != FORMS[kind]:
                raise _Bad(5)
            size = 0 if FORMS[kind] == 0 else SIZES.get(kind)
            if size is not None and len(data) != size:
                raise _Bad(5)
        if FORMS.get(kind) == 6:
            data = data.rstrip(b"\0")
            if kind in (STRNAME, SNAME) and not data:
                raise _Bad(5)
        if kind in BODIES:
            self.start, self.step, self.got, self.points = kind, 0, {}, []
        elif self.state == "body":
            self._meaning(kind, data)
            self.got[kind] = data
            self.step = self.next_step
        elif self.state == "tail" and kind == XY:
            self._meaning(kind, data)
        else:
            self._outer(kind, data)
        self.previous = kind
        self.state = following

    def _outer(self, kind, data):
        library = self.library
        if kind == HEADER:
            library.version = data
        elif kind == BGNLIB:
            library.dates = data
        elif kind == LIBNAME:
            library.name = data
        elif kind == UNITS:
            library.unit_pm = values.unit_picometres(data[8:])
            if library.unit_pm is None:
                raise _Bad(13)
            library.units = data
        elif kind == BGNSTR:
            self.cell = Cell(data)
        elif kind == STRNAME:
            self.cell.name = data
        elif kind == ENDSTR:
            library.cells.append(self.cell)
        elif kind == ENDEL:
            self._element()
        elif kind == ENDLIB:
            self.done = True

    def _meaning(self, kind, data):
        """The tests of a part's meaning."""
        start = self.start
        reference = start in (SREF, AREF)
        if kind == PATHTYPE and start == PATH:
            number = int.from_bytes(data, "big", signed=True)
            if number == 1:
                raise _Bad(7)
            if number not in (0, 2, 4):
                raise _Bad(5)
        elif kind == WIDTH and start == PATH:
            if int.from_bytes(data, "big", signed=True) % 2:
                raise _Bad(8)
        elif kind == STRANS and reference:
            if int.from_bytes(data, "big") & 0x0006:
                raise _Bad(11)
        elif kind == MAG and reference:
            if values.real8(data) != 1:
                raise _Bad(9)
        elif kind == ANGLE and reference:
            if values.quarter(data) is None:
                raise _Bad(10)
        elif kind == COLROW:
            if min(struct.unpack(">hh", data)) < 1:
                raise _Bad(12)
        elif kind == XY:
            self._points(data)

    def _points(self, data):
        start = self.start
        points = points_of(data)
        if points is None or not points:
            raise _Bad(5)
        if start in (BOUNDARY, PATH):
            points = self.points + points
            if len(points) > MAX_POINTS:
                raise _Bad(14)
            if _slanted(points):
                raise _Bad(6)
        elif start == BOX:
            if len(points) != 5 or points[0] != points[-1]:
                raise _Bad(5)
            if _slanted(points):
                raise _Bad(6)
        elif start in (SREF, TEXT):
            if len(points) != 1:
                raise _Bad(5)
        elif start == AREF:
            if len(points) != 3:
                raise _Bad(5)
            columns, rows = struct.unpack(">hh", self.got[COLROW])
            origin, right, up = points
            for axis in (0, 1):
                if (right[axis] - origin[axis]) % columns or (up[axis] - origin[axis]) % rows:
                    raise _Bad(12)
        self.points = points

    # -- a whole element --------------------------------------------------------------------

    def _key(self, second):
        return (int.from_bytes(self.got[LAYER], "big"), int.from_bytes(self.got[second], "big"))

    def _long(self, kind):
        return int.from_bytes(self.got.get(kind, b"\0"), "big", signed=True)

    def _element(self):
        start, cell, points = self.start, self.cell, self.points
        if start == BOUNDARY:
            cell.shapes.append((self._key(DATATYPE), ("boundary", points)))
        elif start == PATH:
            half = abs(self._long(WIDTH)) // 2
            ends = self._long(PATHTYPE)
            begin, end = {0: (0, 0), 2: (half, half),
                          4: (self._long(BGNEXTN), self._long(ENDEXTN))}[ends]
            cell.shapes.append((self._key(DATATYPE), ("path", points, half, begin, end)))
        elif start == BOX:
            cell.shapes.append((self._key(BOXTYPE), ("box", points)))
        elif start == TEXT:
            if self.got[STRING]:
                cell.texts.append((self._key(TEXTTYPE), points[0], self.got[STRING]))
        elif start in (SREF, AREF):
            self._reference()

    def _reference(self):
        got, points = self.got, self.points
        mirrored = bool(int.from_bytes(got.get(STRANS, b"\0\0"), "big") & 0x8000)
        turns = values.quarter(got[ANGLE]) if ANGLE in got else 0
        columns = rows = 1
        column_step = row_step = (0, 0)
        origin = points[0]
        if self.start == AREF:
            columns, rows = struct.unpack(">hh", got[COLROW])
            column_step = tuple((points[1][k] - origin[k]) // columns for k in (0, 1))
            row_step = tuple((points[2][k] - origin[k]) // rows for k in (0, 1))
        self.cell.refs.append(Ref(got[SNAME], (mirrored, turns), origin, columns, rows,
                                  column_step, row_step))


def read_library(data):
    """The library that the bytes hold; raises GdsFault."""
    reader = Reader()
    place = index = 0
    while not reader.done:
        number = _framing(data, place)
        if number is None:
            size = int.from_bytes(data[place:place + 2], "big")
            try:
                reader.accept(data[place + 2], data[place + 3], data[place + 4:place + size])
            except _Bad as bad:
                number = bad.number
        if number is not None:
            raise GdsFault(number, index, place)
        place += size
        index += 1
    return reader.library


def _framing(data, place):
    left = len(data) - place
    if left < 4:
        return 1
    size = int.from_bytes(data[place:place + 2], "big")
    if size < 4 or size % 2:
        return 2
    if left < size:
        return 1
    if data[place + 2] not in KNOWN:
        return 3
    return None


def record(kind, data=b""):
    """The bytes of one record."""
    if FORMS[kind] == 6 and len(data) % 2:
        data += b"\0"
    return struct.pack(">HBB", len(data) + 4, kind, FORMS[kind]) + data
