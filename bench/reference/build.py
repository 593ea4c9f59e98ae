"""Small builders of streams for checks and for the generator."""

import gds
from chip import UNITS
from layout import ANGLES, rectangle_records, short, xy

rec = gds.record


def longs(*numbers):
    """Four-byte numbers."""
    return b"".join(n.to_bytes(4, "big", signed=True) for n in numbers)


def rect(layer, x1, y1, x2, y2, datatype=0):
    """A rectangle as a boundary."""
    return b"".join(rectangle_records((layer, datatype), (x1, y1, x2, y2)))


def boundary(layer, points, datatype=0, extra=b""):
    """A boundary; `extra` stands before its end."""
    return b"".join([rec(gds.BOUNDARY), rec(gds.LAYER, short(layer)),
                     rec(gds.DATATYPE, short(datatype)), xy(*points), extra, rec(gds.ENDEL)])


def box(layer, x1, y1, x2, y2, kind=0):
    """A BOX element."""
    return b"".join([rec(gds.BOX), rec(gds.LAYER, short(layer)), rec(gds.BOXTYPE, short(kind)),
                     xy((x1, y1), (x2, y1), (x2, y2), (x1, y2), (x1, y1)), rec(gds.ENDEL)])


def path(layer, points, width, ends=None, begin=None, end=None, datatype=0):
    """A path."""
    out = [rec(gds.PATH), rec(gds.LAYER, short(layer)), rec(gds.DATATYPE, short(datatype))]
    if ends is not None:
        out.append(rec(gds.PATHTYPE, short(ends)))
    if width is not None:
        out.append(rec(gds.WIDTH, longs(width)))
    if begin is not None:
        out.append(rec(gds.BGNEXTN, longs(begin)))
    if end is not None:
        out.append(rec(gds.ENDEXTN, longs(end)))
    return b"".join(out + [xy(*points), rec(gds.ENDEL)])


def text(layer, kind, at, string, turn=b""):
    """A text."""
    return b"".join([rec(gds.TEXT), rec(gds.LAYER, short(layer)), rec(gds.TEXTTYPE, short(kind)),
                     turn, xy(at), rec(gds.STRING, string), rec(gds.ENDEL)])


def turn_records(mirrored, quarters):
    """STRANS and ANGLE of a turn."""
    out = b""
    if mirrored or quarters:
        out += rec(gds.STRANS, b"\x80\0" if mirrored else b"\0\0")
    if quarters:
        out += rec(gds.ANGLE, ANGLES[quarters])
    return out


def sref(name, at, mirrored=False, quarters=0):
    """A single reference."""
    return b"".join([rec(gds.SREF), rec(gds.SNAME, name), turn_records(mirrored, quarters),
                     xy(at), rec(gds.ENDEL)])


def aref(name, at, columns, rows, right, up, mirrored=False, quarters=0):
    """An array; `right` and `up` are the points after all columns and all rows."""
    return b"".join([rec(gds.AREF), rec(gds.SNAME, name), turn_records(mirrored, quarters),
                     rec(gds.COLROW, short(columns, rows)), xy(at, right, up), rec(gds.ENDEL)])


def stream(cells, library=b"L", units=UNITS):
    """A whole stream of cells (name, list of elements)."""
    out = [rec(gds.HEADER, short(600)), rec(gds.BGNLIB, bytes(24)), rec(gds.LIBNAME, library),
           rec(gds.UNITS, units)]
    for name, elements in cells:
        out += [rec(gds.BGNSTR, bytes(24)), rec(gds.STRNAME, name), *elements, rec(gds.ENDSTR)]
    return b"".join(out + [rec(gds.ENDLIB)])
