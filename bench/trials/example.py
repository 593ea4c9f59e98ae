"""README.md, the example of one transistor: the files of examples/, and the lines that the README shows."""
import os
import re
import struct

import tools

DOCUMENT = "README.md"


def rectangles(data):
    """The boundaries of a stream: layer, least and greatest corner."""
    at, found, layer = 0, [], None
    while at < len(data):
        length, kind, _ = struct.unpack_from(">HBB", data, at)
        if kind == 0x0D:
            layer = struct.unpack_from(">H", data, at + 4)[0]
        elif kind == 0x10:
            xs, ys = zip(*struct.iter_unpack(">2i", data[at + 4:at + length]))
            found.append((layer, min(xs), min(ys), max(xs), max(ys)))
        at += length
    return found


def try_all(trials):
    text = tools.section(tools.document(DOCUMENT), "## An example")
    for name in ("mos.gds", "mos.lvs", "mos.cir"):
        with open(os.path.join(tools.TOP, "examples", name), "rb") as file:
            trials.put(name, file.read())
    for line in trials.text("mos.lvs").strip().split("\n"):
        trials.expect_said(text, line)
    status, line, _ = trials.compare("mos.gds", "mos.lvs", "mos.cir")
    trials.expect("the example", (0, "match cells 1 circuits 1 pairs 1 bad 0"), (status, line))
    trials.expect_said(text, f"`{line}`")
    card = next(line for line in trials.text("out.cir").split("\n") if line.startswith("M1"))
    trials.expect_said(text, f"`{card}`")
    with open(trials.path("out.gds"), "rb") as file:
        for layer, x1, y1, x2, y2 in rectangles(file.read()):
            trials.expect_said(text, f"({x1}, {y1})-({x2}, {y2})")
            trials.expect_said(text, f"{layer}/0")
    trials.put("other.cir", re.sub("L=0.06U", "L=0.07U", trials.text("mos.cir")))
    status, line, _ = trials.compare("mos.gds", "mos.lvs", "other.cir")
    trials.expect("another length", (1, "mismatch"), (status, line.split()[0]))
