"""bench/slips: slips of a user's hand, each with its words, its line, and words that stand in what lvs tells people on
standard error: of its cause and of its cure. And what is said after a match, a mismatch, a match of nothing, a full disk."""
import glob
import os
import shlex

import refusals
import tools
from tools import cell, reference, square

SLIPS = os.path.join(tools.TOP, "bench", "slips")
OUT = ["--shapes", "o.gds", "--netlist", "o.cir", "--report", "o.txt"]
RUN = ["run", "--layout", "chip.gds", "--rules", "chip.lvs", "--schematic", "chip.cir", *OUT]
# Layouts of the rows, beside those of the refusals.
LAYOUTS = {name: data for _, name, data, _ in refusals.STREAMS}
LAYOUTS["no library"] = lambda: refusals.joined(cell("A", reference("B")))
LAYOUTS["two tops"] = lambda: refusals.joined(cell("A"), cell("B"))


class Slip:
    """A row: what its words are, which files it wants, and what is said."""

    def __init__(self, name):
        self.name, self.words, self.line, self.status, self.says, self.files = name, [], "", 2, [], {}


def read_rows(path):
    """the rows of a file"""
    slips, text = [], None
    with open(path, encoding="utf-8") as file:
        lines = file.read().split("\n")
    for line in lines:
        key, _, value = line.strip().partition(" ")
        if line.startswith("    "):
            text.append(line[4:])
        elif key == "slip":
            slips.append(Slip(value))
        elif key in ("rules", "schematic", "report"):
            text = slips[-1].files.setdefault(key, [])
        elif key == "layout":
            slips[-1].files[key] = value
        elif key == "words":
            slips[-1].words = [one for word in shlex.split(value) for one in {"RUN": RUN, "OUT": OUT}.get(word, [word])]
        elif key == "line":
            slips[-1].line = value
        elif key == "status":
            slips[-1].status = int(value)
        elif key == "says":
            slips[-1].says.append(value)
    return slips


def put_files(trials, slip):
    """the files of a row, as a.gds, a.lvs and a.cir"""
    for key, name in (("rules", "a.lvs"), ("schematic", "a.cir")):
        if key in slip.files:
            trials.put(name, "\n".join(slip.files[key]) + "\n")
    if "layout" in slip.files:
        trials.put("a.gds", LAYOUTS[slip.files["layout"]]())


def missing(said, wanted):
    return [words for words in wanted if words not in said]


def try_slip(trials, slip):
    put_files(trials, slip)
    status, line, said = trials.told(*slip.words)
    trials.expect(slip.name, (slip.status, [], []), (status, missing(line, [slip.line]), missing(said, slip.says)))


def put_shared(trials):
    """the files that rows name"""
    trials.put("one.gds", refusals.joined(cell("A", square(0, 0, 10, 10))))
    trials.put("one.lvs", refusals.RULES)
    tools.in_place(trials)
    trials.put("layer.lvs", trials.text("chip.lvs").replace("input(3, 0)", "input(33, 0)"))
    trials.put("width.cir", trials.text("chip.cir").replace("W=0.5U", "W=0.6U", 1))
    trials.put("scale.cir", ".OPTION SCALE=1U\n" + trials.text("chip.cir"))
    spare = ".SUBCKT SPARE a\nM1 a a a a NMOS L=0.1U W=1U\n.ENDS\n"
    trials.put("call.cir", spare + trials.text("chip.cir").replace(".SUBCKT TOP", ".SUBCKT CHIP"))
    trials.put("schematic", trials.text("chip.cir"))
    os.symlink("chip.gds", trials.path("link.gds"))
    os.makedirs(trials.path("folder"), exist_ok=True)


def try_own_output(trials):
    """standard output behind a layout that is read: nothing is written to it"""
    before = trials.text("chip.gds")
    with open(trials.path("chip.gds"), "ab") as file:
        status, _, said = trials.told("shapes", "chip.gds", "chip.lvs", "o.gds", out=file)
    wanted = ["standard output is chip.gds, too", "name another one behind >"]
    trials.expect("a layout that is standard output", (2, [], True),
                  (status, missing(said, wanted), trials.text("chip.gds") == before))


def try_all(trials):
    status, line, said = trials.told("make", "3", "1", "1", "chip")
    trials.expect("make", (0, "match cells 4 circuits 4 pairs 4 bad 0", []), (status, line, missing(said, ["match"])))
    put_shared(trials)
    slips = [slip for path in sorted(glob.glob(os.path.join(SLIPS, "*.rows"))) for slip in read_rows(path)]
    for slip in slips:
        try_slip(trials, slip)
    trials.expect("sixty slips", True, sum(slip.status == 2 for slip in slips) >= 60)
    with open("/dev/full", "wb") as full:
        status, _, said = trials.told("shapes", "chip.gds", "chip.lvs", "o.gds", out=full)
        trials.expect("a full standard output", (4, []), (status, missing(said, ["standard output takes no more"])))
    try_own_output(trials)
    for words in (["help"], ["--help"], ["help", "run"], ["run", "--help"], ["version"]):
        trials.expect(" ".join(words), 0, trials.told(*words)[0])
    trials.expect("endings", [], missing(trials.told("help", "run")[1], [".gds", ".lvs", ".cir", "chip.report.txt"]))
