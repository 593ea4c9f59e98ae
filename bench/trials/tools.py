"""What the trials share: a folder of their own, the program's runs, the documents, and what differed."""
import os
import re
import struct
import subprocess
import sys

HERE = os.path.dirname(os.path.abspath(__file__))
TOP = os.path.dirname(os.path.dirname(HERE))
sys.path.insert(0, os.path.join(TOP, "bench", "block"))
import gds  # noqa: E402


class Trials:
    """Runs the program in one folder, and counts what was tried and what differed."""

    def __init__(self, program, teller, folder):
        self.program, self.teller = program, teller
        self.folder, self.tried, self.differed = folder, 0, []

    def path(self, name):
        return os.path.join(self.folder, name)

    def put(self, name, data):
        with open(self.path(name), "wb") as file:
            file.write(data if isinstance(data, bytes) else data.encode())
        return name

    def text(self, name):
        with open(self.path(name), encoding="latin-1") as file:
            return file.read()

    def call(self, words, out=subprocess.PIPE):
        done = subprocess.run(words, cwd=self.folder, stdout=out, stderr=subprocess.DEVNULL)
        return done.returncode, (done.stdout or b"").decode("latin-1").rstrip("\n")

    def run(self, *words, out=subprocess.PIPE):
        """lvs: the exit status, and the line."""
        return self.call([*self.program, *words], out)

    def turn(self, *words):
        """lvs netlist: the exit status, and what it tells."""
        return self.call([self.teller, "netlist", *words])

    def show(self, *words):
        """lvs view: the exit status, and the line."""
        return self.call([self.teller, "view", *words])

    def told(self, *words, out=subprocess.PIPE):
        """lvs: the exit status, the line, and what it tells people on standard error."""
        done = subprocess.run([self.teller, *words], cwd=self.folder, stdout=out, stderr=subprocess.PIPE)
        line = (done.stdout or b"").decode("latin-1").rstrip("\n")
        return done.returncode, line, done.stderr.decode("latin-1")

    def compare(self, layout, rules, schematic):
        """A run on these files: the exit status, the line, and the report without its tables of a match."""
        status, line = self.run(
            "run", "--layout", layout, "--rules", rules, "--schematic", schematic, "--shapes", "out.gds",
            "--netlist", "out.cir", "--report", "out.txt")
        report = self.text("out.txt").split("\n") if status in (0, 1, 3) else []
        return status, line, report

    def expect(self, what, wanted, got):
        self.tried += 1
        if wanted != got:
            self.differed.append(f"{what}\n  the document: {wanted}\n  the program:  {got}")

    def expect_said(self, document, words):
        """The document has these words, whatever its line breaks are."""
        self.tried += 1
        if " ".join(words.split()) not in " ".join(document.split()):
            self.differed.append(f"the document doesn't say: {words}")


def in_place(trials):
    """The rules of the chip that was made, by which each pair is told where it stands."""
    lines = trials.text("chip.lvs").split("\n")
    return trials.put("place.lvs", "\n".join(line for line in lines if line != "flatten_unmatched"))


def document(name):
    with open(os.path.join(TOP, name), encoding="utf-8") as file:
        return file.read()


def section(text, title):
    """What stands behind a heading, up to the next one of its level or above."""
    at = text.index(title)
    level = len(re.match(r"#+", title)[0])
    end = re.search(rf"^#{{1,{level}}} ", text[at + len(title):], re.M)
    return text[at:at + len(title) + end.start()] if end else text[at:]


def rows(text):
    """The rows of each table of a text: its header, and the cells of its rows."""
    tables, last = [], None
    for line in text.split("\n"):
        if not line.startswith("|"):
            last = None
            continue
        cells = [cell.strip().replace("\\|", "|") for cell in re.split(r"(?<!\\)\|", line)[1:-1]]
        if last is None:
            last = (cells, [])
            tables.append(last)
        elif not set(line) <= set("|- "):
            last[1].append(cells)
    return tables


def snippets(cell):
    return re.findall(r"`([^`]+)`", cell)


# ---- streams

def number(kind, *values):
    return gds.rec(kind, 2, struct.pack(f">{len(values)}H", *values))


def square(x1, y1, x2, y2, layer=1):
    """A boundary, record by record."""
    return [gds.rec(0x08, 0), number(0x0D, layer), number(0x0E, 0),
            gds.xy([(x1, y1), (x1, y2), (x2, y2), (x2, y1), (x1, y1)]), gds.rec(0x11, 0)]


def reference(name, x=0, y=0, *turn):
    return [gds.rec(0x0A, 0), gds.rec(0x12, 6, gds.string(name)), *turn, gds.xy([(x, y)]), gds.rec(0x11, 0)]


def cell(name, records=()):
    return [gds.rec(0x05, 2, gds.Z24), gds.rec(0x06, 6, gds.string(name)), *records, gds.rec(0x07, 0)]


def library(*cells, units=gds.UNITS):
    """The records of a library; its cells' records begin at number 4."""
    head = [number(0x00, 600), gds.rec(0x01, 2, gds.Z24), gds.rec(0x02, 6, gds.string("T")), gds.rec(0x03, 5, units)]
    return head + [record for one in cells for record in one] + [gds.rec(0x04, 0)]
