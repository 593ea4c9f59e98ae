"""docs/FROM_KLAYOUT.md, A mismatch, step by step, and what docs/FORMATS.md says of the database's first lines, of its words and refusals."""
import gds
import tools

CHIP = ["--layout", "chip.gds", "--rules", "place.lvs", "--schematic"]
REFUSED = [
    (CHIP[:4], "refused words"),
    (CHIP + ["chip.cir"], "refused words"),
    (CHIP + ["chip.cir", "--database", "out.lvsdb", "--report", "out.txt"], "refused words"),
    (CHIP + ["chip.cir", "--database", "chip.cir"], "refused same chip.cir"),
    (CHIP + ["chip.cir", "--database", "out.lvsdb", "--page", "chip.gds"], "refused same chip.gds"),
    (CHIP + ["chip.cir", "--database", "out.lvsdb", "--page", "out.lvsdb"], "refused same out.lvsdb"),
    (CHIP + ["none.cir", "--database", "out.lvsdb"], "refused absent none.cir"),
    (CHIP + ["chip.lvs", "--database", "out.lvsdb"], "refused schematic 50 line 1"),
    (["--layout", "far.gds"] + CHIP[2:] + ["chip.cir", "--database", "out.lvsdb"], "refused view"),
]


def far_chip(trials):
    """A layout that reaches 2^30."""
    cell = gds.Cell("FAR")
    cell.rect((5, 0), 2 ** 30 - 10, 0, 2 ** 30, 10)
    gds.write(trials.path("far.gds"), [cell])


def try_all(trials):
    text, formats = tools.document("docs/FROM_KLAYOUT.md"), tools.document("docs/FORMATS.md")
    trials.expect("make", (0, "match cells 4 circuits 4 pairs 4 bad 0"), trials.run("make", "3", "1", "1", "chip"))
    tools.in_place(trials)
    trials.put("width.cir", trials.text("chip.cir").replace("W=0.5U", "W=0.6U", 1))
    far_chip(trials)
    for words, line in REFUSED:
        trials.expect(" ".join(words), (2, line), trials.show(*words))
    trials.expect("a match", (0, "view match circuits 4 pairs 4 bad 0"), trials.show(*CHIP, "chip.cir", "--database", "chip.lvsdb"))
    wrong = trials.show(*CHIP, "width.cir", "--database", "chip.lvsdb", "--page", "chip.txt")
    trials.expect("another width", (1, "view mismatch circuits 4 pairs 4 bad 0"), wrong)
    trials.expect_said(tools.section(text, "## A mismatch, step by step"), wrong[1])
    page = trials.text("chip.txt").split("\n")
    trials.expect("the page's lines", 5, len(page))
    for line in page[2:4]:
        trials.expect_said(tools.section(text, "## A mismatch, step by step"), line)
    trials.expect_said(tools.section(formats, "## The netlist browser's database"), page[0])
    lines = trials.text("chip.lvsdb").split("\n")
    for line in ("#%lvsdb-klayout", "J(", "H(", "Z("):
        trials.expect(line, True, line in lines)
        trials.expect_said(tools.section(formats, "## The netlist browser's database"), line)
    for line in (" W(TOP)", " U(0.001)", " L(metal '5/0')", " L('device regions')", " C(psd psd contact)", " C(contact contact psd)", " G(bulk VSS)",
                 " K(NMOS MOS4)", "   M(E B('round 0 of layout device 2 layout 1 schematic 0'))"):
        trials.expect(line, True, line in lines)
