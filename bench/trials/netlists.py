"""docs/FORMATS.md, lvs netlist: what it turns, what it tells of that, and what it refuses; and that what the schematic's
refusals mark with an asterisk is read behind it."""
import tools

DOCUMENT = "docs/FORMATS.md"
CARD = "M1 d g s b NMOS L=0.1U W=1U"
CALLED = ".SUBCKT A a\n.ENDS\n"
# The text, further words, and what is told of it beside the cards that were written.
TURNED = [
    (f".INCLUDE 'other.cir'\n{CARD}\n", [], ["left out in.cir line 1 .INCLUDE"]),
    (f".LIB models.lib fast\n{CARD}\n", [], ["left out in.cir line 1 .LIB"]),
    (f".PARAM wide=1U\n{CARD.replace('W=1U', 'W=wide')}\n", [], ["left out in.cir line 1 .PARAM", "value WIDE 1"]),
    (f"C1 a b 1p\n{CARD}\n", ["--drop-capacitors"], ["left out in.cir line 1 C1"]),
    (f"R1 a b 1\n{CARD}\n", ["--drop-resistors"], ["left out in.cir line 1 R1"]),
    (f"A title\n{CARD}\n", ["--title"], []),
    (f"Main block\n{CARD}\n", ["--title"], []),
    (f"{CARD} $ fast\n", [], []),
    (f"{CARD} ; fast\n", [], []),
    (CARD.replace(" d ", " \\xor ") + "\n", [], ["backslashes 1"]),
    (f"{CARD} SA=1U\n", [], ["parameter SA 1"]),
    (f"{CALLED}X1 n A w=1U\n", [], ["parameter W 1"]),
    (".SUBCKT A a w=1U\n.ENDS\nX1 n A\n", [], ["parameter W 1"]),
    (f"{CALLED}X1 n / A\n", [], ["slashes 1"]),
    (f"{CALLED}X1 n A PARAMS: w=1U\n", [], ["PARAMS: 1"]),
    (CARD.replace("W=1U", "W='1U'") + "\n", [], ["quotes 1"]),
    (f".SUBCKT B a\n{CARD}\n.ENDS\n{CALLED}", ["--top", "A"], ["left out in.cir line 1 .SUBCKT"]),
    (".DEVICE n mos\nX1 d g s b n L=0.1U W=1U\n", [], ["left out in.cir line 1 .DEVICE", "device N 1"]),
    (".DEVICE n resistor L=len W=.5U AS=POLY\nX1 a b w n len=1U\n", [], ["device N 1"]),
    (".DEVICE n diode A=area P=pj P=perim\nX1 a c n area=1P perim=4U\n", [], ["device N 1"]),
    (".DEVICE n out\nX1 a b n c=1f\n", [], ["left out in.cir line 2 X1"]),
    (".DEVICE n mos CHECK=mult\nX1 d g s b n L=0.1U W=1U mult=1 m=2\n", [], ["parameter MULT 1", "device N 1"]),
    (f".DEVICE A out\n{CALLED}", [], ["left out in.cir line 2 .SUBCKT", "left out in.cir line 3 .ENDS"]),
    ("M1 d g s b NMOS L=0.1 W=1\n", ["--scale", "1u"], ["scale 1.000000000U", "scaled L 1", "scaled W 1"]),
]
# What is refused, and why.
REFUSED = [
    (f"C1 a b 1p\n{CARD}\n", [], "refused in.cir line 1 "), ("D1 a b DN\n", [], "refused in.cir line 1 "),
    ("M1 d g s NMOS L=0.1U W=1U\n", [], "refused in.cir line 1 schematic 51"),
    (CARD.replace("W=1U", "W='2*w'") + "\n", [], "refused in.cir line 1 schematic 53"),
    (f"{CALLED}X1 n A M=2\n", [], "refused in.cir line 3 schematic 52"),
    (f"{CARD}\n", ["--top", "NONE"], "refused no circuit NONE"),
    (".INCLUDE none.cir\n", [], "refused absent none.cir"),
    (f".PARAM w=1U\n.PARAM w=2U\n{CARD}\n", [], "refused in.cir line 2 "),
    (f".PARAM w=1U\n.SUBCKT A a w=2U\n.ENDS\n", [], "refused in.cir line 2 "),
    (".DEVICE n mos\nX1 d g s n L=0.1U W=1U\n", [], "refused in.cir line 2 a call of a device"),
    (".DEVICE n mos\nX1 d g s b n L=0.1U\n", [], "refused in.cir line 2 schematic 51"),
    (".DEVICE n mos CHECK=mult\nX1 d g s b n L=0.1U W=1U mult=3 m=2\n", [], "refused in.cir line 2 a number of devices"),
    (".DEVICE n mos\n.DEVICE n out\n", [], "refused in.cir line 2 a second .DEVICE"),
    (".DEVICE n mos d g s d\n", [], "refused in.cir line 1 the card has another form"),
    (f".OPTION SCALE=1u\n{CARD}\n", ["--scale", "1u"], "refused in.cir line 1 a second SCALE"),
]


def try_all(trials):
    trials.put("other.cir", "* nothing\n")
    trials.put("models.lib", ".LIB fast\n.MODEL NMOS NMOS\n.ENDL\n")
    trials.put("a.gds", b"".join(tools.library(tools.cell("A", tools.square(0, 0, 10, 10)))))
    trials.put("a.lvs", "a = input(1, 0)\n")
    for text, words, lines in TURNED:
        trials.put("in.cir", text)
        status, said = trials.turn("in.cir", "--out", "turned.cir", *words)
        told = [line for line in said.split("\n") if not line.startswith("written ")]
        missing = [line for line in lines if not any(it.startswith(line) for it in told)]
        trials.expect(f"turned: {text}", (0, []), (status, missing))
        trials.expect(f"read: {text}", True, trials.compare("a.gds", "a.lvs", "turned.cir")[0] in (0, 1))
    for text, words, line in REFUSED:
        trials.put("in.cir", text)
        status, said = trials.turn("in.cir", "--out", "turned.cir", *words)
        trials.expect(f"refused: {text}", (2, line), (status, said[:len(line)]))
    trials.put("in.cir", CARD + "\n")
    trials.expect("an input twice", (2, "refused same"), trials.turn("in.cir", "in.cir", "--out", "turned.cir"))
    trials.expect("the input as output", (2, "refused same"), trials.turn("in.cir", "--out", "in.cir"))
    trials.expect("words", (2, "refused words"), trials.turn("--titel"))
