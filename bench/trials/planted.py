"""docs/FROM_KLAYOUT.md, what is told of a planted error: bench/planted's rows, and the block whose taps straddle rows.

Wants the OSU library (bench/README.md), and a program that is one word.
"""
import os
import re
import subprocess

import tools

DOCUMENT = "docs/FROM_KLAYOUT.md"
LIBRARY = os.environ.get("OSU035", "/usr/share/qflow/tech/osu035")


def as_told(evidence):
    """`pair TINY TINY: round ..` as the document has it."""
    parts = [re.fullmatch(r"(\w+ \S+) \S+: (.*)", part) for part in evidence.split("; ") if part]
    return "; ".join(f"`{part[1]}`, `{part[2]}`" for part in parts)


def bench(*words):
    return subprocess.run([os.path.join(tools.TOP, "bench", words[0]), *words[1:]], capture_output=True, text=True)


def try_all(trials):
    if not os.path.isdir(LIBRARY) or len(trials.program) > 1:
        print(f"planted: not tried, it wants {LIBRARY} and a program of one word")
        return
    program = trials.program[0]
    told = {row[0]: (row[1], row[-1]) for header, rows in tools.rows(tools.document(DOCUMENT))
            if header[0] == "Error" for row in rows}
    seen = {row[0]: (row[1], as_told(row[-1])) for _, rows in tools.rows("| | |\n" + bench("planted", program).stdout)
            for row in rows}
    for name in sorted({*told, *seen}):
        trials.expect(name, told.get(name), seen.get(name))
    for lines, wanted in [([], 1), (["--line", "flatten_unmatched"], 0)]:
        bench("flow", "tiny", "rail", *lines, "--keep", trials.folder, program)
        report = trials.text("tiny.rep")
        trials.expect("taps that straddle rows", wanted, int("pair INVX1 INVX1 differs\n" in report))
        if not lines:
            evidence = report.split("pair INVX1 INVX1 differs\n")[1].split("\n")[0]
            trials.expect_said(tools.document(DOCUMENT), f"`{evidence}`")
