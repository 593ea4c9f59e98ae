"""docs/FROM_KLAYOUT.md: each statement of its tables, left in a rule file, and what stands in its place."""
import re

import tools

DOCUMENT = "docs/FROM_KLAYOUT.md"
# What stands before a statement, but for what the statement defines itself; and behind it.
BEFORE = ["a = input(1, 0)", "b = input(2, 0)", "c = input(3, 0)", "sd = input(4, 0)", "gate = input(5, 0)",
          "poly = input(6, 0)", "metal = input(7, 0)", "nwell = input(8, 0)", "ntie = input(9, 0)",
          "ptie = input(10, 0)", "bulk = polygon_layer", "txt = labels(5, 1)"]
BEHIND = ["connect(sd, metal)", "connect(poly, metal)", "connect(a, metal)", "connect(b, metal)",
          'connect_global(bulk, "VSS")']
# In the last column: words of a command, and names.
OTHER = re.compile(r'^(--|lvs_|"|mos4|[a-z]$|.$)')
ALONE = {"flatten_unmatched", "same_pins", "combine_devices"}


def said_of(trials, lines):
    """What the program says of these statements: `stays`, or the number of the refusal of one of them."""
    defined = {line.split(" = ")[0] for line in lines}
    before = [line for line in BEFORE if line.split(" = ")[0] not in defined]
    trials.put("row.lvs", "\n".join(before + lines + BEHIND) + "\n")
    status, said = trials.run("shapes", "a.gds", "row.lvs", "out.gds")
    if status == 0:
        return "stays"
    match = re.fullmatch(r"refused rules (\d+) line (\d+)", said)
    at = int(match[2]) - len(before) - 1 if match else -1
    return match[1] if 0 <= at < len(lines) else f"{status} {said}"


def statements(cell):
    return [it for it in tools.snippets(cell) if it in ALONE or not OTHER.match(it) and ("=" in it or "(" in it)]


def try_all(trials):
    trials.put("a.gds", b"".join(tools.library(tools.cell("A", tools.square(0, 0, 10, 10)))))
    text = tools.document(DOCUMENT)
    for header, rows in tools.rows(tools.section(text, "## The statements, one by one")):
        for row in rows:
            left_in = row[1] if header[1] == "Left in" else "stays"
            for statement in tools.snippets(row[0]):
                trials.expect(statement, left_in, said_of(trials, [statement]))
            if header[1] == "Left in" and (here := statements(row[2])):
                trials.expect("; ".join(here), "stays", said_of(trials, here))
    for statement in statements(tools.section(text, "## Bulk, wells, labels, names")):
        trials.expect(statement, "stays", said_of(trials, [statement]))
