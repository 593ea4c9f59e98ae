"""The text of the comparison report."""

from match import CALL, DEVICE, NET
from names import escape

SIDES = (b"layout", b"schematic")


def report_text(extracted, pairs, answers, again=False, turns=(), over=None):
    """The report; `pairs` and `answers` are None where the top has no partner.

    `again` says that the answers are of circuits merged again; `turns` has for each turn its pairs,
    its answers, whether these are, and the numbers of the pairs that went; `over` is the name of the
    circuit at which the limit ended the turns.
    """
    layout = extracted.layout
    top = extracted.circuits[extracted.top].name
    if pairs is None:
        partner = b"none"
    else:
        partner = next(escape(right.name) for left, right in pairs if left.name == top)
    lines = [b"lvs report 1", b"top %s %s" % (escape(top), partner),
             b"bad %d" % len(extracted.bad)]
    for cell, gate in extracted.bad:
        lines.append(b"gate %s %s %d %d %s" % (
            escape(layout.names[cell]), escape(gate.device.device_class),
            gate.least[0], gate.least[1], gate.cause))
    for earlier, found, merged, went in turns:
        lines += [b"combined again"] * merged
        for number in went:
            lines += apart_lines(earlier, number, found[number])
    if over is not None:
        lines.append(b"apart limit " + escape(over))
    lines += [b"combined again"] * again
    for number in range(len(pairs or ())):
        lines += pair_lines(pairs, number, answers[number])
    lines.append(b"end")
    return b"".join(line + b"\n" for line in lines)


def apart_lines(pairs, number, answer):
    """The lines of one pair that was taken apart: its line, and what shows that it differs."""
    found = pair_lines(pairs, number, answer)
    if answer.pairing:
        found = found[:1]
    return [b"apart" + found[0][len(b"pair"):]] + found[1:]


def pair_lines(pairs, number, answer):
    """The lines of one pair."""
    left, right = pairs[number]
    word = answer.word.encode()
    if answer.skipped is not None:
        word += b" " + escape(pairs[answer.skipped][0].name)
    lines = [b"pair %s %s %s" % (escape(left.name), escape(right.name), word)]
    if answer.pairing:
        lines += [b"net %s %s" % (escape(left.nets[k]), escape(right.nets[other]))
                  for k, other in enumerate(answer.pairing[NET])]
        for kind in (DEVICE, CALL):
            lines += [b"%s %d %d" % (kind.encode(), k + 1, other + 1)
                      for k, other in enumerate(answer.pairing[kind])]
    if answer.evidence:
        turn, side, kind, node, ours, theirs = answer.evidence
        lines.append(b"round %d of %s %s %d layout %d schematic %d" % (
            turn, SIDES[side], kind.encode(), node + 1, ours, theirs))
    for depth, kind, ours, theirs, end in answer.guesses or ():
        lines.append(b"guess %d %s %d %d %s" % (depth, kind.encode(), ours + 1, theirs + 1,
                                                str(end).encode()))
    return lines
