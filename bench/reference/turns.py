"""Comparison in turns: what differs is compared flatter, as the rules say."""

import match
from align import align, partner_of_top
from netlist import merged

MOST = 2 ** 24


def _rows(circuits, goes, memo, number):
    """Devices and calls of a pair's circuit where the circuits that go stand in their callers."""
    if number not in memo:
        circuit = circuits[number]
        memo[number] = len(circuit.devices) + sum(
            _rows(circuits, goes, memo, call.circuit) if call.circuit in goes else 1
            for call in circuit.calls)
    return memo[number]


def _going(pairs, answers, top):
    """The numbers of the pairs that go."""
    out = set()
    for number, (pair, answer) in enumerate(zip(pairs, answers)):
        if answer.word == "differs":
            below = {call.circuit for circuit in pair for call in circuit.calls}
            if below:
                out |= below
            elif number != top:
                out.add(number)
    return sorted(out)


def _answers(pairs, rules, told):
    """The answers of all pairs, and whether they are of circuits merged again: where the rules
    combine devices and flatten circuits, some pair differs and some devices are alike, in all
    circuits alike devices are made one once more, and all pairs are answered again."""
    answers = match.compare_all(pairs, rules.max_guesses, told)
    if rules.combine and (rules.flatten_unmatched or any(rules.flat)) \
            and any(a.word == "differs" for a in answers):
        again = [tuple(merged(c, None) for c in pair) for pair in pairs]
        if any(len(c.devices) < len(d.devices)
               for one, two in zip(again, pairs) for c, d in zip(one, two)):
            return match.compare_all(again, rules.max_guesses, told), True
    return answers, False


def compare(left, top, right, rules):
    """The last turn's pairs, their answers and whether they are of circuits merged again (None
    where the top has no partner), the turns before it and the name at which the limit ended them,
    or None."""
    partner = partner_of_top(left, top, right, rules.same)
    if partner is None:
        return None, None, False, [], None
    apart = (rules.flat[0] - {left[top].name}, rules.flat[1] - {right[partner].name})
    past = []
    while True:
        pairs = align(left, top, right, rules.same, apart)
        number = next(k for k, pair in enumerate(pairs) if pair[0].name == left[top].name)
        told = number if rules.same_pins else None
        answers, again = _answers(pairs, rules, told)
        if not rules.flatten_unmatched:
            return pairs, answers, again, past, None
        goes = _going(pairs, answers, number)
        if not goes:
            return pairs, answers, again, past, None
        for k, pair in enumerate(pairs):
            sides = zip(*pairs)
            if k not in goes and any(_rows(side, goes, {}, k) > MOST for side in sides):
                return pairs, answers, again, past, pair[0].name
        past.append((pairs, answers, again, goes))
        apart = tuple(names | {pairs[k][side].name for k in goes}
                      for side, names in enumerate(apart))
