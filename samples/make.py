#!/usr/bin/env python3
"""Writes the sample case files of this folder. Run it here; docs/CASE-FILE.md has the format.

The files are committed, so nobody needs to run this: it shows how such a file is put together, and that the texts beside
the files are right.
"""

NAMES = [
    "Harbour scheme", "Meadow scheme", "Northgate scheme", "Orchard scheme", "Quarry scheme",
    "cash fund", "gilt fund", "index-linked fund", "bond fund", "home equity fund", "world equity fund", "property fund", "lifestyle fund",
    "capital guarantee", "guaranteed annuity rate", "inflation guarantee", "death benefit", "spouse's pension", "early retirement right",
    "level annuity", "rising annuity", "joint annuity", "drawdown", "phased drawdown", "lump sum and annuity",
    "yearly review", "advice by telephone", "online portal", "paper statements", "fund switching", "premium holiday",
]
SCHEMES, FUNDS, GUARANTEES, PAYOUTS = range(0, 5), range(5, 13), range(13, 19), range(19, 25)


def on(v):
    return 2 * v


def off(v):
    return 2 * v + 1


def case_file(options, amounts, rules):
    """The bytes of a case: amounts by literal, rules as lists of literals."""
    field = lambda tag, content: bytes([tag, len(content) >> 8, len(content) & 255]) + content
    out = field(1, options.to_bytes(2, "big"))
    for literal in sorted(amounts):
        if amounts[literal]:
            out += field(2, bytes([literal]) + amounts[literal].to_bytes(4, "big"))
    for rule in rules:
        out += field(3, bytes(rule))
    return out + field(4, b"")


def exactly_one(options):
    """One of them is on, and no two are."""
    options = list(options)
    return [[on(v) for v in options]] + [[off(a), off(b)] for i, a in enumerate(options) for b in options[i + 1:]]


def needs(v, any_of):
    """Option v asks for one of the others."""
    return [off(v)] + [on(w) for w in any_of]


def scheme_rules():
    rules = exactly_one(SCHEMES) + exactly_one(PAYOUTS)
    rules += [[on(v) for v in FUNDS]]
    # which schemes offer a fund, and which a guarantee
    rules += [needs(v, [s for s in SCHEMES if (v + 2 * s) % 3 != 1]) for v in FUNDS]
    rules += [needs(v, [s for s in SCHEMES if (v + s) % 2 == 0 or s == 4]) for v in GUARANTEES]
    # guarantees that a fund or a way of paying out rules out
    rules += [[off(13), off(v)] for v in (9, 10, 11)] + [[off(14), off(v)] for v in (22, 23)] + [[off(15), off(19)], [off(18), off(24)]]
    # a joint annuity asks for a spouse's pension, drawdown for a review and a way to switch funds
    rules += [needs(21, [17]), needs(22, [25]), needs(23, [25]), needs(22, [29]), needs(23, [29]), needs(29, [27, 26])]
    # statements come by one way at least; a premium holiday costs the early retirement right
    rules += [[on(27), on(28)], [off(30), off(18)]]
    # each scheme asks for a guarantee or a death benefit with some ways of paying out
    rules += [[off(s), off(p), on(13 + (s + p) % 6), on(16)] for s in SCHEMES for p in PAYOUTS]
    # a way of paying out that a fund does not serve, unless the fund is switched
    rules += [[off(p), off(f), on(29)] for p in PAYOUTS for f in FUNDS if (p + f) % 5 in (0, 3)]
    # two equity funds ask for a third kind beside them
    rules += [[off(9), off(10), on(f), on(12)] for f in (5, 6, 7, 8, 11)]
    # services that a scheme does not have
    rules += [[off(s), off(25 + (3 * s + k) % 6), on(12)] for s in SCHEMES for k in range(5)]
    # an annuity that rises asks for inflation to be met by a fund or a guarantee
    rules += [[off(20), on(7), on(15)], [off(20), on(15), on(11)], [off(21), on(16), on(14)], [off(28), on(26), on(25)]]
    return rules


def scheme_amounts():
    """Charge classes 0 to 15: what it costs a year to have an option, and to do without some."""
    amounts = {on(v): (5 * v + 3) % 13 + (2 if v in SCHEMES else 0) for v in range(31)}
    amounts.update({off(v): (v * v) % 6 for v in GUARANTEES})
    amounts.update({off(v): 1 + v % 3 for v in (25, 27)})
    return amounts


if __name__ == "__main__":
    two = case_file(2, {0: 5, 1: 1, 2: 2, 3: 3}, [[0, 2]])
    open("two-options.case", "wb").write(two)
    rules = scheme_rules()
    assert len(NAMES) == 31 and len(rules) == 140, len(rules)
    open("scheme.case", "wb").write(case_file(31, scheme_amounts(), rules))
