#!/usr/bin/env python3
"""Writes covering.case, the long case of the timings, into the folder where it is run. docs/CASE-FILE.md has the format.

A covering case: each rule asks for one of a few options, having an option costs something, and doing without one is free.
Such cases are hard for a search by rules and a bound: no rule forbids anything, so most of the work is to show that nothing
cheaper is left. This one has the size of samples/scheme.case, 31 options and 140 rules, and takes 122,923 steps.

The file is committed, so nobody needs to run this. The numbers come from a generator of their own, so that the file is the
same on every machine and with every Python.
"""
import pathlib
import runpy

OPTIONS = 31
RULES = 140
# The first seed, from 1 on, whose case takes 100,000 to 140,000 steps.
SEED = 9

case_file = runpy.run_path(str(pathlib.Path(__file__).resolve().parent.parent / "samples" / "make.py"))["case_file"]


def numbers(seed):
    """A linear congruential generator; its low bits are poor and left out."""
    x = seed
    while True:
        x = (x * 6364136223846793005 + 1442695040888963407) % 2**64
        yield x >> 33


def covering(seed):
    """The classes, 1 to 15, by literal, and the rules: 3 or 4 different options each, of which one must be on."""
    draw = numbers(seed)
    below = lambda n: next(draw) % n
    amounts = {2 * v: 1 + below(15) for v in range(OPTIONS)}
    rules = []
    while len(rules) < RULES:
        rule = set()
        length = 3 + below(2)
        while len(rule) < length:
            rule.add(2 * below(OPTIONS))
        if sorted(rule) not in rules:
            rules.append(sorted(rule))
    return amounts, rules


if __name__ == "__main__":
    open("covering.case", "wb").write(case_file(OPTIONS, *covering(SEED)))
