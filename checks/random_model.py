#!/usr/bin/env python3
"""Prints a small model, drawn from the number that is given: a few variables of every kind, and constraints of every form."""
import random
import sys

from plain import FORMS

SIMPLE = [f for f in FORMS if "S" not in FORMS[f] and "C" not in FORMS[f]]
PAIRED = {"weightedsumleq", "weightedsumgeq", "litsumgeq", "lexleq", "lexless", "watchvecneq", "hamming"}
BITS = {"watchsumleq", "watchsumgeq"}
FILLED = {"max", "min", "table", "negativetable"}


class Drawn:
    def __init__(self, seed):
        self.r = random.Random(seed)
        self.names, self.bits, self.lines = [], [], []
        for n in range(self.r.randint(1, 4)):
            self.declare(f"x{n}")

    def declare(self, name):
        r = self.r
        kind = r.choice(["BOOL", "DISCRETE", "DISCRETE", "BOUND", "SPARSEBOUND"])
        self.names.append(name)
        if kind == "BOOL":
            self.bits.append(name)
            self.lines.append(f"BOOL {name}")
        elif kind == "SPARSEBOUND":
            values = sorted(r.sample(range(-3, 7), r.randint(1, 4)))
            self.lines.append(f"SPARSEBOUND {name} {{{','.join(map(str, values))}}}")
        else:
            lo = r.randint(-3, 3)
            self.lines.append(f"{kind} {name} {{{lo}..{lo + r.randint(0, 4)}}}")

    def number(self):
        return self.r.randint(-3, 5)

    def bit(self):
        r = self.r
        if self.bits and r.random() < 0.8:
            return r.choice(["", "!"]) + r.choice(self.bits)
        return str(r.randint(0, 1))

    def term(self):
        r = self.r
        draw = r.random()
        if draw < 0.15:
            return str(self.number())
        if draw < 0.3 and self.bits:
            return "!" + r.choice(self.bits)
        return r.choice(self.names)

    def listed(self, items):
        return "[" + ",".join(map(str, items)) + "]"

    def simple(self, form):
        r = self.r
        size = r.randint(1 if form in FILLED else 0, 3)
        given = []
        for kind in FORMS[form]:
            if kind == "t":
                given.append(self.term())
            elif kind == "v":
                given.append(self.listed(self.bit() if form in BITS else self.term() for _ in range(size)))
            elif kind == "k":
                given.append(self.number())
            elif kind == "K":
                given.append(self.listed(self.numbers(form, size)))
            else:
                rows = {tuple(self.number() for _ in range(size)) for _ in range(r.randint(0, 6))}
                rows = list(rows) + list(rows)[: r.randint(0, 2)]
                given.append("{" + ",".join("<" + ",".join(map(str, row)) + ">" for row in rows) + "}")
        return f"{form}({','.join(map(str, given))})"

    def numbers(self, form, size):
        if form in PAIRED:
            return [self.number() for _ in range(size)]
        if form in ("w-inrange", "w-notinrange"):
            return [self.number(), self.number()]
        if form == "w-inintervalset":
            return [self.number() for _ in range(2 * self.r.randint(0, 2))]
        return sorted({self.number() for _ in range(self.r.randint(0, 4))})

    def con(self, depth):
        r = self.r
        if depth == 0 or r.random() < 0.75:
            return self.simple(r.choice(SIMPLE))
        form = r.choice(["watched-or", "watched-and", "reify", "reifyimply"])
        if form.startswith("watched"):
            return f"{form}({{{','.join(self.con(depth - 1) for _ in range(r.randint(0, 3)))}}})"
        return f"{form}({self.con(depth - 1)},{self.bit()})"

    def text(self):
        r = self.r
        lines = ["MINION 3", "**VARIABLES**", *self.lines, "**SEARCH**"]
        order = r.sample(self.names, r.randint(1, len(self.names)))
        if r.random() < 0.5:
            lines.append(f"VARORDER [{','.join(order)}]")
            if r.random() < 0.5:
                lines.append(f"VALORDER [{','.join(r.choice('ad') for _ in order)}]")
        if r.random() < 0.3:
            lines.append(r.choice(["MINIMISING ", "MAXIMISING "]) + r.choice(self.names))
        lines.append("**CONSTRAINTS**")
        lines += [self.con(2) for _ in range(r.randint(1, 3))]
        return "\n".join([*lines, "**EOF**", ""])


if __name__ == "__main__":
    print(Drawn(int(sys.argv[1])).text(), end="")
