#!/usr/bin/env python3
"""The tensors of a model by the plain sums over all components, as a second reading of the definitions.

Reads a model file that is valid and prints the Yukawa tensor, the scalar tensor and the directions, an entry a line: the
places of the legs, then the coefficients with the ids of their symbols. It is slow, and is run by hand: what it printed
stands in the tests of the expansion."""
import itertools
import re
import sys
import tomllib
from fractions import Fraction

SLOTS = {"singlet": "", "fund": "u", "conj": "l", "adjoint": "ul", "sym2": "uu", "sym2conj": "ll", "anti2": "uu", "anti2conj": "ll"}


def projector(rep, n, p, q):
    """The entry of the projector on a representation of SU(n) at two tuples of values."""
    if rep == "adjoint":
        return Fraction(p == q) - Fraction(p[0] == p[1] and q[0] == q[1]) / n
    if rep.startswith("sym2"):
        return Fraction((p == q) + (p == q[::-1]), 2)
    if rep.startswith("anti2"):
        return Fraction((p == q) - (p == q[::-1]), 2)
    return Fraction(p == q)


class Model:
    def __init__(self, data):
        self.groups = data.get("group", [])
        self.fermions = data.get("fermion", [])
        self.scalars = data.get("scalar", [])
        self.tables = {t["name"]: t for t in data.get("table", [])}
        self.terms = data.get("term", [])
        self.f = [c for i, x in enumerate(self.fermions) for c in self.copies("f", i, x, False)]
        self.s = []
        for i, x in enumerate(self.scalars):
            self.s += self.copies("s", i, x, False)
            if not x.get("real"):
                self.s += self.copies("s", i, x, True)
        self.s.append(("#",))

    def reps(self, field):
        return [(field.get("reps", {}).get(g["name"], "singlet"), g["n"]) for g in self.groups]

    def field(self, c):
        return (self.fermions if c[0] == "f" else self.scalars)[c[1]]

    def copies(self, kind, i, field, conj):
        sizes = [n for rep, n in self.reps(field) for _ in SLOTS[rep]]
        for g in range(1, field.get("generations", 1) + 1):
            for t in itertools.product(*[range(1, n + 1) for n in sizes]):
                yield (kind, i, conj, g, t)

    def projector(self, c, d):
        if c[:4] != d[:4]:
            return Fraction(0)
        if c[0] == "#":
            return Fraction(1)
        value, at = Fraction(1), 0
        for rep, n in self.reps(self.field(c)):
            k = len(SLOTS[rep])
            value *= projector(rep, n, c[4][at:at + k], d[4][at:at + k])
            at += k
        return value

    def partner(self, c):
        if c[0] != "s":
            return c
        if self.scalars[c[1]].get("real"):
            t = c[4]
            return c[:4] + (tuple(t[i ^ 1] for i in range(len(t))),)
        return c[:2] + (not c[2],) + c[3:]

    def conjugate_token(self, t):
        if t[0] == "s" and self.scalars[t[1]].get("real"):
            return t
        return t[:2] + (not t[2],) + t[3:]


def parse(model, term):
    """The monomials of a text: a coefficient and factors (name, conjugate, generation, labels)."""
    found = []
    for sign, text in re.findall(r"(^\s*-|[+-]|^)\s*([^+-]+)", term["text"]):
        m = re.match(r"\s*(\d+)\s*(?:/\s*(\d+))?", text)
        value = Fraction(int(m[1]), int(m[2] or 1)) if m else Fraction(1)
        rest = text[m.end():] if m else text
        factors = [(w, bool(t), b, [x.strip() for x in a.split(",")] if a else [])
                   for w, t, b, a in re.findall(r"(\w+)\s*(~?)\s*(?:\[\s*(\w+)\s*\])?\s*(?:\(([^)]*)\))?", rest)]
        found.append((-value if "-" in sign else value, factors))
    return found


def sign(values):
    if len(set(values)) < len(values):
        return 0
    return (-1) ** sum(a > b for a, b in itertools.combinations(values, 2))


def monomial(model, term, row, column, value, factors, fermions, scalars):
    """The value of a monomial at components given to its fields in order."""
    fermions, scalars, slots = list(fermions), list(scalars), {}
    names = {x["name"]: ("f", i) for i, x in enumerate(model.fermions)}
    names |= {x["name"]: ("s", i) for i, x in enumerate(model.scalars)}
    flavour = dict(zip(term.get("flavour", []), (row, column)))
    for name, conj, bracket, labels in factors:
        if name not in names:
            continue
        kind, i = names[name]
        given = fermions if kind == "f" else scalars
        if not given:
            return 0
        c = given.pop(0)
        generation = flavour[bracket] if bracket in flavour else int(bracket or 1)
        if c[:4] != (kind, i, conj, generation):
            return 0
        for label, v in zip(labels, c[4]):
            if slots.setdefault(label, v) != v:
                return 0
    if fermions or any(c != ("#",) for c in scalars):
        return 0
    for name, _, _, labels in factors:
        if name == "eps":
            value *= sign([slots[x] for x in labels])
        elif name in model.tables:
            at = [slots[x] for x in labels]
            value *= sum(Fraction(e["value"]) for e in model.tables[name].get("entries", []) if e["at"] == at)
    return value


def project(model, leg, places, tensor):
    found = {}
    for key, v in tensor.items():
        for d in places:
            w = model.projector(key[leg], d) * v
            if w:
                k = key[:leg] + (d,) + key[leg + 1:]
                found[k] = found.get(k, 0) + w
    return {k: v for k, v in found.items() if v}


def text_tensor(model, term, row, column, fermionic):
    legs = [model.f, model.f, model.s] if fermionic else [model.s] * 4
    monomials = parse(model, term)
    tensor = {}
    for key in itertools.product(*legs):
        if fermionic:
            ways = [((key[0], key[1]), (key[2],)), ((key[1], key[0]), (key[2],))]
        else:
            ways = [((), w) for w in itertools.permutations(key)]
        v = sum(monomial(model, term, row, column, c, fs, *w) for w in ways for c, fs in monomials)
        if v:
            tensor[key] = v
    for leg, places in enumerate(legs):
        tensor = project(model, leg, places, tensor)
    return tensor


def add(a, b):
    found = dict(a)
    for k, v in b.items():
        found[k] = found.get(k, 0) + v
    return {k: v for k, v in found.items() if v}


def name_of(token):
    if token[0] == "#":
        return "#0[0]"
    return f"{token[0]}{token[1]}{'~' if token[2] else ''}[{token[3]}]"


def show(lines, table):
    for key, poly in sorted(table.items()):
        terms = "".join(f" {v.numerator}/{v.denominator}" + (f"*{s}^1" if s else "") for s, v in poly)
        lines.append(" ".join(map(str, key)) + " =" + terms)


def main(data):
    model = Model(data)
    place = {("f", c): i for i, c in enumerate(model.f)} | {("s", c): i for i, c in enumerate(model.s)}
    sums = {True: {}, False: {}}
    directions, identity = [], len(model.groups)
    for number, term in enumerate(model.terms, 1):
        uses = [w for w in parse(model, term)[0][1]]
        fermions = {x["name"]: i for i, x in enumerate(model.fermions)}
        scalars = {x["name"]: i for i, x in enumerate(model.scalars)}
        fermionic = any(w[0] in fermions for w in uses)
        shape, real = term.get("shape", "one"), term.get("value", "real") == "real"
        flavour = term.get("flavour", [])
        size = [1, 1]
        for w, _, bracket, _ in uses:
            if bracket in flavour and w not in model.tables:
                field = (model.fermions + model.scalars)[fermions[w] if w in fermions else len(fermions) + scalars[w]]
                size[flavour.index(bracket)] = field.get("generations", 1)
        for row in range(1, size[0] + 1):
            for column in range(row if shape == "symmetric" else 1, size[1] + 1):
                cells = [(row, column)] + ([(column, row)] if shape == "symmetric" and row != column else [])

                def content_at(cell):
                    token = []
                    for w, conj, bracket, _ in uses:
                        g = dict(zip(flavour, cell)).get(bracket, bracket)
                        if w in fermions:
                            token.append(("f", fermions[w], conj, int(g or 1)))
                        elif w in scalars:
                            token.append(("s", scalars[w], conj, int(g or 1)))
                    return sorted(token)

                def conjugate_of(content):
                    return sorted(model.conjugate_token(t) for t in content)
                block = min(content_at(cells[0]), conjugate_of(content_at(cells[0])))
                legs = 3 if fermionic else 4

                def key_of(k):
                    return tuple(place[("f" if c[0] == "f" else "s", c)] for c in k)

                def sided(content, tensor):
                    return {(0 if content == block else 1,) + key_of(k): v for k, v in tensor.items()}
                plain, other, moved, conjugate_moved = {}, {}, {}, {}
                for cell in cells:
                    text = text_tensor(model, term, *cell, fermionic)
                    conjugate = {tuple(model.partner(c) for c in k): v for k, v in text.items()}
                    plain, other = add(plain, text), add(other, conjugate)
                    moved = add(moved, sided(content_at(cell), text))
                    conjugate_moved = add(conjugate_moved, sided(conjugate_of(content_at(cell)), conjugate))
                both = fermionic or term.get("hc", False)
                total = sums[fermionic]
                for symbol, tensor in [(f"{identity}", plain)] + ([(f"{identity}" if real else f"{identity}~", other)] if not fermionic and both else []):
                    for k, v in tensor.items():
                        poly = total.setdefault(key_of(k), {})
                        poly[symbol] = poly.get(symbol, 0) + v
                name = " ".join(name_of(t) for t in block + [("#",)] * (legs - len(block)))
                if real:
                    directions.append((number, f"{identity}", name, add(moved, conjugate_moved) if both else moved))
                else:
                    directions.append((number, f"{identity}", name, moved))
                    directions.append((number, f"{identity}~", name, conjugate_moved))
                identity += 1
    lines = []
    for title, fermionic in (("yukawa", True), ("scalar", False)):
        lines.append(title)
        table = {k: sorted(((s, v) for s, v in p.items() if v), key=lambda x: (int(x[0].rstrip("~")), x[0])) for k, p in sums[fermionic].items()}
        show(lines, {k: p for k, p in table.items() if p})
    for number, symbol, name, moved in directions:
        lines.append(f"direction {number} {symbol} {name}")
        show(lines, {k: [(None, v)] for k, v in moved.items()})
    print("\n".join(lines))


if __name__ == "__main__":
    main(tomllib.load(open(sys.argv[1], "rb") if len(sys.argv) > 1 else sys.stdin.buffer))
