#!/usr/bin/env python3
"""The lines of scalar couplings, compared with the plain sums over all components, as a second reading of the definition.

usage: check_quartics.py MODEL OUTPUT

Reads a valid model file and what the program wrote for it at one loop. Each symbol gets a fraction at random, and so does
its conjugate; the scalar beta tensor is summed densely at every key of four scalar coordinates, and has to be what the
beta functions of the lines give, or, in a generated block, the value of its line at its component. It is slow, and is run
by hand."""
import itertools
import random
import re
import sys
import tomllib
from fractions import Fraction

import dense_tensors as dense

DUMMY = ("#",)


def symbols(model):
    """The symbols of the terms: name, whether it is real, fermionic, has its conjugate added, and its tensor."""
    for term in model.terms:
        uses = dense.parse(model, term)[0][1]
        fermions = {x["name"]: x for x in model.fermions}
        fields = fermions | {x["name"]: x for x in model.scalars}
        fermionic = any(w[0] in fermions for w in uses)
        shape, flavour = term.get("shape", "one"), term.get("flavour", [])
        size = [1, 1]
        for word, _, bracket, _ in uses:
            if bracket in flavour and word in fields:
                size[flavour.index(bracket)] = fields[word].get("generations", 1)
        for row in range(1, size[0] + 1):
            for column in range(row if shape == "symmetric" else 1, size[1] + 1):
                tensor = dense.text_tensor(model, term, row, column, fermionic)
                if shape == "symmetric" and row != column:
                    tensor = dense.add(tensor, dense.text_tensor(model, term, column, row, fermionic))
                name = term["coupling"] + (f"[{row},{column}]" if shape != "one" else "")
                yield name, term.get("value", "real") == "real", fermionic, term.get("hc", False), tensor


def value_of(text, values):
    """A printed polynomial at values."""
    total = Fraction(0)
    for sign, term in re.findall(r"(^-?|[+-] )([^ ]+)", text):
        product = Fraction(-1 if sign.startswith("-") else 1)
        for factor in term.split("*"):
            base, _, power = factor.partition("^")
            product *= Fraction(base) if base[0].isdigit() else values[base] ** int(power or 1)
        total += product
    return total


class Loops:
    def __init__(self, model):
        self.model = model
        self.s = [c for c in model.s if c != DUMMY]
        rand = random.Random(7)
        number = lambda: Fraction(rand.randint(1, 99), rand.randint(1, 9))
        self.values, self.swapped = {}, {}
        for g in model.groups:
            self.values[g["coupling"]] = self.swapped[g["coupling"]] = number()
        self.all = list(symbols(model))
        for name, real, _, _, _ in self.all:
            plain = number()
            other = plain if real else number()
            self.values |= {name: plain, f"conj({name})": other}
            self.swapped |= {name: other, f"conj({name})": plain}
        self.y, self.yd, self.l = {}, {}, {}
        for name, real, fermionic, hc, tensor in self.all:
            for key, v in tensor.items():
                if fermionic:
                    self.put(self.y, (key[2], key[0], key[1]), v * self.values[name])
                    self.put(self.yd, (model.partner(key[2]), key[0], key[1]), v * self.swapped[name])
                else:
                    self.put(self.l, key, v * self.values[name])
                    if hc:
                        self.put(self.l, tuple(map(model.partner, key)), v * self.swapped[name])
        self.generators = [self.generator(k, x) for k, g in enumerate(model.groups) for x in self.indices(g)]

    @staticmethod
    def put(table, key, v):
        table[key] = table.get(key, 0) + v

    @staticmethod
    def indices(g):
        return [(0, 0)] if g["n"] == 1 else list(itertools.product(range(1, g["n"] + 1), repeat=2))

    def generator(self, k, x):
        """The group's place, weight and coupling, and the matrices of a generator and of the opposite one."""
        g = self.model.groups[k]
        return k, Fraction(1 if g["n"] == 1 else 1, 1 if g["n"] == 1 else 2), self.values[g["coupling"]], self.matrix(k, x), self.matrix(k, x[::-1])

    def matrix(self, k, x):
        return {(c, d): v for c in self.s for d in self.s if (v := self.entry(k, x, c, d))}

    def entry(self, k, x, c, d):
        if c[:4] != d[:4]:
            return 0
        field, n = self.model.field(c), self.model.groups[k]["n"]
        if n == 1:
            return Fraction(field.get("charge", 0)) * (c[4] == d[4]) * (-1 if c[2] else 1)
        p, q = (d[4], c[4]) if c[2] else (c[4], d[4])
        total, at = Fraction(0), 0
        for place, (rep, _) in enumerate(self.model.reps(field)):
            for kind in dense.SLOTS[rep]:
                if place == k and p[:at] == q[:at] and p[at + 1:] == q[at + 1:]:
                    a, b = (p[at], q[at]) if kind == "u" else (q[at], p[at])
                    one = Fraction((a, b) == x) - (Fraction(a == b, n) if x[0] == x[1] else 0)
                    total += one if kind == "u" else -one
                at += 1
        return -total if c[2] else total

    def casimir(self, k, c):
        field, n = self.model.field(c), self.model.groups[k]["n"]
        if n == 1:
            return Fraction(field.get("charge", 0)) ** 2
        rep = self.model.reps(field)[k][0]
        return {"singlet": Fraction(0), "fund": Fraction(n * n - 1, 2 * n), "adjoint": Fraction(n),
                "sym2": Fraction((n - 1) * (n + 2), n), "anti2": Fraction((n + 1) * (n - 2), n)}[rep.replace("conj", "") or "fund"]

    def product(self, a, b):
        found = {}
        for (i, j), v in a.items():
            for (k, l), w in b.items():
                if j == k:
                    self.put(found, (i, l), v * w)
        return found

    def pair(self, x, z):
        """M_XZ at (a, b): the entry of XZ + ZX at (a*, b), projected."""
        both = self.product(x, z)
        for key, v in self.product(z, x).items():
            self.put(both, key, v)
        projector = {(c, d): v for c in self.s for d in self.s if (v := self.model.projector(c, d))}
        return {(self.model.partner(a), b): v for (a, b), v in self.product(both, projector).items() if v}

    def gauge(self):
        """sum_kl g_k^2 g_l^2 A_kl(a,b,c,d)."""
        found = {}
        for _, w, g, x, x2 in self.generators:
            for _, w2, g2, z, z2 in self.generators:
                for (a, b), v in self.pair(x, z).items():
                    for (c, d), u in self.pair(x2, z2).items():
                        self.put(found, (a, b, c, d), w * w2 * g ** 2 * g2 ** 2 * v * u)
        return found

    def square(self, a, e):
        """S2(a,e)."""
        t = lambda m, b: {k[1:]: v for k, v in m.items() if k[0] == b}
        trace = lambda m: sum(v for (i, j), v in m.items() if i == j)
        return Fraction(trace(self.product(t(self.yd, a), t(self.y, e))) + trace(self.product(t(self.yd, e), t(self.y, a))), 2)

    def betas(self):
        """The scalar beta tensor at each key with at most two dummies, sorted."""
        model, at = self.model, self.model.s.index
        one = {}
        for (a, b, e, f), v in self.l.items():
            for (e2, f2, c, d), w in self.l.items():
                if DUMMY not in (e, f) and e2 == model.partner(e) and f2 == model.partner(f):
                    self.put(one, (a, b, c, d), v * w / 8)
        pairs = {(a, b): self.product({k[1:]: v for k, v in self.y.items() if k[0] == a}, {k[1:]: v for k, v in self.yd.items() if k[0] == b})
                 for a in model.s for b in model.s}
        for (a, b), m in pairs.items():
            for (c, d), n in pairs.items():
                v = sum(w * n.get((j, i), 0) for (i, j), w in m.items())
                if v:
                    self.put(one, (a, b, c, d), -v)
        for key, v in self.gauge().items():
            self.put(one, key, Fraction(3, 8) * v)
        squares = {(a, e): self.square(a, model.partner(e)) for a in self.s for e in self.s}
        found = {}
        for key in itertools.combinations_with_replacement(sorted(model.s, key=at), 4):
            if key.count(DUMMY) > 2:
                continue
            total = sum(one.get(p, 0) for p in itertools.permutations(key))
            for leg, a in enumerate(key):
                if a == DUMMY:
                    continue
                total += sum(squares[a, e] * self.l.get(key[:leg] + (e,) + key[leg + 1:], 0) for e in self.s)
                total -= 3 * self.l.get(key, 0) * sum(self.values[g["coupling"]] ** 2 * self.casimir(k, a) for k, g in enumerate(model.groups))
            found[key] = total
        return found


def token(model, c):
    if c == DUMMY:
        return "#"
    field = model.field(c)
    generation = f"[{c[3]}]" if field.get("generations", 1) > 1 else ""
    return field["name"] + ("~" if c[2] else "") + generation


def component(model, c):
    slots = f"({','.join(map(str, c[4]))})" if c != DUMMY and c[4] else ""
    return token(model, c) + slots


def main(file, output):
    with open(file, "rb") as it:
        model = dense.Model(tomllib.load(it))
    loops = Loops(model)
    betas = loops.betas()
    lines, unspanned, generated = {}, set(), {}
    with open(output) as it:
        for line in it.read().splitlines()[2:]:
            head, _, poly = line.partition(" = ")
            kind, _, rest = head.partition(" ")
            if kind == "beta1":
                lines[rest] = poly
            elif kind in ("open", "generated"):
                tokens, _, legs = rest.partition(" at ")
                unspanned.add(tokens)
                if kind == "generated":
                    generated[legs] = poly
    bad = seen = 0
    for key, beta in betas.items():
        names = [" ".join(token(model, c) for c in sorted(legs, key=lambda c: [c == DUMMY, *c[1:4]]))
                 for legs in (key, [model.partner(c) for c in key])]
        text = " ".join(component(model, c) for c in key)
        if text in generated:
            seen += 1
            if value_of(generated[text], loops.values) != beta:
                bad += 1
                print("generated", text, "differs")
        if any(name in unspanned for name in names):
            continue
        total = Fraction(0)
        for name, real, fermionic, hc, tensor in loops.all:
            if fermionic:
                continue
            conjugate = tensor.get(tuple(map(model.partner, key)), 0)
            if tensor.get(key) or (hc and conjugate):
                total += value_of(lines[name], loops.values) * tensor.get(key, 0)
                total += value_of(lines[name], loops.swapped) * conjugate if hc else 0
        if total != beta:
            bad += 1
            print("at", text, "the lines give", total, "and the sums", beta)
    if len(generated) != seen and not model.fermions:
        bad += 1
        print("a generated component isn't there")
    print(f"{len(betas)} components, {bad} differ")
    return bad > 0


if __name__ == "__main__":
    sys.exit(main(*sys.argv[1:]))
