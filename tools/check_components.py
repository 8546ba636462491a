#!/usr/bin/env python3
"""The stored outputs of models, compared with theories that are written in components by hand, and with published formulas.

usage: check_components.py [MODEL ..]

For each model here the file models/MODEL.beta.txt is read, all couplings get values at random, and three things are compared in
floating point with component_theory.py: the beta functions of gauge couplings, those of the potential by the one-loop effective
potential in a background at random, and those of Yukawa couplings and fermion masses. Published formulas, recalled from the
sources that the model's header names, are compared line by line. It prints a line for each model, and is run by hand."""
import cmath
import itertools
import pathlib
import random
import re
import sys

from component_theory import (Multiplet, Theory, adjoint_matrix, antisymmetric_matrix, commutator, dagger, plus, product,
                              symmetric_matrix, times, trace, transpose)

MODELS = pathlib.Path(__file__).resolve().parent.parent / "models"
HYPER = {"U1": (1, "g1"), "SU2": (2, "g2"), "SU3": (3, "g3")}
TOLERANCE = 1e-8


class Values(dict):
    """Values of symbols, with v.y for v["y"] and v.matrix("Y", rows, columns)."""

    def __getattr__(self, name):
        return self[name]

    def matrix(self, name, rows, columns):
        return [[self[f"{name}[{i},{j}]"] for j in range(1, columns + 1)] for i in range(1, rows + 1)]

    def symmetric(self, name, size):
        return [[self[f"{name}[{min(i, j)},{max(i, j)}]"] for j in range(1, size + 1)] for i in range(1, size + 1)]


def lines(model):
    """The lines of beta functions: (loops, symbol) -> polynomial; and the other lines."""
    found, others = {}, []
    for line in (MODELS / f"{model}.beta.txt").read_text().splitlines()[2:]:
        match = re.fullmatch(r"beta([12]) (\S+) = (.*)", line)
        if match:
            found[int(match[1]), match[2]] = match[3]
        else:
            others.append(line)
    return found, others


def value(text, values):
    """A printed polynomial at values; numbers and symbols are told by their first byte."""
    total = 0
    for sign, term in re.findall(r"(^-?|[+-] )([^ ]+)", text):
        part = -1 if sign.startswith("-") else 1
        for factor in term.split("*"):
            base, _, power = factor.partition("^")
            conj = re.fullmatch(r"conj\((.*)\)", base)
            if base[0].isdigit():
                top, _, bottom = base.partition("/")
                number = int(top) / int(bottom or 1)
            else:
                number = values[conj[1]].conjugate() if conj else values[base]
            part *= number ** int(power or 1)
        total += part
    return total


def at_random(found, rng):
    """Values of all symbols: complex where the output has the conjugate of any entry of the coupling."""
    text = " ".join(found.values())
    coupling = lambda symbol: symbol.partition("[")[0]
    conjugated = {coupling(s) for s in re.findall(r"conj\(([^)]*)\)", text)}
    symbols = [s for _, s in found] + sorted(set(re.findall(r"[A-Za-z]\w*(?:\[\d,\d\])?", text)) - {"conj"})
    return Values({s: rng.uniform(0.3, 1.2) * (cmath.exp(1j * rng.uniform(0, 6)) if coupling(s) in conjugated else 1)
                   for s in dict.fromkeys(symbols)})


def far(x, y):
    return abs(x - y) > TOLERANCE * (1 + abs(x) + abs(y))


def check(model, theory, published):
    """What was compared, and what differs."""
    found, others = lines(model)
    rng = random.Random(model)
    compared, faults = [], []
    for turn in range(2):
        v = at_random(found, rng)
        beta = Values({s: value(text, v) for (loops, s), text in found.items() if loops == 1})
        for (loops, s), expected in (published(v) if published else {}).items():
            compared.append(f"{s}({loops})" if loops > 1 else s)
            if far(value(found[loops, s], v), expected):
                faults.append(f"published {s}: {value(found[loops, s], v)} here, {expected} there")
        if theory is None:
            continue
        for group, (_, coupling) in theory.groups.items():
            for loops, expected in zip((1, 2), theory.beta_gauge(v, group)):
                if far(value(found[loops, coupling], v), expected):
                    faults.append(f"gauge {coupling} {loops}: {value(found[loops, coupling], v)} here, {expected} there")
        fields = theory.point(rng)
        if theory.masses:
            ours, theirs = theory.matrix(beta, fields), theory.beta_masses(v, fields)
            bad = [(i, j) for i in range(theory.size) for j in range(theory.size) if far(ours[i][j], theirs[i][j])]
            if bad:
                i, j = bad[0]
                faults.append(f"masses at {bad[:4]}: {ours[i][j]} here, {theirs[i][j]} there")
        if theory.potential:
            scaled = lambda t: {name: [t * e for e in x] for name, x in fields.items()}
            ours = lambda t: theory.potential(beta, scaled(t))
            theirs = lambda t: theory.beta_potential(v, scaled(t))
            # A term linear in a singlet, and a constant, have no line.
            steps = ((1, 0),) if all(f.reps or f.charge for f in theory.scalars) else ((2, 1, 0), (1, 0, -1), (3, 2, 1))
            for step in steps:
                weights = (1, -1) if len(step) == 2 else (1, -2, 1)
                here = sum(w * ours(t) for w, t in zip(weights, step))
                there = sum(w * theirs(t) for w, t in zip(weights, step))
                if far(here, there):
                    faults.append(f"potential: {here} here, {there} there")
    if model in RELATIONS:
        v = at_random(found, rng)
        beta = lambda loops=1: Values({s: value(text, v) for (k, s), text in found.items() if k == loops})
        for s, difference in RELATIONS[model](v, beta).items():
            if far(difference, 0):
                faults.append(f"relation {s}: off by {difference}")
    kinds = (["gauge"] if theory else []) + (["fermions"] if theory and theory.masses else [])
    kinds += ["potential"] if theory and theory.potential else []
    kinds += ["relations"] if model in RELATIONS else []
    if compared:
        kinds.append("published " + " ".join(dict.fromkeys(compared)))
    return kinds, faults, others


# The theories, one function each; `published` has the formulas, at values.

THEORIES, PUBLISHED = {}, {}


def theory(name):
    return lambda f: THEORIES.__setitem__(name, f)


def published(*names):
    return lambda f: [PUBLISHED.__setitem__(name, f) for name in names]


def usual_fermions(*more):
    """Three generations; the names of the ones with Yukawa couplings are Q, u, d, L, e, the first index SU(2), then SU(3)."""
    f, b = {"SU2": "fund", "SU3": "fund"}, {"SU3": "conj"}
    return [Multiplet("Q", f, 1 / 6, 3), Multiplet("u", b, -2 / 3, 3), Multiplet("d", b, 1 / 3, 3),
            Multiplet("L", {"SU2": "fund"}, -1 / 2, 3), Multiplet("e", {}, 1, 3), *more]


Q = lambda g, a, c: 6 * (g - 1) + 3 * a + c
U = lambda g, c: 18 + 3 * (g - 1) + c
D = lambda g, c: 27 + 3 * (g - 1) + c
L = lambda g, a: 36 + 2 * (g - 1) + a
E = lambda g: 42 + g - 1
MORE = 45
EPS = [[0, 1], [-1, 0]]


def doublet(name="H", charge=1 / 2):
    return Multiplet(name, {"SU2": "fund"}, charge)


def up(y, h, row=lambda a, c: Q(3, a, c), column=lambda c: U(3, c)):
    """y Q u H joined by eps."""
    return [(row(a, c), column(c), y * EPS[a][b] * h[b]) for a in range(2) for b in range(2) for c in range(3) if EPS[a][b]]


def down(y, h, row=lambda a, c: Q(3, a, c), column=lambda c: D(3, c)):
    """y Q d H~."""
    return [(row(a, c), column(c), y * h[a].conjugate()) for a in range(2) for c in range(3)]


def lepton(y, h, i=3, j=3):
    return [(L(i, a), E(j), y * h[a].conjugate()) for a in range(2)]


def leptons(matrix, h):
    return [entry for i in range(3) for j in range(3) for entry in lepton(matrix[i][j], h, i + 1, j + 1)]


def dot(x, y):
    return sum(a.conjugate() * b for a, b in zip(x, y))


def norm(x):
    return dot(x, x).real


def bilinear(x, y):
    """x eps y."""
    return x[0] * y[1] - x[1] * y[0]


def two_doublets(c, x, y, half=1 / 2):
    return (half * c.lam1 * norm(x) ** 2 + half * c.lam2 * norm(y) ** 2 + c.lam3 * norm(x) * norm(y)
            + c.lam4 * abs(dot(x, y)) ** 2 + c.lam5 * (dot(x, y) ** 2).real)


for short, ku, kd, kl in (("type_one", 2, 2, 2), ("type_two", 2, 1, 1), ("type_x", 2, 2, 1), ("type_y", 2, 1, 2)):
    @theory(f"two_doublets_{short}")
    def build(ku=ku, kd=kd, kl=kl):
        return Theory(HYPER, usual_fermions(), [doublet("P1"), doublet("P2")],
                      lambda c, f: two_doublets(c, f["P1"], f["P2"]) + c.m11sq * norm(f["P1"]) + c.m22sq * norm(f["P2"])
                      - 2 * c.m12sq * dot(f["P1"], f["P2"]).real,
                      lambda c, f: up(c.yt, f[f"P{ku}"]) + down(c.yb, f[f"P{kd}"]) + lepton(c.ytau, f[f"P{kl}"]))

    @published(f"two_doublets_{short}")
    def formulas(v, ku=ku, kd=kd, kl=kl):
        t, b, l, g, gp = v.yt ** 2, v.yb ** 2, v.ytau ** 2, v.g2 ** 2, v.g1 ** 2
        s = {1: 0, 2: 0}
        fourth = {1: 0, 2: 0}
        for k, colour, y in ((ku, 3, t), (kd, 3, b), (kl, 1, l)):
            s[k] += colour * y
            fourth[k] += colour * y * y
        both = 3 * t * b if ku != kd else 0
        gauge = -3 * (3 * g + gp)
        found = {}
        for k, lam in ((1, v.lam1), (2, v.lam2)):
            found[1, f"lam{k}"] = (12 * lam ** 2 + 4 * v.lam3 ** 2 + 4 * v.lam3 * v.lam4 + 2 * v.lam4 ** 2 + 2 * v.lam5 ** 2
                                   + 3 / 4 * (3 * g ** 2 + gp ** 2 + 2 * g * gp) + gauge * lam + 4 * s[k] * lam - 4 * (
                                       fourth[k] + 0))
        found[1, "lam3"] = ((v.lam1 + v.lam2) * (6 * v.lam3 + 2 * v.lam4) + 4 * v.lam3 ** 2 + 2 * v.lam4 ** 2 + 2 * v.lam5 ** 2
                            + 3 / 4 * (3 * g ** 2 + gp ** 2 - 2 * g * gp) + gauge * v.lam3 + 2 * (s[1] + s[2]) * v.lam3
                            - 4 * both)
        found[1, "lam4"] = (2 * (v.lam1 + v.lam2) * v.lam4 + 8 * v.lam3 * v.lam4 + 4 * v.lam4 ** 2 + 8 * v.lam5 ** 2
                            + 3 * g * gp + gauge * v.lam4 + 2 * (s[1] + s[2]) * v.lam4 + 4 * both)
        found[1, "lam5"] = (2 * (v.lam1 + v.lam2 + 4 * v.lam3 + 6 * v.lam4) + gauge + 2 * (s[1] + s[2])) * v.lam5
        found[1, "yt"] = v.yt * (3 / 2 * t + s[ku] + (3 / 2 if ku == kd else 1 / 2) * b * (1 if ku != kd else -1)
                                 - 8 * v.g3 ** 2 - 9 / 4 * g - 17 / 12 * gp)
        found[1, "yb"] = v.yb * (3 / 2 * b + s[kd] + (1 / 2 if ku != kd else -3 / 2) * t - 8 * v.g3 ** 2 - 9 / 4 * g - 5 / 12 * gp)
        found[1, "ytau"] = v.ytau * (3 / 2 * l + s[kl] - 9 / 4 * g - 15 / 4 * gp)
        return found


@theory("inert_doublet")
def build():
    return Theory(HYPER, usual_fermions(), [doublet("H"), doublet("X")],
                  lambda c, f: two_doublets(c, f["H"], f["X"], 1) + c.mu1sq * norm(f["H"]) + c.mu2sq * norm(f["X"]),
                  lambda c, f: up(c.yt, f["H"]) + down(c.yb, f["H"]) + lepton(c.ytau, f["H"]))


@theory("real_triplet")
def build():
    def potential(c, f):
        h, t = f["H"], adjoint_matrix(f["T"], 2)
        tt = trace(t, t).real
        th = [sum(t[i][k] * h[k] for k in range(2)) for i in range(2)]
        return (c.lam * norm(h) ** 2 + c.a2 / 2 * norm(h) * tt + c.b4 / 4 * tt ** 2 + c.a1 * dot(h, th).real + c.mH2 * norm(h)
                + c.mT2 / 2 * tt)
    return Theory(HYPER, usual_fermions(), [doublet(), Multiplet("T", {"SU2": "adjoint"}, real=True)], potential,
                  lambda c, f: up(c.yt, f["H"]))


def between(first, second, form):
    """Entries of the term sum form(i, j) psi_i chi_j of two fields at these offsets with these sizes."""
    return [(first[0] + i, second[0] + j, form(i, j)) for i in range(first[1]) for j in range(second[1])]


def within(field, form):
    """Entries of the term sum form(i, j) psi_i psi_j over all i and j of one field."""
    return [(field[0] + i, field[0] + j, form(i, j) + (form(j, i) if i < j else form(i, i)))
            for i in range(field[1]) for j in range(i, field[1])]


def basis(size, build, n):
    return [build([float(i == k) for i in range(size)], n) for k in range(size)]


TRIPLET = basis(3, adjoint_matrix, 2)


def triplet(name, charge=0, real=False, generations=1):
    return Multiplet(name, {"SU2": "adjoint"}, charge, generations, real)


def applied(x, h):
    return [sum(a * b for a, b in zip(row, h)) for row in x]


def square(y):
    """Y Y+."""
    return product(y, dagger(y))


def matrices(*terms):
    """The sum of (number, factor, ..), each factor a matrix."""
    total = None
    for number, *factors in terms:
        part = factors[0]
        for factor in factors[1:]:
            part = product(part, factor)
        part = times(number, part)
        total = part if total is None else plus(total, part)
    return total


def entries(name, matrix, symmetric=False):
    return {(1, f"{name}[{i + 1},{j + 1}]"): e for i, row in enumerate(matrix) for j, e in enumerate(row)
            if j >= i or not symmetric}


@theory("seesaw_type_two")
def build():
    def potential(c, f):
        h, d = f["H"], adjoint_matrix(f["D"], 2)
        dd, n = product(dagger(d), d), norm(h)
        t = trace(dd).real
        return (c.lam / 4 * n ** 2 + c.Lam1 / 2 * t ** 2 + c.Lam2 / 2 * (t ** 2 - trace(dd, dd).real) + c.Lam4 * n * t
                + c.Lam5 * dot(h, applied(commutator(dagger(d), d), h)).real
                + c.Lam6 * bilinear(h, applied(dagger(d), h)).real + c.mH2 * n + c.mD2 * t)

    def masses(c, f):
        form = product(EPS, adjoint_matrix(f["D"], 2))
        y = c.symmetric("YD", 3)
        return (up(c.yt, f["H"]) + leptons(c.matrix("Ye", 3, 3), f["H"])
                + within((36, 6), lambda p, q: y[p // 2][q // 2] * form[p % 2][q % 2] / 2))
    return Theory(HYPER, usual_fermions(), [doublet(), triplet("D", 1)], potential, masses)


@published("seesaw_type_two")
def formulas(v):
    ye, y = v.matrix("Ye", 3, 3), times(0.5 ** 0.5, v.symmetric("YD", 3))
    yd, ee = square(y), square(ye)
    t, tr = trace(ee).real + 3 * v.yt ** 2, trace(yd).real
    fourth, mixed = trace(yd, yd).real, trace(ee, yd).real
    a, b = v.g1 ** 2, v.g2 ** 2
    left = matrices((1 / 2, ee), (3 / 2, yd))
    beta = matrices((1, left, y), (1, y, transpose(left)), (tr - 3 / 2 * a - 9 / 2 * b, y))
    return {
        (1, "Lam1"): -(12 * a + 24 * b) * v.Lam1 + 12 * a * a + 18 * b * b + 24 * a * b + 14 * v.Lam1 ** 2
        + 4 * v.Lam1 * v.Lam2 + 2 * v.Lam2 ** 2 + 4 * v.Lam4 ** 2 + 4 * v.Lam5 ** 2 + 4 * tr * v.Lam1 - 8 * fourth,
        (1, "Lam2"): -(12 * a + 24 * b) * v.Lam2 + 12 * b * b - 48 * a * b + 3 * v.Lam2 ** 2 + 12 * v.Lam1 * v.Lam2
        - 8 * v.Lam5 ** 2 + 4 * tr * v.Lam2 + 8 * fourth,
        (1, "Lam4"): -(15 / 2 * a + 33 / 2 * b) * v.Lam4 + 3 * a * a + 6 * b * b + (
            8 * v.Lam1 + 2 * v.Lam2 + 3 * v.lam + 4 * v.Lam4 + 2 * t + 2 * tr) * v.Lam4 + 8 * v.Lam5 ** 2 - 4 * mixed,
        (1, "Lam5"): -(15 / 2 * a + 33 / 2 * b) * v.Lam5 - 6 * a * b + (
            2 * v.Lam1 - 2 * v.Lam2 + v.lam + 8 * v.Lam4 + 2 * t + 2 * tr) * v.Lam5 - 4 * mixed,  # recalled with + 4
        **entries("YD", times(2 ** 0.5, beta), True)}


@theory("seesaw_type_three")
def build():
    def masses(c, f):
        y, m = c.matrix("YS", 3, 3), c.symmetric("MS", 3)
        rows = [[sum(b[k][a] * bilinear([k == 0, k == 1], f["H"]) for k in range(2)) for b in TRIPLET] for a in range(2)]
        return (up(c.yt, f["H"]) + leptons(c.matrix("Ye", 3, 3), f["H"])
                + between((36, 6), (MORE, 9), lambda p, q: y[p // 2][q // 3] * rows[p % 2][q % 3])
                + within((MORE, 9), lambda p, q: m[p // 3][q // 3] * (p % 3 == q % 3) / 2))
    return Theory(HYPER, usual_fermions(triplet("S", generations=3)), [doublet()],
                  lambda c, f: c.lam * norm(f["H"]) ** 2 + c.m2 * norm(f["H"]), masses)


@published("seesaw_type_three")
def formulas(v):
    ye, y, m = v.matrix("Ye", 3, 3), v.matrix("YS", 3, 3), v.symmetric("MS", 3)
    ee, yy = square(ye), square(y)
    t = trace(ee).real + 3 / 2 * trace(yy).real + 3 * v.yt ** 2
    a, b = v.g1 ** 2, v.g2 ** 2
    right = product(m, product(dagger(y), y))
    return {**entries("YS", matrices((5 / 4, yy, y), (5 / 2, ee, y), (t - 3 / 4 * a - 33 / 4 * b, y))),
            **entries("Ye", matrices((3 / 2, ee, ye), (15 / 4, yy, ye), (t - 15 / 4 * a - 9 / 4 * b, ye))),
            **entries("MS", matrices((1 / 2, right), (1 / 2, transpose(right)), (-12 * b, m)), True)}


@theory("scotogenic")
def build():
    def masses(c, f):
        h, m = c.matrix("h", 3, 3), c.symmetric("M", 3)
        up_x = [sum(EPS[a][b] * f["X"][b] for b in range(2)) for a in range(2)]
        return (up(c.yt, f["H"]) + leptons(c.matrix("Ye", 3, 3), f["H"])
                + between((36, 6), (MORE, 3), lambda p, q: h[p // 2][q] * up_x[p % 2])
                + within((MORE, 3), lambda p, q: m[p][q] / 2))
    return Theory(HYPER, usual_fermions(Multiplet("N", generations=3)), [doublet(), doublet("X")],
                  lambda c, f: two_doublets(c, f["H"], f["X"]) + c.m1sq * norm(f["H"]) + c.m2sq * norm(f["X"]), masses)


@published("scotogenic")
def formulas(v):
    ye, y, m = v.matrix("Ye", 3, 3), v.matrix("h", 3, 3), v.symmetric("M", 3)
    ee, yy = square(ye), square(y)
    t, tn = trace(ee).real + 3 * v.yt ** 2, trace(yy).real
    fourth, mixed = trace(yy, yy).real, trace(ee, yy).real
    g, gp = v.g2 ** 2, v.g1 ** 2
    gauge = -3 * (3 * g + gp)
    right = product(m, product(dagger(y), y))
    return {**entries("h", matrices((3 / 2, yy, y), (1 / 2, ee, y), (tn - 3 / 4 * gp - 9 / 4 * g, y))),
            **entries("Ye", matrices((3 / 2, ee, ye), (1 / 2, yy, ye), (t - 15 / 4 * gp - 9 / 4 * g, ye))),
            **entries("M", matrices((1, right), (1, transpose(right))), True),
            (1, "lam2"): 12 * v.lam2 ** 2 + 4 * v.lam3 ** 2 + 4 * v.lam3 * v.lam4 + 2 * v.lam4 ** 2 + 2 * v.lam5 ** 2
            + 3 / 4 * (3 * g ** 2 + gp ** 2 + 2 * g * gp) + gauge * v.lam2 + 4 * tn * v.lam2 - 4 * fourth,
            (1, "lam3"): (v.lam1 + v.lam2) * (6 * v.lam3 + 2 * v.lam4) + 4 * v.lam3 ** 2 + 2 * v.lam4 ** 2 + 2 * v.lam5 ** 2
            + 3 / 4 * (3 * g ** 2 + gp ** 2 - 2 * g * gp) + gauge * v.lam3 + 2 * (t + tn) * v.lam3 - 4 * mixed,
            (1, "lam4"): 2 * (v.lam1 + v.lam2) * v.lam4 + 8 * v.lam3 * v.lam4 + 4 * v.lam4 ** 2 + 8 * v.lam5 ** 2
            + 3 * g * gp + gauge * v.lam4 + 2 * (t + tn) * v.lam4 + 4 * mixed,
            (1, "lam5"): (2 * (v.lam1 + v.lam2 + 4 * v.lam3 + 6 * v.lam4) + gauge + 2 * (t + tn)) * v.lam5}


@theory("zee_babu")
def build():
    def potential(c, f):
        n, h, k = norm(f["H"]), f["h"][0], f["k"][0]
        hh, kk = abs(h) ** 2, abs(k) ** 2
        return (c.lamH * n ** 2 + c.lamh * hh ** 2 + c.lamk * kk ** 2 + c.lamhk * hh * kk + c.lamhH * hh * n + c.lamkH * kk * n
                + 2 * (c.mu * h * h * k.conjugate()).real + c.mH2 * n + c.mh2 * hh + c.mk2 * kk)

    def masses(c, f):
        pairs = [(L(i, a), L(j, b), 2 * c[f"f{i}{j}"] * EPS[a][b] * f["h"][0]) for i, j in ((1, 2), (1, 3), (2, 3))
                 for a in range(2) for b in range(2) if EPS[a][b]]
        g = c.symmetric("g", 3)
        return (up(c.yt, f["H"]) + leptons(c.matrix("Ye", 3, 3), f["H"]) + pairs
                + within((42, 3), lambda p, q: g[p][q] * f["k"][0].conjugate()))
    return Theory(HYPER, usual_fermions(), [doublet(), Multiplet("h", charge=1), Multiplet("k", charge=2)], potential, masses)


@theory("georgi_machacek")
def build():
    def potential(c, f):
        h, x, t = f["H"], adjoint_matrix(f["X"], 2), adjoint_matrix(f["T"], 2)
        n, xx, tt, both = norm(h), product(dagger(x), x), trace(t, t).real, trace(dagger(x), t)
        tx = trace(xx).real
        return (c.lam * n ** 2 + c.rho1 * tx ** 2 + c.rho2 * trace(xx, xx).real + c.rho3 / 4 * tt ** 2 + c.rho4 * tx * tt
                + c.rho5 * (both * trace(t, x)).real + c.sig1 * n * tx + c.sig2 * norm(applied(dagger(x), h))
                + c.sig3 / 2 * n * tt + 2 * c.sig4 * bilinear(h, applied(product(dagger(x), t), h)).real
                + c.mu1 * dot(h, applied(t, h)).real + 2 * c.mu2 * bilinear(h, applied(dagger(x), h)).real
                + c.mu3 * trace(dagger(x), commutator(t, x)).real + c.mH2 * n + c.mX2 * tx + c.mT2 / 2 * tt)
    return Theory(HYPER, usual_fermions(), [doublet(), triplet("X", 1), triplet("T", real=True)], potential,
                  lambda c, f: up(c.yt, f["H"]))


def usual_potential(c, h, half=1):
    return half * c.lam * norm(h) ** 2 + c.m2 * norm(h)


@theory("vector_quark_singlet")
def build():
    one = {"SU3": "fund"}
    return Theory(HYPER, usual_fermions(Multiplet("U", one, 2 / 3), Multiplet("Uc", {"SU3": "conj"}, -2 / 3)), [doublet()],
                  lambda c, f: usual_potential(c, f["H"]),
                  lambda c, f: up(c.yt, f["H"]) + up(c.yT, f["H"], column=lambda k: MORE + 3 + k) + down(c.yb, f["H"])
                  + [(MORE + k, MORE + 3 + k, c.M + 0j) for k in range(3)] + [(MORE + k, U(3, k), c.m + 0j) for k in range(3)])


@published("vector_quark_singlet")
def formulas(v):
    y, yd = [[v.yt, v.yT]], [[v.yb]]
    t = 3 * (v.yt ** 2 + v.yT ** 2 + v.yb ** 2)
    a, b, s = v.g1 ** 2, v.g2 ** 2, v.g3 ** 2
    up_y = matrices((3 / 2, square(y), y), (-3 / 2, square(yd), y), (t - 17 / 12 * a - 9 / 4 * b - 8 * s, y))
    fourth = 3 * (v.yt ** 2 + v.yT ** 2) ** 2 + 3 * v.yb ** 4
    return {(1, "yt"): up_y[0][0], (1, "yT"): up_y[0][1],
            (1, "yb"): v.yb * (3 / 2 * v.yb ** 2 - 3 / 2 * (v.yt ** 2 + v.yT ** 2) + t - 5 / 12 * a - 9 / 4 * b - 8 * s),
            (1, "lam"): 24 * v.lam ** 2 + 4 * t * v.lam - 2 * fourth - (3 * a + 9 * b) * v.lam + 3 / 8 * a * a + 3 / 4 * a * b
            + 9 / 8 * b * b}


@theory("vector_quark_doublet")
def build():
    new = [Multiplet("V", {"SU2": "fund", "SU3": "fund"}, 1 / 6), Multiplet("Vc", {"SU2": "conj", "SU3": "conj"}, -1 / 6)]
    row = lambda a, k: MORE + 3 * a + k
    return Theory(HYPER, usual_fermions(*new), [doublet()], lambda c, f: usual_potential(c, f["H"]),
                  lambda c, f: up(c.yt, f["H"]) + down(c.yb, f["H"]) + up(c.yT, f["H"], row) + down(c.yB, f["H"], row)
                  + [(MORE + k, MORE + 6 + k, c.M + 0j) for k in range(6)]
                  + [(Q(3, k // 3, k % 3), MORE + 6 + k, c.m + 0j) for k in range(6)])


@published("vector_quark_doublet")
def formulas(v):
    y, yd = [[v.yt], [v.yT]], [[v.yb], [v.yB]]
    yy, dd = square(y), square(yd)
    t = 3 * (trace(yy) + trace(dd))
    a, b, s = v.g1 ** 2, v.g2 ** 2, v.g3 ** 2
    new_y = matrices((3 / 2, yy, y), (-3 / 2, dd, y), (t - 17 / 12 * a - 9 / 4 * b - 8 * s, y))
    new_d = matrices((3 / 2, dd, yd), (-3 / 2, yy, yd), (t - 5 / 12 * a - 9 / 4 * b - 8 * s, yd))
    return {(1, "yt"): new_y[0][0], (1, "yT"): new_y[1][0], (1, "yb"): new_d[0][0], (1, "yB"): new_d[1][0],
            (1, "lam"): 24 * v.lam ** 2 + 4 * t * v.lam - 6 * (trace(yy, yy) + trace(dd, dd)) - (3 * a + 9 * b) * v.lam
            + 3 / 8 * a * a + 3 / 4 * a * b + 9 / 8 * b * b}


@theory("leptoquark_r2")
def build():
    def potential(c, f):
        h, r = f["H"], [f["R"][:3], f["R"][3:]]
        k = [[dot(x, y) for y in r] for x in r]
        n, m = norm(h), k[0][0].real + k[1][1].real
        inner = [sum(h[a].conjugate() * r[a][i] for a in range(2)) for i in range(3)]
        return (c.lam * n ** 2 + c.lamHR * n * m + c.lamHRp * norm(inner) + c.lamR * m ** 2 + c.lamRp * trace(k, k).real
                + c.mHsq * n + c.mRsq * m)

    def masses(c, f):
        r = [f["R"][:3], f["R"][3:]]
        return (up(c.yt, f["H"]) + down(c.yb, f["H"]) + lepton(c.ytau, f["H"])
                + [(U(3, k), L(3, a), c.yRL * EPS[a][b] * r[b][k]) for k in range(3) for a, b in ((0, 1), (1, 0))]
                + [(Q(3, a, k), E(3), c.yLR * r[a][k].conjugate()) for k in range(3) for a in range(2)])
    return Theory(HYPER, usual_fermions(), [doublet(), Multiplet("R", {"SU2": "fund", "SU3": "fund"}, 7 / 6)], potential, masses)


@theory("leptoquark_s3")
def build():
    colours = lambda f: [adjoint_matrix([f["S"][3 * a + k] for a in range(3)], 2) for k in range(3)]

    def potential(c, f):
        h, s = f["H"], colours(f)
        k = [[trace(dagger(x), y) for y in s] for x in s]
        n, m = norm(h), trace(k).real
        third = sum(abs(trace(x, y)) ** 2 for x in s for y in s)
        return (c.lam * n ** 2 + c.lamHS * n * m + c.lamHSp * sum(norm(applied(dagger(x), h)) for x in s) + c.lam1 * m ** 2
                + c.lam2 * trace(k, k).real + c.lam3 * third + c.mHsq * n + c.mSsq * m)

    def masses(c, f):
        forms = [product(EPS, x) for x in colours(f)]
        return (up(c.yt, f["H"]) + down(c.yb, f["H"]) + lepton(c.ytau, f["H"])
                + [(Q(3, a, k), L(3, b), c.yLL * forms[k][a][b]) for k in range(3) for a in range(2) for b in range(2)])
    return Theory(HYPER, usual_fermions(), [doublet(), Multiplet("S", {"SU2": "adjoint", "SU3": "conj"}, 1 / 3)], potential, masses)


@theory("complex_singlet_dark")
def build():
    def potential(c, f):
        n, s = norm(f["H"]), f["S"][0]
        ss = abs(s) ** 2
        return (c.m2 / 2 * n + c.lam / 4 * n ** 2 + c.del2 / 2 * n * ss + c.b2 / 2 * ss + c.d2 / 4 * ss ** 2
                + c.b1 / 2 * (s * s).real)
    return Theory(HYPER, usual_fermions(), [doublet(), Multiplet("S")], potential, lambda c, f: up(c.yt, f["H"]))


@published("complex_singlet_dark")
def formulas(v):
    h, hs, s = v.lam / 4, v.del2 / 4, v.d2 / 4
    a, b, t = v.g1 ** 2, v.g2 ** 2, v.yt ** 2
    return {(1, "lam"): 4 * (24 * h * h + 4 * hs * hs + (12 * t - 3 * a - 9 * b) * h - 6 * t * t
                             + 3 / 8 * (2 * b * b + (a + b) ** 2)),
            (1, "del2"): 4 * (8 * hs * hs + 4 * (3 * h + 2 * s) * hs + 1 / 2 * (12 * t - 3 * a - 9 * b) * hs),
            (1, "d2"): 4 * (20 * s * s + 8 * hs * hs)}


@theory("split_supersymmetry")
def build():
    hu, hd, bino, wino, gluino = (MORE, 2), (MORE + 2, 2), (MORE + 4, 1), (MORE + 5, 3), (MORE + 8, 8)
    new = [doublet("Hu"), doublet("Hd", -1 / 2), Multiplet("B"), triplet("W"), Multiplet("G", {"SU3": "adjoint"})]

    def masses(c, f):
        h = f["H"]
        lower = [sum(EPS[a][b] * h[b] for b in range(2)) for a in range(2)]
        return (up(c.yt, h) + down(c.yb, h) + lepton(c.ytau, h)
                + between(wino, hu, lambda p, q: c.gu * sum(TRIPLET[p][a][q] * h[a].conjugate() for a in range(2)))
                + between(hd, wino, lambda p, q: c.gd * sum(EPS[p][a] * applied(TRIPLET[q], h)[a] for a in range(2)))
                + between(bino, hu, lambda p, q: c.ku * h[q].conjugate()) + between(bino, hd, lambda p, q: c.kd * lower[q])
                + between(hu, hd, lambda p, q: c.mu * EPS[p][q]) + within(bino, lambda p, q: c.M1 / 2 + 0j)
                + within(wino, lambda p, q: c.M2 / 2 * (p == q) + 0j) + within(gluino, lambda p, q: c.M3 / 2 * (p == q) + 0j))
    return Theory(HYPER, usual_fermions(*new), [doublet()], lambda c, f: usual_potential(c, f["H"], 1 / 2), masses)


@published("split_supersymmetry")
def formulas(v):
    t, b, l = v.yt ** 2, v.yb ** 2, v.ytau ** 2
    p, q, s = v.g1 ** 2, v.g2 ** 2, v.g3 ** 2
    u2, d2, u1, d1 = v.gu, v.gd, 2 ** 0.5 * v.ku, 2 ** 0.5 * v.kd
    whole = 3 * t + 3 * b + l + (3 * u2 ** 2 + 3 * d2 ** 2 + u1 ** 2 + d1 ** 2) / 2
    fourth = 5 * (u2 ** 4 + d2 ** 4) + 2 * u2 ** 2 * d2 ** 2 + (u1 ** 2 + d1 ** 2) ** 2 + 2 * (u2 * u1 + d2 * d1) ** 2
    wino, bino = whole - 3 / 4 * p - 33 / 4 * q, whole - 3 / 4 * p - 9 / 4 * q
    return {(1, "lam"): 12 * v.lam ** 2 + 4 * v.lam * whole - 12 * t * t - 12 * b * b - 4 * l * l - fourth
            - 3 * (p + 3 * q) * v.lam + 9 / 4 * q * q + 3 / 2 * p * q + 3 / 4 * p * p,
            (1, "gu"): 5 / 4 * u2 ** 3 - u2 * d2 ** 2 / 2 + u2 * u1 ** 2 / 4 + d2 * d1 * u1 + u2 * wino,
            (1, "gd"): 5 / 4 * d2 ** 3 - d2 * u2 ** 2 / 2 + d2 * d1 ** 2 / 4 + u2 * d1 * u1 + d2 * wino,
            (1, "ku"): (3 / 4 * u1 ** 3 + 3 / 2 * u1 * d1 ** 2 + 3 / 4 * u1 * u2 ** 2 + 3 * d1 * d2 * u2 + u1 * bino) / 2 ** 0.5,
            (1, "kd"): (3 / 4 * d1 ** 3 + 3 / 2 * d1 * u1 ** 2 + 3 / 4 * d1 * d2 ** 2 + 3 * u1 * u2 * d2 + d1 * bino) / 2 ** 0.5,
            (1, "yt"): v.yt * (3 / 2 * t - 3 / 2 * b + whole - 17 / 12 * p - 9 / 4 * q - 8 * s),
            (1, "yb"): v.yb * (3 / 2 * b - 3 / 2 * t + whole - 5 / 12 * p - 9 / 4 * q - 8 * s),
            (1, "ytau"): v.ytau * (3 / 2 * l + whole - 15 / 4 * p - 9 / 4 * q)}



@theory("su5_fifteen")
def build():
    return five_theory(True)


@theory("su5_adjoint_fermion")
def build():
    return five_theory(False)


def five_theory(fifteen):
    """Minimal SU(5) with a scalar 15, with a fermion 24, or, for None, as it is."""
    ten, five, adjoint = (15 + 20, 10), (10, 5), (45, 24)
    tens, adjoints = basis(10, antisymmetric_matrix, 5), basis(24, adjoint_matrix, 5)
    epsilon = [(p, sign(p)) for p in itertools.permutations(range(5))]
    weights = [[[0j] * 5 for _ in tens] for _ in tens]
    for i, x in enumerate(tens):
        for j, y in enumerate(tens):
            for p, s in epsilon:
                weights[i][j][p[4]] += s * x[p[0]][p[1]] * y[p[2]][p[3]]

    def potential(c, f):
        h, x = f["H"], adjoint_matrix(f["Phi"], 5)
        n, xx = norm(h), product(x, x)
        t = trace(xx).real
        total = (c.l1 / 4 * t ** 2 + c.l2 / 2 * trace(xx, xx).real + c.l3 * n ** 2 + c.l4 * n * t
                 + c.l5 * dot(h, applied(xx, h)).real + c.c1 * trace(xx, x).real + c.c2 * dot(h, applied(x, h)).real
                 + c.m24sq / 2 * t + c.m5sq * n)
        if fifteen:
            s = symmetric_matrix(f["S"], 5)
            d = dagger(s)
            sd, ds = product(s, d), product(d, s)
            size = trace(sd).real
            line = applied(d, h)
            total += (c.s1 * size ** 2 + c.s2 * trace(ds, ds).real + c.s3 * size * t + c.s4 * trace(sd, xx).real
                      + c.s5 * trace(d, x, s, transpose(x)).real + c.s6 * n * size + c.s7 * norm(line)
                      + 2 * c.s8 * sum(a * b for a, b in zip(line, applied(x, h))).real + c.s9 * trace(sd, x).real
                      + 2 * c.s0 * sum(a * b for a, b in zip(line, h)).real + c.mSsq * size)
        return total

    def masses(c, f):
        h, x = f["H"], adjoint_matrix(f["Phi"], 5)
        found = within(ten, lambda p, q: c.yt / 4 * sum(w * e for w, e in zip(weights[p][q], h)))
        found += between(ten, five, lambda p, q: c.y5 * sum(tens[p][q][b] * h[b].conjugate() for b in range(5)))
        if fifteen:
            s = symmetric_matrix(f["S"], 5)
            return found + within(five, lambda p, q: c.y15 / 2 * s[p][q])
        if fifteen is None:
            return found
        found += between(five, adjoint, lambda p, q: c.y24 * applied(adjoints[q], h)[p])
        moved = [product(b, x) for b in adjoints]
        return found + within(adjoint, lambda p, q: c.mA / 2 * (p == q) + c.yP * trace(adjoints[p], moved[q]))
    fermions = [Multiplet("F", {"SU5": "conj"}, generations=3), Multiplet("T", {"SU5": "anti2"}, generations=3)]
    scalars = [Multiplet("Phi", {"SU5": "adjoint"}, real=True), Multiplet("H", {"SU5": "fund"})]
    if fifteen:
        return Theory({"SU5": (5, "g")}, fermions, scalars + [Multiplet("S", {"SU5": "sym2"})], potential, masses)
    more = [] if fifteen is None else [Multiplet("A", {"SU5": "adjoint"})]
    return Theory({"SU5": (5, "g")}, fermions + more, scalars, potential, masses)


def sign(permutation):
    total = 1
    for i, a in enumerate(permutation):
        for b in permutation[:i]:
            total *= 1 if b < a else -1
    return total


EPS3 = [(p, sign(p)) for p in itertools.permutations(range(3))]


@theory("three_three_one")
def build():
    def potential(c, f):
        a, b, d = f["A"], f["B"], f["C"]
        x, y, z = norm(a), norm(b), norm(d)
        return (c.lam1 * x * x + c.lam2 * y * y + c.lam3 * z * z + c.lam4 * x * y + c.lam5 * x * z + c.lam6 * y * z
                + c.lam7 * abs(dot(a, b)) ** 2 + c.lam8 * abs(dot(a, d)) ** 2 + c.lam9 * abs(dot(b, d)) ** 2
                + 2 * c.f * sum(s * a[p[0]] * b[p[1]] * d[p[2]] for p, s in EPS3).real
                + c.mAsq * x + c.mBsq * y + c.mCsq * z)

    def masses(c, f):
        lead, q, r, u, d, small, big = 0, 9, 27, 36, 45, 54, 60
        found = []
        for k in range(3):
            for a in range(3):
                found += [(r + 3 * k + a, u + 6 + k, c.yt * f["A"][a].conjugate()),
                          (r + 3 * k + a, d + 6 + k, c.yb * f["B"][a].conjugate()),
                          (r + 3 * k + a, big + k, c.yJ * f["C"][a].conjugate()),
                          (q + 3 * k + a, small + k, c.yj1 * f["C"][a]),
                          (q + 9 + 3 * k + a, small + 3 + k, c.yj2 * f["C"][a]),
                          (q + 9 + 3 * k + a, u + 3 + k, c.yc * f["B"][a])]
        for i, j in ((1, 2), (1, 3), (2, 3)):
            found += [(lead + 3 * i - 3 + p[0], lead + 3 * j - 3 + p[1], 2 * c[f"h{i}{j}"] * s * f["A"][p[2]]) for p, s in EPS3]
        return found
    colour, left = "SU3", "SU3L"
    fermions = [Multiplet("P", {left: "fund"}, 0, 3), Multiplet("Q", {colour: "fund", left: "conj"}, -1 / 3, 2),
                Multiplet("R", {colour: "fund", left: "fund"}, 2 / 3), Multiplet("u", {colour: "conj"}, -2 / 3, 3),
                Multiplet("d", {colour: "conj"}, 1 / 3, 3), Multiplet("jc", {colour: "conj"}, 4 / 3, 2),
                Multiplet("Jc", {colour: "conj"}, -5 / 3)]
    return Theory({colour: (3, "g3"), left: (3, "gL"), "X": (1, "gX")}, fermions,
                  [Multiplet(name, {left: "fund"}, charge) for name, charge in (("A", 0), ("B", 1), ("C", -1))], potential, masses)


@theory("trinification")
def build():
    rows = lambda x: [x[:3], x[3:6], x[6:]]

    def potential(c, f):
        a, b = rows(f["A"]), rows(f["B"])
        aa, bb, ab = product(dagger(a), a), product(dagger(b), b), product(dagger(a), b)
        x, y = trace(aa).real, trace(bb).real
        triple = lambda u, v, w: sum(s * t * u[p[0]][q[0]] * v[p[1]][q[1]] * w[p[2]][q[2]] for p, s in EPS3 for q, t in EPS3)
        return (c.a1 * x * x + c.a2 * trace(aa, aa).real + c.b1 * y * y + c.b2 * trace(bb, bb).real + c.p1 * x * y
                + c.p2 * abs(trace(ab)) ** 2 + c.p3 * trace(aa, bb).real
                + c.p4 * trace(square(a), square(b)).real
                + 2 * (c.q1 * trace(ab) ** 2 + c.q2 * trace(ab, ab) + c.c1 / 6 * triple(a, a, a) + c.c2 / 2 * triple(a, b, b)).real
                + c.mAsq * x + c.mBsq * y)

    def masses(c, f):
        a = rows(f["A"])
        lead, q, k = 18, 27 + 18, 54 + 18
        found = [(q + 3 * i + m, k + 3 * i + r, c.yq * a[m][r]) for i in range(3) for m in range(3) for r in range(3)]
        form = [[0j] * 9 for _ in range(9)]
        for p, s in EPS3:
            for r, t in EPS3:
                form[3 * p[0] + r[0]][3 * p[1] + r[1]] += s * t * a[p[2]][r[2]] / 2
        return found + within((lead, 9), lambda i, j: c.yl * form[i][j])
    names = {"SL": "fund", "SR": "conj"}
    fermions = [Multiplet("L", names, 0, 3), Multiplet("Q", {"C": "fund", "SL": "conj"}, 0, 3),
                Multiplet("K", {"C": "conj", "SR": "fund"}, 0, 3)]
    return Theory({"C": (3, "gC"), "SL": (3, "gL"), "SR": (3, "gR")}, fermions, [Multiplet("A", names), Multiplet("B", names)],
                  potential, masses)


def four_supersymmetries(n, potential):
    size = n * n - 1
    matrices_of = basis(size, adjoint_matrix, n)
    places = [(size * k, size) for k in range(4)]

    def masses(c, f):
        found = []
        for k, (i, j) in ((0, (1, 2)), (1, (2, 0)), (2, (0, 1))):
            p = adjoint_matrix(f[f"P{k + 1}"], n)
            form = [[trace(commutator(x, y), p) for y in matrices_of] for x in matrices_of]
            found += between(places[i], places[j], lambda a, b, form=form, k=k: c[f"y{k + 1}"] * form[a][b])
            form2 = [[trace(commutator(x, y), dagger(p)) for y in matrices_of] for x in matrices_of]
            found += between(places[k], places[3], lambda a, b, form=form2, k=k: c[f"h{k + 1}"] * form[a][b])
        return found
    adjoint = {"G": "adjoint"}
    return Theory({"G": (n, "g")}, [Multiplet(name, adjoint) for name in ("F1", "F2", "F3", "G")],
                  [Multiplet(name, adjoint) for name in ("P1", "P2", "P3")], potential, masses)


@theory("n4_su2")
def build():
    def potential(c, f):
        p = {k: f[f"P{k}"] for k in (1, 2, 3)}
        bare = lambda x, y: sum(a * b for a, b in zip(x, y))
        total = sum(c[f"a{k}"] * norm(p[k]) ** 2 + c[f"b{k}"] * abs(bare(p[k], p[k])) ** 2 for k in p)
        for i, j in ((1, 2), (1, 3), (2, 3)):
            total += (c[f"p{i}{j}"] * norm(p[i]) * norm(p[j]) + c[f"q{i}{j}"] * abs(dot(p[i], p[j])) ** 2
                      + c[f"r{i}{j}"] * abs(bare(p[i], p[j])) ** 2)
        return total
    return four_supersymmetries(2, potential)


@theory("n4_su3")
def build():
    return four_supersymmetries(3, None)


@published("super_yang_mills")
def formulas(v):
    return {(1, "g"): -9 * v.g ** 3, (2, "g"): -54 * v.g ** 5}


@published("wess_zumino")
def formulas(v):
    y = abs(v.y) ** 2
    return {(1, "y"): 3 / 2 * y * v.y, (1, "m"): y * v.m}


# Relations that a symmetry makes between couplings, which the beta functions have to keep.

RELATIONS = {}


def relation(name):
    return lambda f: RELATIONS.__setitem__(name, f)


@relation("wess_zumino")
def keep(v, beta):
    """Sets the couplings at the relations, and gives what has to vanish there."""
    v.update(lam=abs(v.y) ** 2, h=v.m.conjugate() * v.y, m2=abs(v.m) ** 2)
    b = beta()
    return {"lam": b.lam - 2 * (v.y.conjugate() * b.y).real, "m2": b.m2 - 2 * (v.m.conjugate() * b.m).real,
            "h": b.h - b.m.conjugate() * v.y - v.m.conjugate() * b.y}


def all_vanish(b, names):
    return {name: b[name] for name in names}


@relation("n4_su2")
def keep(v, beta):
    g = v.g
    v.update({f"{name}{k}": g for name in "yh" for k in (1, 2, 3)})
    for k in (1, 2, 3):
        v.update({f"a{k}": g * g / 2, f"b{k}": -g * g / 2})
    for pair in ("12", "13", "23"):
        v.update({f"p{pair}": 2 * g * g, f"q{pair}": -g * g, f"r{pair}": -g * g})
    return all_vanish(beta(), v) | {"two loops": beta(2).g}


@relation("n4_su3")
def keep(v, beta):
    v.update({f"{name}{k}": v.g for name in "yh" for k in (1, 2, 3)})
    return all_vanish(beta(), v) | {"two loops": beta(2).g}


@relation("georgi_machacek")
def keep(v, beta):
    v.update(g1=0, yt=0, rho2=-v.rho5, rho1=v.rho4 + 3 / 2 * v.rho5, rho3=v.rho4 + v.rho5, sig1=v.sig3 - v.sig2 / 2,
             sig4=SIGNS[0] * v.sig2 / 2 ** 0.5, mu2=SIGNS[1] * v.mu1 / 2 ** 0.5, mX2=v.mT2)
    b = beta()
    return {"rho2": b.rho2 + b.rho5, "rho1": b.rho1 - b.rho4 - 3 / 2 * b.rho5, "rho3": b.rho3 - b.rho4 - b.rho5,
            "sig1": b.sig1 - b.sig3 + b.sig2 / 2, "sig4": b.sig4 - SIGNS[0] * b.sig2 / 2 ** 0.5,
            "mu2": b.mu2 - SIGNS[1] * b.mu1 / 2 ** 0.5, "mX2": b.mX2 - b.mT2}


SIGNS = (1, 1)



# The theories that stood here first.


def up_matrix(y, h):
    return [e for i in range(3) for j in range(3)
            for e in up(y[i][j], h, lambda a, c, i=i: Q(i + 1, a, c), lambda c, j=j: U(j + 1, c))]


def down_matrix(y, h):
    return [e for i in range(3) for j in range(3)
            for e in down(y[i][j], h, lambda a, c, i=i: Q(i + 1, a, c), lambda c, j=j: D(j + 1, c))]


def usual_matrices(c, h):
    return up_matrix(c.matrix("Yu", 3, 3), h) + down_matrix(c.matrix("Yd", 3, 3), h) + leptons(c.matrix("Ye", 3, 3), h)


@theory("standard_model_three")
def build():
    return Theory(HYPER, usual_fermions(), [doublet()], lambda c, f: usual_potential(c, f["H"], 1 / 2),
                  lambda c, f: usual_matrices(c, f["H"]))


@theory("standard_model_third")
def build():
    return Theory(HYPER, usual_fermions(), [doublet()], lambda c, f: usual_potential(c, f["H"], 1 / 2),
                  lambda c, f: up(c.yt, f["H"]) + down(c.yb, f["H"]) + lepton(c.ytau, f["H"]))


def usual_published(size, majorana=False):
    def formulas(v):
        yu, yd, ye = (v.matrix(name, size, size) for name in ("Yu", "Yd", "Ye"))
        uu, dd, ee = square(yu), square(yd), square(ye)
        t = (3 * trace(uu) + 3 * trace(dd) + trace(ee)).real
        a, b, s = v.g1 ** 2, v.g2 ** 2, v.g3 ** 2
        found = {}
        if majorana:
            yn, m = v.matrix("Yn", 3, 3), v.symmetric("M", 3)
            nn = square(yn)
            t += trace(nn).real
            right = product(m, product(dagger(yn), yn))
            found = {**entries("Yn", matrices((3 / 2, nn, yn), (-3 / 2, ee, yn), (t - 3 / 4 * a - 9 / 4 * b, yn))),
                     **entries("M", matrices((1, right), (1, transpose(right))), True)}
            lepton_part = matrices((3 / 2, ee, ye), (-3 / 2, nn, ye))
        else:
            lepton_part = matrices((3 / 2, ee, ye))
            fourth = (3 * trace(uu, uu) + 3 * trace(dd, dd) + trace(ee, ee)).real
            found[1, "lam"] = (12 * v.lam ** 2 + 4 * t * v.lam - 4 * fourth - (3 * a + 9 * b) * v.lam + 3 / 4 * a * a
                               + 3 / 2 * a * b + 9 / 4 * b * b)
        return {**found, **entries("Ye", plus(lepton_part, times(t - 15 / 4 * a - 9 / 4 * b, ye))),
                **entries("Yu", matrices((3 / 2, uu, yu), (-3 / 2, dd, yu), (t - 17 / 12 * a - 9 / 4 * b - 8 * s, yu))),
                **entries("Yd", matrices((3 / 2, dd, yd), (-3 / 2, uu, yd), (t - 5 / 12 * a - 9 / 4 * b - 8 * s, yd)))}
    return formulas


PUBLISHED["standard_model_one"] = usual_published(1)
PUBLISHED["standard_model_three"] = usual_published(3)
PUBLISHED["seesaw_type_one"] = usual_published(3, True)


@published("standard_model_third")
def formulas(v):
    t, b, l = v.yt ** 2, v.yb ** 2, v.ytau ** 2
    p, q, s = v.g1 ** 2, v.g2 ** 2, v.g3 ** 2
    whole = 3 * t + 3 * b + l
    return {(1, "g1"): 41 / 6 * v.g1 ** 3, (1, "g2"): -19 / 6 * v.g2 ** 3, (1, "g3"): -7 * v.g3 ** 3,
            (2, "g1"): v.g1 ** 3 * (199 / 18 * p + 9 / 2 * q + 44 / 3 * s - 17 / 6 * t - 5 / 6 * b - 5 / 2 * l),
            (2, "g2"): v.g2 ** 3 * (3 / 2 * p + 35 / 6 * q + 12 * s - 3 / 2 * t - 3 / 2 * b - 1 / 2 * l),
            (2, "g3"): v.g3 ** 3 * (11 / 6 * p + 9 / 2 * q - 26 * s - 2 * t - 2 * b),
            (1, "yt"): v.yt * (3 / 2 * t - 3 / 2 * b + whole - 17 / 12 * p - 9 / 4 * q - 8 * s),
            (1, "yb"): v.yb * (3 / 2 * b - 3 / 2 * t + whole - 5 / 12 * p - 9 / 4 * q - 8 * s),
            (1, "ytau"): v.ytau * (3 / 2 * l + whole - 15 / 4 * p - 9 / 4 * q),
            (1, "lam"): 12 * v.lam ** 2 + 4 * whole * v.lam - 4 * (3 * t * t + 3 * b * b + l * l) - (3 * p + 9 * q) * v.lam
            + 3 / 4 * p * p + 3 / 2 * p * q + 9 / 4 * q * q}


@theory("seesaw_type_one")
def build():
    def masses(c, f):
        y, m = c.matrix("Yn", 3, 3), c.symmetric("M", 3)
        lower = [sum(EPS[a][b] * f["H"][b] for b in range(2)) for a in range(2)]
        return (usual_matrices(c, f["H"]) + between((36, 6), (MORE, 3), lambda p, q: y[p // 2][q] * lower[p % 2])
                + within((MORE, 3), lambda p, q: m[p][q] / 2))
    return Theory(HYPER, usual_fermions(Multiplet("N", generations=3)), [doublet()],
                  lambda c, f: usual_potential(c, f["H"], 1 / 4), masses)


@theory("real_singlet")
def build():
    def potential(c, f):
        n, s = norm(f["H"]), f["S"][0].real
        return (c.m2 * n + c.lam * n * n + c.a1 / 2 * n * s + c.a2 / 2 * n * s * s + c.b2 / 2 * s * s + c.b3 / 3 * s ** 3
                + c.b4 / 4 * s ** 4)
    return Theory(HYPER, usual_fermions(), [doublet(), Multiplet("S", real=True)], potential, lambda c, f: up(c.yt, f["H"]))


@published("real_singlet")
def formulas(v):
    a, b, t = v.g1 ** 2, v.g2 ** 2, v.yt ** 2
    return {(1, "lam"): 24 * v.lam ** 2 - 6 * t * t + 3 / 8 * (2 * b * b + (a + b) ** 2) + (12 * t - 9 * b - 3 * a) * v.lam
            + v.a2 ** 2 / 2,
            (1, "a2"): 4 * v.a2 ** 2 + 12 * v.lam * v.a2 + 6 * v.b4 * v.a2 + 6 * t * v.a2 - 3 / 2 * (3 * b + a) * v.a2,
            (1, "b4"): 2 * v.a2 ** 2 + 18 * v.b4 ** 2}


@theory("complex_singlet")
def build():
    def potential(c, f):
        n, s = norm(f["H"]), norm(f["S"])
        return c.lamH * n * n + c.lamS * s * s + 2 * c.lamHS * n * s + c.mH2 * n + c.mS2 * s
    return Theory(HYPER, usual_fermions(), [doublet(), Multiplet("S")], potential, lambda c, f: up(c.yt, f["H"]))


@published("complex_singlet")
def formulas(v):
    a, b, t = v.g1 ** 2, v.g2 ** 2, v.yt ** 2
    return {(1, "lamH"): 24 * v.lamH ** 2 + 4 * v.lamHS ** 2 + (12 * t - 3 * a - 9 * b) * v.lamH - 6 * t * t
            + 3 / 8 * (2 * b * b + (a + b) ** 2),
            (1, "lamHS"): 8 * v.lamHS ** 2 + 4 * (3 * v.lamH + 2 * v.lamS) * v.lamHS + 1 / 2 * (12 * t - 3 * a - 9 * b) * v.lamHS,
            (1, "lamS"): 20 * v.lamS ** 2 + 8 * v.lamHS ** 2}


@theory("two_doublets_general")
def build():
    def potential(c, f):
        x, y = f["P1"], f["P2"]
        return (two_doublets(c, x, y) + 2 * ((c.lam6 * norm(x) + c.lam7 * norm(y) - c.m12sq) * dot(x, y)).real
                + c.m11sq * norm(x) + c.m22sq * norm(y))
    return Theory(HYPER, usual_fermions(), [doublet("P1"), doublet("P2")], potential,
                  lambda c, f: up(c.y1, f["P1"]) + up(c.y2, f["P2"]))


@theory("with_table")
def build():
    def potential(c, f):
        h, x = f["H"], f["X"]
        return (c.lam1 / 2 * norm(h) ** 2 + c.lam2 / 2 * norm(x) ** 2 + (c.kap0 - c.kap1) * norm(h) * norm(x)
                + 2 * c.kap1 * abs(dot(h, x)) ** 2 + c.lam5 * (dot(h, x) ** 2).real + c.mHsq * norm(h) + c.mXsq * norm(x))
    return Theory({"U1": HYPER["U1"], "SU2": HYPER["SU2"]}, [], [doublet("H"), doublet("X")], potential)


@theory("scalar_leptoquark")
def build():
    def potential(c, f):
        n, s = norm(f["H"]), norm(f["S"])
        return c.lam * n * n + c.lamHS * n * s + c.lamS * s * s + c.mHsq * n + c.mSsq * s

    def masses(c, f):
        return (up(c.yt, f["H"]) + down(c.yb, f["H"]) + lepton(c.ytau, f["H"])
                + [(Q(3, a, k), L(3, b), c.yLL * EPS[a][b] * f["S"][k]) for k in range(3) for a, b in ((0, 1), (1, 0))]
                + [(U(3, k), E(3), c.yRR * f["S"][k].conjugate()) for k in range(3)])
    return Theory(HYPER, usual_fermions(), [doublet(), Multiplet("S", {"SU3": "conj"}, 1 / 3)], potential, masses)


@theory("minimal_su5")
def build():
    return five_theory(None)


@theory("adjoint_scalar")
def build():
    return Theory({"SU2": (2, "g")}, [], [triplet("Phi", real=True)], lambda c, f: c.lam / 4 * norm(f["Phi"]) ** 2)


@theory("scalar_qed")
def build():
    return Theory({"U1": (1, "g")}, [], [Multiplet("p", charge=1)], lambda c, f: c.lam * norm(f["p"]) ** 2)


@theory("dirac_mass")
def build():
    def potential(c, f):
        s = f["S"][0].real
        return c.lam / 24 * s ** 4 + c.h / 6 * s ** 3 + c.m2 / 2 * s ** 2
    return Theory({}, [Multiplet("A"), Multiplet("B")], [Multiplet("S", real=True)], potential,
                  lambda c, f: [(0, 1, c.y * f["S"][0] + c.mf)])


@published("qed")
def formulas(v):
    return {(1, "g"): 4 / 3 * v.g ** 3, (2, "g"): 4 * v.g ** 5}


@published("yang_mills")
def formulas(v):
    return {(1, "g"): -11 * v.g ** 3, (2, "g"): -102 * v.g ** 5}


@published("qcd_six_flavours")
def formulas(v):
    return {(1, "g"): -7 * v.g ** 3, (2, "g"): -26 * v.g ** 5, **{(1, m): -8 * v.g ** 2 * v[m] for m in v if m != "g"}}


def bidoublet(x):
    """P as a matrix, and its dual eps P* eps^T, whose entries are those of sigma_2 P* sigma_2."""
    p = [x[:2], x[2:]]
    star = [[e.conjugate() for e in row] for row in p]
    return p, product(product(EPS, star), transpose(EPS))


def bidoublet_potential(c, p, dual):
    x, y = trace(dagger(p), p).real, trace(dual, dagger(p))
    return x, y, (c.lam1 * x * x + 2 * c.lam2 * (y * y).real + c.lam3 * abs(y) ** 2 + 2 * c.lam4 * x * y.real)


@theory("left_right")
def build():
    def potential(c, f):
        p, dual = bidoublet(f["P"])
        l, r = adjoint_matrix(f["DL"], 2), adjoint_matrix(f["DR"], 2)
        x, y, total = bidoublet_potential(c, p, dual)
        ll, rr = trace(l, dagger(l)).real, trace(r, dagger(r)).real
        pl, pr = trace(l, l), trace(r, r)
        total += c.rho1L * ll ** 2 + c.rho1R * rr ** 2 + c.rho2L * abs(pl) ** 2 + c.rho2R * abs(pr) ** 2 + c.rho3 * ll * rr
        total += 2 * c.rho4 * (pl * pr.conjugate()).real + x * (c.alpha1L * ll + c.alpha1R * rr)
        total += 2 * y.real * (c.alpha2L * ll + c.alpha2R * rr)
        total += c.alpha3L * trace(p, dagger(p), l, dagger(l)).real + c.alpha3R * trace(dagger(p), p, r, dagger(r)).real
        total += 2 * (c.beta1 * trace(p, r, dagger(p), dagger(l)) + c.beta2 * trace(dual, r, dagger(p), dagger(l))
                      + c.beta3 * trace(p, r, dagger(dual), dagger(l))).real
        return total - c.mu1sq * x - 2 * c.mu2sq * y.real - c.mu3Lsq * ll - c.mu3Rsq * rr

    def masses(c, f):
        p, dual = bidoublet(f["P"])
        l, r = adjoint_matrix(f["DL"], 2), adjoint_matrix(f["DR"], 2)
        quark = plus(times(c.hq, p), times(c.hqt, dual))
        lead = plus(times(c.hl, p), times(c.hlt, dual))
        found = [(3 * a + k, 6 + 3 * b + k, quark[a][b].conjugate()) for a in range(2) for b in range(2) for k in range(3)]
        found += [(12 + a, 14 + b, lead[a][b].conjugate()) for a in range(2) for b in range(2)]
        left, right = product(EPS, l), product(EPS, [[e.conjugate() for e in row] for row in r])
        return (found + within((12, 2), lambda i, j: c.fL * left[i][j]) + within((14, 2), lambda i, j: c.fR * right[i][j]))
    groups = {"SU2L": (2, "gL"), "SU2R": (2, "gR"), "SU3": (3, "g3"), "BL": (1, "gB")}
    fermions = [Multiplet("Q", {"SU2L": "fund", "SU3": "fund"}, 1 / 6), Multiplet("Qc", {"SU2R": "conj", "SU3": "conj"}, -1 / 6),
                Multiplet("L", {"SU2L": "fund"}, -1 / 2), Multiplet("Lc", {"SU2R": "conj"}, 1 / 2)]
    scalars = [Multiplet("P", {"SU2L": "fund", "SU2R": "conj"}), Multiplet("DL", {"SU2L": "adjoint"}, 1),
               Multiplet("DR", {"SU2R": "adjoint"}, 1)]
    return Theory(groups, fermions, scalars, potential, masses)


@theory("pati_salam")
def build():
    def potential(c, f):
        p, dual = bidoublet(f["P"])
        x = [f["X"][2 * k:2 * k + 2] for k in range(4)]
        size, y, total = bidoublet_potential(c, p, dual)
        k = [[sum(row[r].conjugate() * row[s] for row in x) for s in range(2)] for r in range(2)]
        xx = trace(k).real
        third = sum(norm(applied(p, row)) for row in x)
        return (total + c.kap1 * xx ** 2 + c.kap2 * trace(k, k).real + c.alpha1 * size * xx + 2 * c.alpha2 * y.real * xx
                + c.alpha3 * third + c.mP1sq * size + 2 * c.mP2sq * y.real + c.mXsq * xx)

    def masses(c, f):
        p, dual = bidoublet(f["P"])
        form = plus(times(c.y1, p), times(c.y2, dual))
        own, other, last = 16, 24 + 16, 48
        found = [(own + 2 * k + a, other + 2 * k + r, form[a][r].conjugate()) for k in range(4) for a in range(2) for r in range(2)]
        found += [(other + i, last, c.yN * f["X"][i]) for i in range(8)]
        return found + [(last, last, c.mN + 0j)]
    groups = {"SU4": (4, "g4"), "SU2L": (2, "gL"), "SU2R": (2, "gR")}
    fermions = [Multiplet("F", {"SU4": "fund", "SU2L": "fund"}, generations=3),
                Multiplet("Fc", {"SU4": "conj", "SU2R": "conj"}, generations=3), Multiplet("N")]
    scalars = [Multiplet("P", {"SU2L": "fund", "SU2R": "conj"}), Multiplet("X", {"SU4": "fund", "SU2R": "fund"})]
    return Theory(groups, fermions, scalars, potential, masses)


@published("inert_doublet")
def formulas(v):
    """Those of two doublets of type I, with lambda_1 and lambda_2 twice those here."""
    a, b, t = v.g1 ** 2, v.g2 ** 2, 3 * v.yt ** 2 + 3 * v.yb ** 2 + v.ytau ** 2
    l1, l2 = 2 * v.lam1, 2 * v.lam2
    own = lambda l: (12 * l * l + 4 * v.lam3 ** 2 + 4 * v.lam3 * v.lam4 + 2 * v.lam4 ** 2 + 2 * v.lam5 ** 2
                     + 3 / 4 * (3 * b * b + a * a + 2 * a * b) - 3 * (3 * b + a) * l)
    gauge = -3 * (3 * b + a) + 2 * t
    return {(1, "lam1"): (own(l1) + 4 * t * l1 - 12 * v.yt ** 4 - 12 * v.yb ** 4 - 4 * v.ytau ** 4) / 2,
            (1, "lam2"): own(l2) / 2,
            (1, "lam3"): (l1 + l2) * (6 * v.lam3 + 2 * v.lam4) + 4 * v.lam3 ** 2 + 2 * v.lam4 ** 2 + 2 * v.lam5 ** 2
            + 3 / 4 * (3 * b * b + a * a - 2 * a * b) + gauge * v.lam3,
            (1, "lam4"): 2 * (l1 + l2) * v.lam4 + 8 * v.lam3 * v.lam4 + 4 * v.lam4 ** 2 + 8 * v.lam5 ** 2 + 3 * a * b
            + gauge * v.lam4,
            (1, "lam5"): (2 * (l1 + l2 + 4 * v.lam3 + 6 * v.lam4) + gauge) * v.lam5}


@published("generated_block")
def formulas(v):
    g = v.g ** 2
    return {(1, "lp"): 20 * v.lp ** 2 - 48 * g * v.lp + 96 * g * g, (1, "lr"): 20 * v.lr ** 2 - 108 * g * v.lr + 486 * g * g}


@published("two_fermions")
def formulas(v):
    return {(1, "a"): 4 * v.a ** 3 + 8 * v.a * v.b ** 2, (1, "b"): 4 * v.a ** 2 * v.b + 5 * v.b ** 3}


@theory("generated_block")
def build():
    return Theory({"U1": (1, "g")}, [], [Multiplet("P", charge=2), Multiplet("R", charge=3)])


@theory("open_block")
def build():
    return Theory({"SU3": (3, "g")}, [], [Multiplet("A", {"SU3": "fund"}), Multiplet("B", {"SU3": "fund"})])


@published("open_block")
def formulas(v):
    """The part of k, which has no line, is worked out by hand: three components of the other triplet."""
    own = lambda l: 28 * l * l - 16 * v.g ** 2 * l + 13 / 6 * v.g ** 4 + 3 * v.k ** 2
    return {(1, "la"): own(v.la), (1, "lb"): own(v.lb)}


def main(names):
    bad = 0
    for name in names or sorted(set(THEORIES) | set(PUBLISHED) | set(RELATIONS)):
        if not (MODELS / f"{name}.beta.txt").exists():
            print(name, "skipped: no output is stored")
            continue
        kinds, faults, others = check(name, THEORIES[name]() if name in THEORIES else None, PUBLISHED.get(name))
        print(name, "ok:" if not faults else "DIFFERS:", "; ".join(kinds), *(f"[{x}]" for x in others))
        for fault in dict.fromkeys(faults):
            print("   ", fault)
        bad += bool(faults)
    return bad


if __name__ == "__main__":
    sys.exit(main(sys.argv[1:]))
