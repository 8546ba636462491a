"""Runs the couplings of a theory by the beta functions that the program writes as CSV.

    ./rate - derive 2 csv 1 < models/standard_model_third.toml > sm.csv

    theory = Theory("sm.csv", "models/standard_model_third.toml")
    running = theory.run({"g1": 0.357, "g2": 0.652, "g3": 1.218, "yt": 0.97, "lam": 0.26}, 91.19, 1e16, loops=2)
    running.at(1e10)["g3"]

A matrix coupling is given and read as an array by its name. The gauge couplings run to two loops, all others to one, so this is
fit for gauge couplings and for rough values of others, and not for the stability of the vacuum, which wants three loops and
thresholds.
"""
import csv
import re
import tomllib

import numpy
from scipy.integrate import solve_ivp

LOOP_FACTOR = 1 / (16 * numpy.pi**2)
POLE = 30.0
FACTOR = re.compile(r"(conj\()?([A-Za-z]\w*(?:\[\d+,\d+\])?)\)?(?:\^(\d+))?")


class NotClosed(ValueError):
    """The theory has an open or a generated block: it wants couplings that the file doesn't have."""


class LandauPole(ArithmeticError):
    """A coupling grows beyond any perturbation theory. `scale` tells where."""

    def __init__(self, name, scale):
        super().__init__(f"{name} has a Landau pole near the scale {scale:.4g}")
        self.name, self.scale = name, scale


class Coupling:
    """A coupling of the model file: its symbols, of which a matrix has one in each cell, and whether it is complex."""

    def __init__(self, name, latex, is_complex, has_dimension, is_symmetric=False):
        self.name, self.latex, self.is_complex, self.has_dimension = name, latex, is_complex, has_dimension
        self.is_symmetric, self.cells = is_symmetric, {}

    def place(self, row, column):
        """The place of an entry in the vector. Of a symmetric matrix the file has those with row at most column."""
        return self.cells[min(row, column), max(row, column)] if self.is_symmetric else self.cells[row, column]

    def read(self, vector):
        """The value of the coupling in a vector: a number, or a matrix."""
        part = vector if self.is_complex else vector.real
        if (0, 0) in self.cells:
            return part[self.cells[0, 0]]
        rows, columns = map(max, zip(*self.cells))
        return numpy.array([[part[self.place(i + 1, j + 1)] for j in range(columns)] for i in range(rows)])

    def write(self, vector, value):
        """Puts a value of the coupling into a vector."""
        value = numpy.asarray(value)
        if not self.is_complex and numpy.any(numpy.imag(value)):
            raise ValueError(f"{self.name} is real in the model file")
        if value.shape != numpy.shape(self.read(vector)) or self.is_symmetric and not numpy.allclose(value, value.T):
            raise ValueError(f"{self.name} has another shape in the model file")
        for (row, column), place in self.cells.items():
            vector[place] = value[row - 1, column - 1] if row else value


def couplings_of(model):
    """The couplings of a model file in its order, without their symbols."""
    found = [Coupling(it["coupling"], it.get("latex", it["coupling"]), False, False) for it in model.get("group", [])]
    fermions = {it["name"] for it in model.get("fermion", [])}
    fields = fermions | {it["name"] for it in model.get("scalar", [])}
    for term in model.get("term", []):
        bare = re.sub(r"\(.*?\)|\[.*?\]", " ", re.split("[+-]", term["text"].lstrip("- "))[0])
        legs = [word for word in re.findall(r"[A-Za-z]\w*", bare) if word in fields]
        wanted = 3 if set(legs) & fermions else 4
        is_complex, is_symmetric = term.get("value") == "complex", term.get("shape") == "symmetric"
        latex = term.get("latex", term["coupling"])
        found.append(Coupling(term["coupling"], latex, is_complex, len(legs) < wanted, is_symmetric))
    return found


class Theory:
    """The beta functions of a CSV and the couplings of its model file."""

    def __init__(self, csv_path, model_path, allow_not_closed=False):
        with open(model_path, "rb") as file:
            self.couplings = {it.name: it for it in couplings_of(tomllib.load(file))}
        with open(csv_path, newline="", encoding="utf-8") as file:
            rows = list(csv.DictReader(file))
        blocks = dict.fromkeys(f"{row['kind']} {row['target']}" for row in rows if row["kind"] != "beta")
        if blocks and not allow_not_closed:
            raise NotClosed(f"the theory isn't closed: {', '.join(blocks)}. With allow_not_closed these are passed over")
        self.symbols = {}
        betas = [row for row in rows if row["kind"] == "beta"]
        for row in betas:
            self.add_symbol(row["target"])
        self.monomials = [self.monomial(row) for row in betas if row["num"] != "0"]
        self.is_complex = any(it.is_complex for it in self.couplings.values())
        self.tabulate()

    def add_symbol(self, symbol):
        """The place of a symbol in the vector. One of an open block has no line of its own, and stays as it is."""
        if symbol not in self.symbols:
            name, *cell = re.findall(r"\w+", symbol)
            self.symbols[symbol] = len(self.symbols)
            self.couplings[name].cells[tuple(map(int, cell)) or (0, 0)] = self.symbols[symbol]
        return self.symbols[symbol]

    def monomial(self, row):
        """The target, the loops, the coefficient and the factors of a row: each a place and whether it is conjugated."""
        factors = []
        for conj, symbol, power in (FACTOR.fullmatch(it).groups() for it in row["monomial"].split("*")):
            factors += [(self.add_symbol(symbol), bool(conj))] * int(power or 1)
        return self.symbols[row["target"]], int(row["loops"]), int(row["num"]) / int(row["den"]), factors

    def tabulate(self):
        """All monomials as arrays. A row of `places` has those of its factors in the vector (y, conj(y), 1)."""
        size = len(self.symbols)
        self.targets = numpy.array([it[0] for it in self.monomials], dtype=int)
        self.loops = numpy.array([it[1] for it in self.monomials])
        self.coefficients = numpy.array([it[2] * LOOP_FACTOR ** it[1] for it in self.monomials])
        width = max((len(it[3]) for it in self.monomials), default=0)
        self.places = numpy.full((len(self.monomials), width), 2 * size)
        for row, (_, _, _, factors) in zip(self.places, self.monomials):
            row[: len(factors)] = [place + size * conj for place, conj in factors]

    def derivative(self, vector, loops=2):
        """The derivatives by the logarithm of the scale."""
        values = numpy.concatenate([vector, numpy.conj(vector), [1]])
        terms = self.coefficients * numpy.prod(values[self.places], axis=1) * (self.loops <= loops)
        result = numpy.zeros_like(vector)
        numpy.add.at(result, self.targets, terms)
        return result

    def vector(self, values):
        """The vector of values by name; a coupling that isn't given is 0."""
        vector = numpy.zeros(len(self.symbols), dtype=complex if self.is_complex else float)
        for name, value in values.items():
            self.couplings[name].write(vector, value)
        return vector

    def values(self, vector):
        """The values by name of a vector."""
        return {name: it.read(vector) for name, it in self.couplings.items() if it.cells}

    def beta(self, values, loops=2):
        """The derivatives by the logarithm of the scale, by name, at values by name."""
        return self.values(self.derivative(self.vector(values), loops))

    def largest(self, vector):
        """The coupling without dimension that is largest in size, and its size."""
        sizes = [(numpy.max(numpy.abs(it.read(vector))), name) for name, it in self.couplings.items() if it.cells and not it.has_dimension]
        return max(sizes)[::-1]

    def run(self, values, start, end, loops=2):
        """Runs from the scale `start`, where the couplings have these values, to the scale `end`."""

        def below_pole(_, vector):
            return POLE - self.largest(vector)[1]

        below_pole.terminal = True
        span = numpy.log(start), numpy.log(end)
        flow = lambda _, vector: self.derivative(vector, loops)
        found = solve_ivp(flow, span, self.vector(values), "DOP853", rtol=1e-10, atol=1e-13, dense_output=True, events=below_pole)
        if found.status != 0:
            raise LandauPole(self.largest(found.y[:, -1])[0], numpy.exp(found.t[-1]))
        return Running(self, found.sol)


class Running:
    """The couplings as functions of the scale."""

    def __init__(self, theory, solution):
        self.theory, self.solution = theory, solution

    def at(self, scale):
        """The values by name at a scale."""
        return self.theory.values(self.solution(numpy.log(scale)))
