#!/usr/bin/env python3
"""export.py python|mathematica CSV [NAME=FACTOR ..]: writes the beta functions of a CSV of the program as a Python module without
dependencies, or as a Mathematica package.

NAME=FACTOR writes them for a new coupling, of which the old one is FACTOR times: g1="sqrt(3/5)" gives the normalisation of a
unified theory, lam=2 the potential lambda (H~H)^2 where the model file has 1/2 of it. A factor is p, p/q or sqrt(p/q).

Names. In Python the entry [i,j] of a matrix NAME is NAME_i_j, and a name that Python or the module has itself gets a `_` behind
it. In Mathematica `_` becomes `$`, an entry is NAME[i, j], and a name that begins with a capital letter, as all of Mathematica's
own do, gets `my` before it. A name that is taken by then gets more of `_` or `$` behind it."""
import builtins
import csv
import keyword
import re
import sys
from fractions import Fraction

OWN = {"FACTOR", "SYMBOLS", "betas", "couplings", "loops", "result", "pi"}
PARTS = re.compile(r"(conj\()?([A-Za-z]\w*)((?:\[\d+,\d+\])?)\)?(?:\^(\d+))?")


def square_of(factor):
    """The square of a factor, with the sign of the factor."""
    root = re.fullmatch(r"sqrt\((\d+(?:/\d+)?)\)", factor)
    if root:
        return Fraction(root[1])
    value = Fraction(factor)
    if value <= 0:
        sys.exit(f"{factor}: a factor is greater than 0")
    return value * value


def root_of(value, what):
    """The square root of a fraction that is a square."""
    parts = [round(part**0.5) for part in (value.numerator, value.denominator)]
    root = Fraction(*parts)
    if root * root != value:
        sys.exit(f"{what}: this rescaling leaves a square root in a coefficient")
    return root


def read(path, squares):
    """The polynomials by number of loops and symbol: lists of a coefficient and factors (conj, name, cell, power)."""
    found = {}
    with open(path, newline="", encoding="utf-8") as file:
        for row in csv.DictReader(file):
            if row["kind"] != "beta":
                sys.exit(f"{row['kind']} {row['target']}: the theory isn't closed")
            target = row["target"].partition("[")[0]
            factors = [PARTS.fullmatch(it).groups() for it in row["monomial"].split("*")] if row["monomial"] != "1" else []
            square = 1 / squares.get(target, Fraction(1))
            for _, name, _, power in factors:
                square *= squares.get(name, Fraction(1)) ** int(power or 1)
            coefficient = Fraction(int(row["num"]), int(row["den"])) * root_of(square, row["monomial"])
            polynomial = found.setdefault((int(row["loops"]), row["target"]), [])
            if coefficient:
                polynomial.append((coefficient, factors))
    return found


def free(name, taken, more):
    while name in taken:
        name += more
    taken.add(name)
    return name


def names_of(found, rename):
    """A new name for each symbol (name, cell) that stands in the polynomials."""
    symbols = dict.fromkeys(PARTS.fullmatch(target).group(2, 3) for _, target in found)
    for polynomial in found.values():
        symbols |= dict.fromkeys((name, cell) for _, factors in polynomial for _, name, cell, _ in factors)
    return rename(symbols)


def python_names(symbols):
    taken = OWN | set(keyword.kwlist) | set(keyword.softkwlist) | set(dir(builtins))
    cell_text = lambda cell: "".join(f"_{it}" for it in re.findall(r"\d+", cell))
    return {it: free(it[0] + cell_text(it[1]), taken, "_") for it in symbols}


def mathematica_names(symbols):
    taken = {"betaFunction"}
    heads = {}
    for name, _ in symbols:
        if name not in heads:
            new = name.replace("_", "$")
            heads[name] = free("my" + new if new[0].isupper() else new, taken, "$")
    return {(name, cell): heads[name] + cell.replace(",", ", ") for name, cell in symbols}


def polynomial_text(polynomial, names, times):
    """A polynomial, of which `times(conj, name, power)` writes a factor."""
    text = ""
    for coefficient, factors in polynomial:
        parts = [] if abs(coefficient) == 1 and factors else [str(abs(coefficient))]
        parts += [times(conj, names[name, cell], int(power or 1)) for conj, name, cell, power in factors]
        sign = ("-" if coefficient < 0 else "") if not text else " - " if coefficient < 0 else " + "
        text += sign + "*".join(parts)
    return text or "0"


def python_factor(conj, name, power):
    return (f"{name}.conjugate()" if conj else name) + (f"**{power}" if power > 1 else "")


def mathematica_factor(conj, name, power):
    return (f"Conjugate[{name}]" if conj else name) + (f"^{power}" if power > 1 else "")


def python_module(found, factors):
    names = names_of(found, python_names)
    symbols = [name + cell for name, cell in names]
    print(f'"""Beta functions, written by export.py.{note(factors)}"""')
    print("from math import pi\n\nFACTOR = 1 / (16 * pi**2)")
    print(f"SYMBOLS = {symbols!r}\n\n")
    print("def betas(couplings, loops=2):")
    print('    """The derivatives by the logarithm of the scale, by symbol, where `couplings` has a number for each of SYMBOLS."""')
    print("    result = dict.fromkeys(SYMBOLS, 0)")
    for symbol, new in zip(symbols, names.values()):
        print(f'    {new} = couplings["{symbol}"]')
    for (loops, target), polynomial in found.items():
        head = f'result["{target}"] += FACTOR' + ("**2" if loops == 2 else "")
        indent = "    " if loops == 1 else "    if loops > 1:\n        "
        print(f"{indent}{head} * ({polynomial_text(polynomial, names, python_factor)})")
    print("    return result")


def mathematica_package(found, factors):
    names = names_of(found, mathematica_names)
    print(f"(* Beta functions, written by export.py.{note(factors)} *)")
    print('BeginPackage["RateBetas`"];')
    print('betaFunction::usage = "betaFunction[coupling, loops] is its part of the beta function, without 1/(16 Pi^2)^loops.";')
    for (loops, target), polynomial in found.items():
        new = names[PARTS.fullmatch(target).group(2, 3)]
        print(f"betaFunction[{new}, {loops}] = {polynomial_text(polynomial, names, mathematica_factor)};")
    print("EndPackage[];")


def note(factors):
    return "".join(f" {name} of the model file is {factor} times {name} here." for name, factor in factors.items())


def main():
    form, path, *words = sys.argv[1:]
    factors = dict(word.split("=", 1) for word in words)
    found = read(path, {name: square_of(factor) for name, factor in factors.items()})
    {"python": python_module, "mathematica": mathematica_package}[form](found, factors)


if __name__ == "__main__":
    main()
