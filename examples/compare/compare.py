#!/usr/bin/env python3
"""compare.py CSV PUBLISHED [NAME=FACTOR ..]: compares the lines of the program with a published table, exactly.

PUBLISHED has a row `coupling,loops,published` for each beta function, with the formula as sympy reads it; a line that begins with
# is a comment. NAME=FACTOR says that the coupling NAME of the model file is FACTOR times that of the publication, as
g1="sqrt(3/5)". A line without a row is named, and a line that differs ends the script with the difference."""
import csv
import re
import sys

import sympy


def derived(path):
    """The polynomial of each coupling and number of loops; the entry [i,j] of a matrix NAME is NAME_i_j."""
    found = {}
    with open(path, newline="", encoding="utf-8") as file:
        for row in csv.DictReader(file):
            if row["kind"] == "beta":
                target, loops = plain(row["target"]), int(row["loops"])
                monomial = read(plain(row["monomial"]).replace("^", "**"))
                found[target, loops] = found.get((target, loops), 0) + sympy.Rational(int(row["num"]), int(row["den"])) * monomial
    return found


def plain(text):
    return text.replace("[", "_").replace(",", "_").replace("]", "")


class Names(dict):
    """Each name is a symbol, also those that sympy has itself, as N and S; conj and sqrt are functions."""

    def __missing__(self, name):
        return {"conj": sympy.conjugate, "sqrt": sympy.sqrt, "Rational": sympy.Rational}.get(name) or sympy.Symbol(name)


def read(text):
    """The expression of a text, with exact fractions."""
    code = "".join(f"Rational({word})" if word.isdigit() else word for word in words_of(text))
    return eval(code, {"__builtins__": {}}, Names())  # noqa: S307


def words_of(text):
    """The words of an expression; a digit within a name or behind ** is no word of its own."""
    if not re.fullmatch(r"[\w\s+*/().-]*", text) or "__" in text:
        raise ValueError(f"{text} is no formula")
    return re.findall(r"\*\*\s*\d+|[A-Za-z_]\w*|\d+|.", text)


def rescaled(found, factors):
    """The beta functions of new couplings, where an old one is its factor times the new one."""
    substitution = {sympy.Symbol(name): factor * sympy.Symbol(name) for name, factor in factors.items()}
    return {
        (target, loops): sympy.expand(value.xreplace(substitution) / factors.get(target, 1)) if isinstance(value, sympy.Expr) else value
        for (target, loops), value in found.items()
    }


def published(path):
    with open(path, newline="", encoding="utf-8") as file:
        rows = csv.DictReader(line for line in file if not line.startswith("#"))
        return {(plain(row["coupling"]), int(row["loops"])): read(row["published"]) for row in rows}


def main():
    factors = {name: read(factor) for name, factor in (word.split("=") for word in sys.argv[3:])}
    found, wanted = rescaled(derived(sys.argv[1]), factors), published(sys.argv[2])
    for key, value in wanted.items():
        difference = sympy.expand(found.get(key, 0) - value)
        if difference != 0:
            sys.exit(f"beta{key[1]} {key[0]}: the derivation less the publication is {difference}")
    missing = [f"beta{loops} {target}" for target, loops in found if (target, loops) not in wanted]
    print(f"{len(wanted)} beta functions agree exactly; not in the table: {', '.join(missing) or 'none'}")


if __name__ == "__main__":
    main()
