#!/usr/bin/env python3
"""check.py MODULE PACKAGE: compares the Python module and the Mathematica package of the Standard Model, both with g1 of a unified
theory and lambda (H~H)^2: the package as sympy reads it, and some lines with what is published. It tries the rule on names too."""
import importlib.util
import os
import random
import re
import subprocess
import sys
import tempfile

import sympy
from sympy.parsing.mathematica import parse_mathematica

PUBLISHED = {
    ("g1", 1): "41/10*g1^3",
    ("g1", 2): "199/50*g1^5 + 27/10*g1^3*g2^2 + 44/5*g1^3*g3^2 - 17/10*g1^3*yt^2 - 1/2*g1^3*yb^2 - 3/2*g1^3*ytau^2",
    ("ytau", 1): "5/2*ytau^3 + 3*yt^2*ytau + 3*yb^2*ytau - 9/4*g1^2*ytau - 9/4*g2^2*ytau",
}


def module_of(path):
    spec = importlib.util.spec_from_file_location("exported", path)
    module = importlib.util.module_from_spec(spec)
    spec.loader.exec_module(module)
    return module


def package_of(path):
    with open(path, encoding="utf-8") as file:
        rows = re.findall(r"^betaFunction\[(\w+), (\d)\] = (.*);$", file.read(), re.M)
    return {(name, int(loops)): parse_mathematica(text) for name, loops, text in rows}


def check_names():
    """Names that Python or Mathematica has itself are renamed, and no two become one."""
    rows = ["kind,target,loops,at,num,den,monomial"]
    symbols = {"lambda": 2.0, "I": 3.0, "E_1": 5.0, '"Y[1,2]"': 7 + 1j, "Y_1_2": 11.0, "pi": 13.0}
    rows += [f"beta,{symbol},1,,1,2,{symbol}" for symbol in symbols]
    rows += ['beta,"Y[1,2]",1,,-1,1,"I*conj(Y[1,2])^2"']
    with tempfile.TemporaryDirectory() as folder:
        paths = [os.path.join(folder, name) for name in ("names.csv", "names.py", "names.m")]
        with open(paths[0], "w", encoding="utf-8") as file:
            file.write("\n".join(rows) + "\n")
        export = os.path.join(os.path.dirname(os.path.abspath(__file__)), "export.py")
        for form, path in zip(("python", "mathematica"), paths[1:]):
            with open(path, "w", encoding="utf-8") as file:
                subprocess.run([sys.executable, export, form, paths[0]], stdout=file, check=True)
        module = module_of(paths[1])
        with open(paths[2], encoding="utf-8") as file:
            heads = re.findall(r"^betaFunction\[(.*), \d\] = (.*);$", file.read(), re.M)
    values = {symbol.strip('"'): value for symbol, value in symbols.items()}
    wanted = {symbol: value / 2 for symbol, value in values.items()}
    wanted["Y[1,2]"] -= 3 * (7 - 1j) ** 2
    found = module.betas(values)
    assert all(abs(found[symbol] / module.FACTOR - value) < 1e-9 for symbol, value in wanted.items()), found
    assert [head for head, _ in heads] == ["lambda", "myI", "myE$1", "myY[1, 2]", "myY$1$2", "pi"], heads
    assert heads[3][1] == "1/2*myY[1, 2] - myI*Conjugate[myY[1, 2]]^2", heads


def main():
    check_names()
    module, package = module_of(sys.argv[1]), package_of(sys.argv[2])
    for key, text in PUBLISHED.items():
        assert sympy.expand(package[key] - parse_mathematica(text)) == 0, key
    values = {name: random.Random(name).uniform(0.2, 1) for name in module.SYMBOLS}
    wanted = dict.fromkeys(module.SYMBOLS, 0)
    for (name, loops), polynomial in package.items():
        wanted[name] += float(polynomial.subs(values)) * module.FACTOR**loops
    found = module.betas(values)
    assert all(abs(found[name] - wanted[name]) < 1e-12 for name in wanted), (found, wanted)
    print(f"{len(package)} beta functions: the module, the package and published lines agree")


if __name__ == "__main__":
    main()
