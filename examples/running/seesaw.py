#!/usr/bin/env python3
"""seesaw.py CSV MODEL: the right-hand sides of the type-one seesaw, with complex 3 by 3 matrices, against published formulas of
matrices, and the mass matrix of the light neutrinos, run down from 10^16 GeV."""
import sys

import numpy
from rate_running import Theory


def random_values(seed):
    """Values of all couplings: the gauge couplings, four complex matrices and a complex symmetric one."""
    random = numpy.random.default_rng(seed)
    matrix = lambda: random.normal(size=(3, 3)) + 1j * random.normal(size=(3, 3))
    values = {name: 0.1 * matrix() for name in ("Yu", "Yd", "Ye", "Yn")}
    mass = matrix()
    return values | {"M": mass + mass.T, "g1": 0.4, "g2": 0.6, "g3": 0.9, "lam": 0.3, "m2": 0.1}


def published(values):
    """S. Antusch, J. Kersten, M. Lindner, M. Ratz and M. A. Schmidt, JHEP 03 (2005) 024, hep-ph/0501272, above all masses of N; the
    row of a matrix is the doublet here. Without 1/(16 pi^2)."""
    up, down, lepton, neutrino, mass = (values[name] for name in ("Yu", "Yd", "Ye", "Yn", "M"))
    g1, g2, g3 = (values[name] ** 2 for name in ("g1", "g2", "g3"))
    square = lambda matrix: matrix @ matrix.conj().T
    trace = numpy.trace(3 * square(up) + 3 * square(down) + square(lepton) + square(neutrino))
    flow = lambda own, other, gauge: 3 / 2 * (square(own) - square(other)) @ own + (trace - gauge) * own
    product = mass @ neutrino.conj().T @ neutrino
    return {
        "Yu": flow(up, down, 17 / 12 * g1 + 9 / 4 * g2 + 8 * g3),
        "Yd": flow(down, up, 5 / 12 * g1 + 9 / 4 * g2 + 8 * g3),
        "Ye": flow(lepton, neutrino, 15 / 4 * g1 + 9 / 4 * g2),
        "Yn": flow(neutrino, lepton, 3 / 4 * g1 + 9 / 4 * g2),
        "M": product + product.T,
    }


def main():
    theory = Theory(*sys.argv[1:3])
    for seed in range(3):
        values = random_values(seed)
        found = theory.beta(values, loops=1)
        for name, wanted in published(values).items():
            assert numpy.allclose(16 * numpy.pi**2 * found[name], wanted, rtol=1e-10, atol=1e-12), name
    print("the published formulas of Yu, Yd, Ye, Yn and M hold at three random points")
    top = random_values(0) | {"Yu": numpy.diag([0, 0, 0.5]), "M": 1e14 * numpy.diag([1, 2, 3]).astype(complex)}
    running = theory.run(top, 1e16, 4e14)
    for scale in (1e16, 4e14):
        values = running.at(scale)
        light = 246.0**2 / 2 * values["Yn"] @ numpy.linalg.inv(values["M"]) @ values["Yn"].T
        print(f"light neutrinos at {scale:.0e} GeV, in eV:", (1e9 * numpy.linalg.svd(light)[1]).round(4))


if __name__ == "__main__":
    main()
