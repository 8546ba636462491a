#!/usr/bin/env python3
"""standard_model.py CSV MODEL PICTURE: runs the Standard Model with the Yukawa couplings of the third generation from the mass of
the Z boson to 10^16 GeV, compares with the closed form and with published values, and draws the inverse gauge couplings."""
import sys

import matplotlib
import numpy
from rate_running import LandauPole, Theory

matplotlib.use("Agg")
from matplotlib import pyplot  # noqa: E402

MASS_OF_Z = 91.1876
END = 1e16
# MS-bar at the mass of the Z boson: 1/alpha = 127.951, sin^2(theta) = 0.23122, alpha_s = 0.1179 (Particle Data Group, 2020).
ALPHA, SINE_SQUARED, ALPHA_S = 1 / 127.951, 0.23122, 0.1179


def start():
    e_squared = 4 * numpy.pi * ALPHA
    g1, g2 = numpy.sqrt(e_squared / (1 - SINE_SQUARED)), numpy.sqrt(e_squared / SINE_SQUARED)
    return {"g1": g1, "g2": g2, "g3": numpy.sqrt(4 * numpy.pi * ALPHA_S), "yt": 0.97, "yb": 0.0164, "ytau": 0.01, "lam": 0.26}


def inverse(values):
    """1/alpha_1, 1/alpha_2 and 1/alpha_3, the first in the normalisation of a unified theory, g1^2 -> 5/3 g1^2."""
    squares = numpy.array([5 / 3 * values["g1"] ** 2, values["g2"] ** 2, values["g3"] ** 2])
    return 4 * numpy.pi / squares


def check_one_loop(theory):
    """At one loop 1/alpha_i falls by b_i/(2 pi) log(end/start), with b = 41/10, -19/6, -7."""
    wanted = inverse(start()) - numpy.array([41 / 10, -19 / 6, -7]) / (2 * numpy.pi) * numpy.log(END / MASS_OF_Z)
    found = inverse(theory.run(start(), MASS_OF_Z, END, loops=1).at(END))
    assert numpy.allclose(found, wanted, rtol=1e-8), (found, wanted)
    print("one loop: as the closed form, 1/alpha_i(10^16 GeV) =", found.round(3))


def check_published(theory):
    """From the mass of the top quark to the Planck mass: D. Buttazzo et al., JHEP 12 (2013) 089, arXiv:1307.3536, with three loops,
    from memory. The gauge couplings agree; y_t and lambda aren't compared, since theirs run at three loops and these at one."""
    values = {"g1": 0.35830, "g2": 0.64779, "g3": 1.1666, "yt": 0.93690, "lam": 2 * 0.12604}
    found = theory.run(values, 173.34, 1.2209e19).at(1.2209e19)
    found = numpy.array([numpy.sqrt(5 / 3) * found["g1"], found["g2"], found["g3"]])
    assert numpy.allclose(found, [0.6154, 0.5055, 0.4873], atol=2e-4), found
    print("two loops: as published, g_i at the Planck mass =", found.round(4))


def check_pole(theory):
    """A strong g1 has a pole where 1/g1^2 is 0: at one loop at start * exp(8 pi^2 / (41/6 g1^2)). It takes lambda with it."""
    try:
        theory.run({"g1": 1.0}, 1e3, 1e19, loops=1)
    except LandauPole as pole:
        wanted = 1e3 * numpy.exp(8 * numpy.pi**2 / (41 / 6))
        assert abs(pole.scale / wanted - 1) < 0.03, (pole, wanted)
        print("a strong g1:", pole)
    else:
        raise AssertionError("no Landau pole was found")


def draw(theory, path):
    scales = numpy.logspace(numpy.log10(MASS_OF_Z), numpy.log10(END), 100)
    figure, axes = pyplot.subplots(figsize=(5.5, 3.8))
    for loops, style in ((1, "--"), (2, "-")):
        running = theory.run(start(), MASS_OF_Z, END, loops)
        curves = numpy.array([inverse(running.at(scale)) for scale in scales]).T
        for number, curve in enumerate(curves, 1):
            label = rf"$\alpha_{number}^{{-1}}$" if loops == 2 else None
            axes.plot(scales, curve, style, color=f"C{number - 1}", label=label)
    axes.set_xscale("log")
    axes.set_xlabel(r"$\mu$ / GeV")
    axes.set_ylabel(r"$\alpha_i^{-1}$")
    axes.set_title("Standard Model: two loops, and one loop dashed", fontsize=10)
    axes.legend()
    figure.tight_layout()
    figure.savefig(path, dpi=90)


def main():
    theory = Theory(*sys.argv[1:3])
    check_one_loop(theory)
    check_published(theory)
    check_pole(theory)
    print("two loops: 1/alpha_i(10^16 GeV) =", inverse(theory.run(start(), MASS_OF_Z, END).at(END)).round(3))
    draw(theory, sys.argv[3])


if __name__ == "__main__":
    main()
