#!/usr/bin/env python3
"""not_closed.py CSV MODEL: a theory with an open or a generated block is refused unless that is allowed, and then its other
couplings run."""
import sys

from rate_running import NotClosed, Theory


def main():
    try:
        Theory(*sys.argv[1:3])
    except NotClosed as error:
        print(error)
    else:
        raise AssertionError("the theory was taken as closed")
    theory = Theory(*sys.argv[1:3], allow_not_closed=True)
    start = {"g": 0.3, "lp": 0.1, "lr": 0.2}
    end = theory.run(start, 1e2, 1e3).at(1e3)
    assert all(end[name] != start[name] for name in start), end


if __name__ == "__main__":
    main()
