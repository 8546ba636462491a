"""One-loop and two-loop beta functions of a theory that is written in components by hand, in floating point.

A theory has multiplets of scalars and of Weyl fermions, a function for the potential and one for the mass matrix of the
fermions in a background of the scalars. The beta functions come from the one-loop effective potential in Landau gauge with
the anomalous dimensions of the fields, from the textbook formula for Yukawa matrices with real scalar fields, and from sums
of indices and Casimirs. Nothing here reads a model file: check_components.py compares the two."""
import math


def gell_mann(n):
    """The generators of SU(n) in the fundamental representation, with Tr T_A T_B = 1/2 delta_AB, as dense matrices."""
    found = []
    for a in range(n):
        for b in range(a + 1, n):
            for x, y in ((0.5, 0.5), (-0.5j, 0.5j)):
                m = [[0j] * n for _ in range(n)]
                m[a][b], m[b][a] = x, y
                found.append(m)
    for k in range(1, n):
        norm = 1 / math.sqrt(2 * k * (k + 1))
        found.append([[norm * (1 if a < k else -k) * (a == b) * (a <= k) + 0j for b in range(n)] for a in range(n)])
    return found


SPARSE_GENERATORS = {n: [[(i, j, math.sqrt(2) * e) for i, row in enumerate(x) for j, e in enumerate(row) if e]
                         for x in gell_mann(n)] for n in range(2, 7)}


def product(x, y):
    rows = [[(j, e) for j, e in enumerate(row) if e] for row in y]
    found = []
    for row in x:
        new = [0j] * len(y[0])
        for k, e in enumerate(row):
            if e:
                for j, f in rows[k]:
                    new[j] += e * f
        found.append(new)
    return found


def trace(*factors):
    total = factors[0]
    for factor in factors[1:]:
        total = product(total, factor)
    return sum(total[i][i] for i in range(len(total)))


def dagger(x):
    return [[x[i][j].conjugate() for i in range(len(x))] for j in range(len(x[0]))]


def transpose(x):
    return [list(row) for row in zip(*x)]


def times(number, x):
    return [[number * e for e in row] for row in x]


def plus(x, y):
    return [[a + b for a, b in zip(r, s)] for r, s in zip(x, y)]


def commutator(x, y):
    return plus(product(x, y), times(-1, product(y, x)))


def identity(n):
    return [[(i == j) + 0j for j in range(n)] for i in range(n)]


def adjoint_matrix(vector, n):
    """sum_A v_A lambda_A / sqrt(2), whose tr X+X is sum_A |v_A|^2."""
    total = [[0j] * n for _ in range(n)]
    for value, entries in zip(vector, SPARSE_GENERATORS[n]):
        if value:
            for i, j, e in entries:
                total[i][j] += value * e
    return total


def symmetric_matrix(vector, n):
    """The symmetric matrix S with tr S+S = sum |v|^2."""
    s = [[0j] * n for _ in range(n)]
    place = 0
    for a in range(n):
        for b in range(a, n):
            s[a][b] = s[b][a] = vector[place] * (1 if a == b else math.sqrt(0.5))
            place += 1
    return s


def antisymmetric_matrix(vector, n):
    """The antisymmetric matrix T with tr T+T = sum |v|^2."""
    t = [[0j] * n for _ in range(n)]
    place = 0
    for a in range(n):
        for b in range(a + 1, n):
            t[a][b] = vector[place] * math.sqrt(0.5)
            t[b][a] = -t[a][b]
            place += 1
    return t


DIMENSIONS = {"fund": lambda n: n, "conj": lambda n: n, "adjoint": lambda n: n * n - 1,
              "sym2": lambda n: n * (n + 1) // 2, "anti2": lambda n: n * (n - 1) // 2}
CASIMIRS = {"fund": lambda n: (n * n - 1) / (2 * n), "conj": lambda n: (n * n - 1) / (2 * n), "adjoint": lambda n: n,
            "sym2": lambda n: (n - 1) * (n + 2) / n, "anti2": lambda n: (n + 1) * (n - 2) / n}


def generators(representation, n):
    """The generators in a representation, in an orthonormal basis of it."""
    t = gell_mann(n)
    if representation == "fund":
        return t
    if representation == "conj":
        return [times(-1, transpose(x)) for x in t]
    size = DIMENSIONS[representation](n)
    unit = [[float(i == k) for i in range(size)] for k in range(size)]
    build = {"adjoint": adjoint_matrix, "sym2": symmetric_matrix, "anti2": antisymmetric_matrix}[representation]
    basis = [build(e, n) for e in unit]
    found = []
    for x in t:
        if representation == "adjoint":
            moved = [commutator(x, b) for b in basis]
        else:
            moved = [plus(product(x, b), product(b, transpose(x))) for b in basis]
        found.append([[trace(dagger(basis[i]), moved[k]) for k in range(size)] for i in range(size)])
    return found


class Multiplet:
    """A field: its name, its representations by group, its charge by group, generations, and whether it is real."""

    def __init__(self, name, reps=None, charge=0, generations=1, real=False):
        self.name, self.reps, self.charge, self.generations, self.real = name, reps or {}, charge, generations, real


class Theory:
    """groups: name -> (n, coupling), n = 1 for the U(1); potential(c, f) a real number and masses(c, f) a list of (i, j, value) of
    the symmetric matrix in L = -1/2 psi_i M_ij psi_j, at couplings c and fields f, f[name] a list of components in the order of
    generations and then of the representations' indices in the order of groups."""

    def __init__(self, groups, fermions, scalars, potential=None, masses=None):
        self.groups, self.fermions, self.scalars, self.potential, self.masses = groups, fermions, scalars, potential, masses
        self.offset, at = {}, 0
        for field in fermions:
            self.offset[field.name] = at
            at += self.dimension(field) * field.generations
        self.size = at
        self.real = [(f.name, k, part) for f in scalars for k in range(self.dimension(f) * f.generations)
                     for part in ((1,) if f.real else (math.sqrt(0.5), 1j * math.sqrt(0.5)))]
        self.moved = {(f.name, g): self.act(f, g) for f in scalars for g in groups}

    def dimension(self, field):
        return math.prod(DIMENSIONS[word](self.groups[group][0]) for group, word in field.reps.items())

    def casimir(self, field, group):
        n = self.groups[group][0]
        if n == 1:
            return field.charge ** 2
        return CASIMIRS[field.reps[group]](n) if group in field.reps else 0

    def act(self, field, group):
        """The generators of the group on the components of one generation, as dense matrices; none where it is a singlet."""
        n = self.groups[group][0]
        if n == 1:
            return [times(field.charge, identity(self.dimension(field)))] if field.charge else []
        if group not in field.reps:
            return []
        words = [(g, w) for g, w in ((g, field.reps[g]) for g in self.groups if g in field.reps)]
        sizes = [DIMENSIONS[w](self.groups[g][0]) for g, w in words]
        at = [g for g, _ in words].index(group)
        before, after = math.prod(sizes[:at]), math.prod(sizes[at + 1:])
        found = []
        for x in generators(field.reps[group], n):
            size = before * sizes[at] * after
            m = [[0j] * size for _ in range(size)]
            for p in range(before):
                for q in range(after):
                    for i in range(sizes[at]):
                        for k in range(sizes[at]):
                            m[(p * sizes[at] + i) * after + q][(p * sizes[at] + k) * after + q] = x[i][k]
            found.append(m)
        return found

    def casimir_list(self, group):
        return [self.casimir(f, group) for f in self.fermions for _ in range(self.dimension(f) * f.generations)]

    def point(self, rng):
        """A background at random."""
        return {f.name: [rng.uniform(-1, 1) + (0 if f.real else 1j * rng.uniform(-1, 1))
                         for _ in range(self.dimension(f) * f.generations)] for f in self.scalars}

    def shifted(self, fields, *moves):
        new = {name: list(values) for name, values in fields.items()}
        for (name, k, part), size in moves:
            new[name][k] += part * size
        return new

    def matrix(self, couplings, fields):
        m = [[0j] * self.size for _ in range(self.size)]
        for i, j, value in self.masses(couplings, fields):
            m[i][j] += value
            if i != j:
                m[j][i] += value
        return m

    def yukawas(self, couplings):
        """The Yukawa matrix of each real scalar coordinate, and the mass matrix."""
        if self.masses is None or not self.size:
            return [], []
        zero = {f.name: [0j] * (self.dimension(f) * f.generations) for f in self.scalars}
        mass = self.matrix(couplings, zero)
        return [plus(self.matrix(couplings, self.shifted(zero, (r, 1))), times(-1, mass)) for r in self.real], mass

    def anomalous(self, yukawas):
        """The Yukawa part of the anomalous dimensions of the real scalar coordinates."""
        sparse = [[(i, j, e) for i, row in enumerate(y) for j, e in enumerate(row) if e] for y in yukawas]
        return [[sum((e.conjugate() * y[i][j]).real for i, j, e in entries) for y in yukawas] for entries in sparse]

    def beta_masses(self, couplings, fields):
        """The beta function of the fermions' mass matrix in the background, and its scale."""
        yukawas, mass = self.yukawas(couplings)
        m = self.matrix(couplings, fields)
        gamma = self.anomalous(yukawas)
        square = [[0j] * self.size for _ in range(self.size)]
        third = [[0j] * self.size for _ in range(self.size)]
        for y in yukawas:
            square = plus(square, product(y, dagger(y)))
            third = plus(third, product(product(y, dagger(m)), y))
        half = times(0.5, product(square, m))
        total = plus(plus(half, transpose(half)), times(2, third))
        coordinates = self.coordinates(fields)
        for b, y in enumerate(yukawas):
            weight = sum(coordinates[a] * gamma[a][b] for a in range(len(coordinates)))
            total = plus(total, times(weight, y))
        for group, (_, coupling) in self.groups.items():
            c, g = self.casimir_list(group), couplings[coupling]
            total = [[total[i][j] - 3 * g * g * (c[i] + c[j]) * m[i][j] for j in range(self.size)] for i in range(self.size)]
        return total

    def coordinates(self, fields):
        """The canonical real coordinates of the fields."""
        found = []
        for name, k, part in self.real:
            value = fields[name][k]
            found.append(value.real / part.real if not isinstance(part, complex) else value.imag / part.imag)
        return found

    def second(self, couplings, fields, *moves):
        v = [self.potential(couplings, self.shifted(fields, *((m, s) for m in moves))) for s in (-2, -1, 0, 1, 2)]
        return (-v[0] + 16 * v[1] - 30 * v[2] + 16 * v[3] - v[4]) / 12

    def first(self, couplings, fields, move):
        v = [self.potential(couplings, self.shifted(fields, (move, s))) for s in (-2, -1, 1, 2)]
        return (v[0] - 8 * v[1] + 8 * v[2] - v[3]) / 12

    def scalar_part(self, couplings, fields):
        """Half the trace of the squared mass matrix of the scalars, squared."""
        own = [self.second(couplings, fields, r) for r in self.real]
        total = sum(x * x for x in own) / 2
        for a in range(len(self.real)):
            for b in range(a):
                total += ((self.second(couplings, fields, self.real[a], self.real[b]) - own[a] - own[b]) / 2) ** 2
        return total

    def gauge_part(self, couplings, fields):
        """Three halves of the trace of the squared mass matrix of the gauge fields, squared."""
        vectors = []
        for group, (_, coupling) in self.groups.items():
            charged = [f for f in self.scalars if self.moved[f.name, group]]
            for at in range(max([len(self.moved[f.name, group]) for f in charged] + [0])):
                vectors.append({(f.name, k): couplings[coupling] * math.sqrt(1 if f.real else 2) * e for f in charged
                                for k, e in enumerate(self.apply(self.moved[f.name, group][at], fields[f.name]))})
        return sum(1.5 * sum((e.conjugate() * y[k]).real for k, e in x.items() if k in y) ** 2 for x in vectors for y in vectors)

    def field_part(self, couplings, fields):
        """The slope of the potential with the anomalous dimensions of the fields."""
        slope = [self.first(couplings, fields, r) for r in self.real]
        coordinates = self.coordinates(fields)
        gamma = self.anomalous(self.yukawas(couplings)[0])
        kinds = {f.name: f for f in self.scalars}
        total = sum(coordinates[a] * entry * slope[b] for a, row in enumerate(gamma) for b, entry in enumerate(row))
        for a, (name, _, _) in enumerate(self.real):
            for group, (_, coupling) in self.groups.items():
                total -= 3 * couplings[coupling] ** 2 * self.casimir(kinds[name], group) * coordinates[a] * slope[a]
        return total

    def beta_potential(self, couplings, fields):
        """The beta function of the potential in the background."""
        total = self.scalar_part(couplings, fields) + self.gauge_part(couplings, fields) + self.field_part(couplings, fields)
        if self.masses is not None and self.size:
            m = self.matrix(couplings, fields)
            total -= sum(abs(e) ** 2 for row in product(m, dagger(m)) for e in row)
        return total

    def apply(self, matrix, vector):
        size = len(matrix)
        return [sum(matrix[i][k] * vector[start + k] for k in range(size)) for start in range(0, len(vector), size)
                for i in range(size)]

    def index(self, field, group):
        """The Dynkin index of a field, all its components and generations counted."""
        n = self.groups[group][0]
        return self.dimension(field) * field.generations * self.casimir(field, group) / (n * n - 1 if n > 1 else 1)

    def beta_gauge(self, couplings, group):
        """The one-loop and the two-loop beta function of a gauge coupling."""
        n, coupling = self.groups[group]
        own = n if n > 1 else 0
        g = couplings[coupling]
        one = -11 / 3 * own
        two = -34 / 3 * own ** 2 * g * g
        squares = lambda f: sum(couplings[c] ** 2 * self.casimir(f, k) for k, (_, c) in self.groups.items())
        for f in self.fermions:
            one += 2 / 3 * self.index(f, group)
            two += self.index(f, group) * (10 / 3 * own * g * g + 2 * squares(f))
        for f in self.scalars:
            t = self.index(f, group) * (0.5 if f.real else 1)
            one += 1 / 3 * t
            two += t * (2 / 3 * own * g * g + 4 * squares(f))
        c = self.casimir_list(group)
        for y in self.yukawas(couplings)[0]:
            two -= sum(c[i] * abs(e) ** 2 for i, row in enumerate(y) for e in row) / (n * n - 1 if n > 1 else 1)
        return one * g ** 3, two * g ** 3
