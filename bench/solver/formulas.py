"""Formulas for solvers, as DIMACS text: pigeons in holes, random clauses of three literals, adders and products that are to differ, steps of
latches and of counters, and a chain."""
import random


def dimacs(variables, clauses):
    lines = [f"p cnf {variables} {len(clauses)}"]
    lines.extend(" ".join(map(str, [*clause, 0])) for clause in clauses)
    return "\n".join(lines) + "\n"


def pigeons(holes):
    """One pigeon more than there are holes: each in a hole, no two in one."""
    def at(pigeon, hole):
        return pigeon * holes + hole + 1

    clauses = [[at(p, h) for h in range(holes)] for p in range(holes + 1)]
    for h in range(holes):
        for p in range(holes + 1):
            clauses.extend([-at(p, h), -at(q, h)] for q in range(p))
    return dimacs((holes + 1) * holes, clauses)


def random_clauses(variables, seed, ratio=4.26):
    """Clauses of three different variables with signs, as many as lie near the threshold."""
    source = random.Random(seed)
    clauses = []
    for _ in range(round(ratio * variables)):
        chosen = source.sample(range(1, variables + 1), 3)
        clauses.append([v if source.random() < 0.5 else -v for v in chosen])
    return dimacs(variables, clauses)


class Circuit:
    """Gates as clauses."""

    def __init__(self):
        self.variables, self.clauses = 0, []

    def input(self):
        self.variables += 1
        return self.variables

    def both(self, a, b):
        c = self.input()
        self.clauses += [[-c, a], [-c, b], [c, -a, -b]]
        return c

    def either(self, a, b):
        return -self.both(-a, -b)

    def differ(self, a, b):
        c = self.input()
        self.clauses += [[-c, a, b], [-c, -a, -b], [c, -a, b], [c, a, -b]]
        return c


def ripple(circuit, left, right):
    """The sum by full adders, each with the carry of the one below."""
    total, carry = [], None
    for a, b in zip(left, right):
        half = circuit.differ(a, b)
        if carry is None:
            total.append(half)
            carry = circuit.both(a, b)
        else:
            total.append(circuit.differ(half, carry))
            carry = circuit.either(circuit.both(a, b), circuit.both(half, carry))
    return [*total, carry]


def prefix(circuit, left, right):
    """The sum with carries by pairs of 'makes a carry' and 'hands one on', over twice the distance in each round."""
    halves = [circuit.differ(a, b) for a, b in zip(left, right)]
    makes = [circuit.both(a, b) for a, b in zip(left, right)]
    hands = [circuit.either(a, b) for a, b in zip(left, right)]
    distance = 1
    while distance < len(left):
        new_makes, new_hands = list(makes), list(hands)
        for i in range(distance, len(left)):
            new_makes[i] = circuit.either(makes[i], circuit.both(hands[i], makes[i - distance]))
            new_hands[i] = circuit.both(hands[i], hands[i - distance])
        makes, hands = new_makes, new_hands
        distance *= 2
    return [halves[0], *(circuit.differ(h, c) for h, c in zip(halves[1:], makes)), makes[-1]]


def adders(width):
    """A bit in which the two sums of the same words differ: there is none."""
    circuit = Circuit()
    left = [circuit.input() for _ in range(width)]
    right = [circuit.input() for _ in range(width)]
    one, two = ripple(circuit, left, right), prefix(circuit, left, right)
    circuit.clauses.append([circuit.differ(a, b) for a, b in zip(one, two)])
    return dimacs(circuit.variables, circuit.clauses)


def chain(variables):
    """'Not i, or i + 1' for each odd i, rising, then for each even one, falling, then the first variable: all are true."""
    below = range(1, variables)
    clauses = [[-i, i + 1] for i in below if i % 2 == 1]
    clauses.extend([-i, i + 1] for i in reversed(below) if i % 2 == 0)
    clauses.append([1])
    return dimacs(variables, clauses)


def product(circuit, left, right):
    """The lowest bits of the product, as many as a word has, by rows of sums."""
    width = len(left)
    total = [circuit.both(a, right[0]) for a in left]
    for shift in range(1, width):
        row = [circuit.both(a, right[shift]) for a in left[: width - shift]]
        total[shift:] = ripple(circuit, total[shift:], row)[:-1]
    return total


def products(width, word=16):
    """A bit in which the product of two words below 2^width differs from that of the same in the other order: there is none."""
    circuit = Circuit()
    left = [circuit.input() for _ in range(word)]
    right = [circuit.input() for _ in range(word)]
    one, two = product(circuit, left, right), product(circuit, right, left)
    circuit.clauses.extend([-bit] for bit in [*left[width:], *right[width:]])
    circuit.clauses.append([circuit.differ(a, b) for a, b in zip(one, two)])
    return dimacs(circuit.variables, circuit.clauses)


def step_query(circuit, before, after):
    """What k-induction asks of one scan: all that is to hold did before it, and not all does after it."""
    held, holds = before[0], after[0]
    for a, b in zip(before[1:], after[1:]):
        held, holds = circuit.both(held, a), circuit.both(holds, b)
    circuit.clauses.extend([[held], [-holds]])
    return dimacs(circuit.variables, circuit.clauses)


def latches(count):
    """A scan of so many latches 'start or run, and not stop', all of which run before it, and not all after it: there is a way."""
    circuit = Circuit()
    before, after = [], []
    for _ in range(count):
        start, run, stop = circuit.input(), circuit.input(), circuit.input()
        before.append(run)
        after.append(circuit.both(circuit.either(start, run), -stop))
    return step_query(circuit, before, after)


def choice(circuit, select, yes, no):
    """The one word where the bit is set, else the other."""
    return [circuit.either(circuit.both(select, a), circuit.both(-select, b)) for a, b in zip(yes, no)]


def is_below(circuit, left, right):
    """Whether one word is less than the other."""
    below = circuit.both(-left[0], right[0])
    for a, b in zip(left[1:], right[1:]):
        below = circuit.either(circuit.both(-a, b), circuit.both(-circuit.differ(a, b), below))
    return below


def counters(count, width=16):
    """A scan of so many counters that count up where they are told to and are below their limits, and begin anew where they are told
    to: all are at most their limits before it, and not all after it. There is none."""
    circuit = Circuit()
    before, after = [], []
    for _ in range(count):
        value, limit = [circuit.input() for _ in range(width)], [circuit.input() for _ in range(width)]
        up, reset = circuit.input(), circuit.input()
        carry, more = circuit.both(up, is_below(circuit, value, limit)), []
        counts = carry
        for bit in value:
            more.append(circuit.differ(bit, carry))
            carry = circuit.both(bit, carry)
        then = [circuit.both(-reset, bit) for bit in choice(circuit, counts, more, value)]
        before.append(-is_below(circuit, limit, value))
        after.append(-is_below(circuit, limit, then))
    return step_query(circuit, before, after)
