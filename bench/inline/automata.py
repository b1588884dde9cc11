#!/usr/bin/env python3
"""Random automata with call edges, run with calls and run as what `inline` makes of them: the same end, and the same values.

Usage: automata.py [cases] [seed] (200, 1). It has bench/inline/program.txt tried by `rt try`, which runs it without a proof: that such
automata are well made and fit each other is so by the way they are drawn. A run takes at each location with several edges the one that a list
of random numbers says, so no guards are needed. It prints how many runs were compared."""
import random
import sys

sys.dont_write_bytecode = True
from trial import tried  # noqa: E402


class Block:
    """Edges are (from, to, set variable, 0 and a constant or 1 and a variable), calls (from, to, block, instance), loops (first, last,
    whether entering starts a turn, place, turn edges), ends (0 a trap or 1 over, location, place)."""

    def __init__(self, number, bound, shared, roles):
        self.number, self.bound, self.shared, self.roles = number, bound, shared, roles
        self.edges, self.calls, self.loops, self.ends, self.count = [], [], [], [], 0

    def own(self):
        return len(self.roles) - self.bound - self.shared

    def draw(self, rng, blocks):
        self.rng, self.blocks = rng, blocks
        self.body(0)
        self.done = self.count
        named = {"done": self.done, "trap": self.done + 1, "over": self.done + 2}
        self.edges = [(a, named.get(b, b), *rest) for a, b, *rest in self.edges]
        for kind in (0, 1):
            self.ends.append((kind, self.done + 1 + kind, self.number * 1000 + 900 + kind))
        self.count += 3

    def edge(self, at, to):
        kind = self.rng.randint(0, 1) if self.roles else 0
        value = self.rng.randrange(len(self.roles)) if kind else self.rng.randrange(50)
        self.edges.append((at, to, self.rng.randrange(len(self.roles)), kind, value))

    def location(self):
        self.count += 1
        return self.count - 1

    def called(self, at, to):
        """A call edge, if some block may be called."""
        fit = [b for b in self.blocks[self.number + 1 :] if b.bound <= len(self.roles)]
        if not fit or self.rng.random() < 0.5:
            return False
        callee = self.rng.choice(fit)
        self.calls.append((at, to, callee.number, self.rng.randint(0, len(self.roles) - callee.bound)))
        return True

    def checks(self, at):
        for end in ("trap", "over", "done"):
            if self.rng.random() < 0.06:
                self.edge(at, end)

    def body(self, depth):
        for _ in range(self.rng.randint(1, 3)):
            kind = self.rng.random()
            if depth < 2 and kind < 0.2:
                self.turning(depth)
            elif depth < 2 and kind < 0.4:
                self.tested(depth)
            else:
                at = self.location()
                if not self.called(at, at + 1):
                    self.checks(at)
                    self.edge(at, at + 1)

    def turning(self, depth):
        """A loop of which entering starts a turn."""
        first, mine = self.count, len(self.loops)
        self.loops.append(None)
        self.body(depth + 1)
        last = self.location()
        turns = [len(self.edges)]
        self.edge(last, first)
        if self.rng.random() < 0.8:
            self.edge(last, last + 1)
        self.loops[mine] = (first, last, 1, self.number * 1000 + first, *turns)

    def tested(self, depth):
        """A loop of which each pass of the first location starts a turn."""
        first, mine = self.location(), len(self.loops)
        self.loops.append(None)
        self.checks(first)
        turns = [len(self.edges)]
        self.edge(first, first + 1)
        self.body(depth + 1)
        last = self.location()
        if not self.called(last, first):
            self.edge(last, first)
        self.edge(first, last + 1)
        self.loops[mine] = (first, last, 0, self.number * 1000 + first, *turns)

    def line(self):
        def told(things):
            return ", ".join(" ".join(map(str, thing)) for thing in things)

        head = f"{self.bound} {self.shared} {self.count} {self.done} | {' '.join(map(str, self.roles))}"
        return f"{head} | {told(self.edges)} | {told(self.calls)} | {told(self.loops)} | {told(self.ends)}"


class Spent(Exception):
    """No choice is left."""


def needed(blocks, block):
    return block.own() + sum(needed(blocks, blocks[call[2]]) for call in block.calls)


def moved(loops, at, to, counts):
    """Counts behind an edge that is no turn."""
    return [
        (counts[i] if first <= at <= last else entry) if first <= to <= last else 0
        for i, (first, last, entry, *_) in enumerate(loops)
    ]


def run(blocks, block, place, free, w, choices, bound):
    """By the definition of runs with calls; `w` has the values."""
    at, ends = 0, {location: (kind, where) for kind, location, where in block.ends}
    counts = [entry if first == 0 else 0 for first, _, entry, *_ in block.loops]
    while True:
        if at == block.done:
            return "done"
        if at in ends:
            return ends[at]
        calls = [(j, call) for j, call in enumerate(block.calls) if call[0] == at]
        if calls:
            j, (_, to, number, instance) = calls[0]
            callee = blocks[number]
            base = free + sum(needed(blocks, blocks[call[2]]) for call in block.calls[:j])
            own = callee.bound + callee.shared
            inner = [place[instance + x] for x in range(callee.bound)]
            inner += [place[block.bound + x] for x in range(callee.shared)]
            inner += [base + x for x in range(callee.own())]
            for x, role in enumerate(callee.roles):
                if x >= own or (x < callee.bound and role == 1):
                    w[inner[x]] = 0
            end = run(blocks, callee, inner, base + callee.own(), w, choices, bound)
            if end != "done":
                return end
            counts, at = moved(block.loops, at, to, counts), to
            continue
        ways = [n for n, edge in enumerate(block.edges) if edge[0] == at]
        taken = ways[next(choices) % len(ways)] if len(ways) > 1 else ways[0]
        _, to, x, kind, value = block.edges[taken]
        w[place[x]] = w[place[value]] if kind else value
        past, after = None, []
        for i, (first, last, entry, where, *turns) in enumerate(block.loops):
            count = counts[i]
            if taken in turns:
                past = where if count == bound and past is None else past
                count += 1
            held = first <= at <= last
            after.append((count if held else entry) if first <= to <= last else 0)
        if past is not None:
            return (1, past)
        counts, at = after, to


class Copy:
    """What the program says."""

    def __init__(self, line):
        head, edges, loops, ends = line.split("|")
        self.count, self.done, self.vars = map(int, head.split())
        self.edges = []
        for said in edges.split(";")[:-1]:
            way, *sets = said.split(",")
            self.edges.append((*map(int, way.split()), [tuple(map(int, one.split())) for one in sets]))
        self.loops = [tuple(map(int, said.split())) for said in loops.split(";")[:-1]]
        self.ends = {location: (kind, where) for kind, location, where in (map(int, e.split()) for e in ends.split(";")[:-1])}
        assert [edge[0] for edge in self.edges] == sorted(edge[0] for edge in self.edges)

    def run(self, w, choices, bound):
        at, counts = 0, [entry if first == 0 else 0 for first, _, entry, *_ in self.loops]
        ways_at = {}
        for n, edge in enumerate(self.edges):
            ways_at.setdefault(edge[0], []).append(n)
        while True:
            if at == self.done:
                return "done"
            if at in self.ends:
                return self.ends[at]
            ways = ways_at[at]
            taken = ways[next(choices) % len(ways)] if len(ways) > 1 else ways[0]
            _, to, sets = self.edges[taken]
            old = list(w)
            for x, kind, value in sets:
                w[x] = old[value] if kind else value
            past, after = None, []
            for i, (first, last, entry, where, *turns) in enumerate(self.loops):
                count = counts[i]
                if taken in turns:
                    past = where if count == bound and past is None else past
                    count += 1
                after.append((count if first <= at <= last else entry) if first <= to <= last else 0)
            if past is not None:
                return (1, past)
            counts, at = after, to


def drawn(rng):
    shared = rng.randint(0, 2)
    blocks = []
    for number in range(rng.randint(1, 4)):
        bound = rng.randint(0, 3)
        own = rng.randint(1, 2)
        blocks.append(Block(number, bound, shared, [rng.randint(0, 1) for _ in range(bound + shared + own)]))
    for block in blocks:
        block.draw(rng, blocks)
    return blocks


def chosen(numbers):
    yield from numbers
    raise Spent


def main():
    count = int(sys.argv[1]) if len(sys.argv) > 1 else 200
    rng = random.Random(int(sys.argv[2]) if len(sys.argv) > 2 else 1)
    cases = [(drawn(rng), rng.randint(1, 3)) for _ in range(count)]
    text = "".join("".join(block.line() + "\n" for block in blocks) + f"go {bound}\n" for blocks, bound in cases)
    lines = tried(text)
    assert len(lines) == count, (len(lines), lines[:3])
    runs, how, calls = 0, {}, 0
    for (blocks, bound), line in zip(cases, lines, strict=True):
        if "large" in line:
            continue
        copy, entry = Copy(line), blocks[0]
        size = len(entry.roles) + sum(needed(blocks, blocks[call[2]]) for call in entry.calls)
        assert copy.vars == size, (line, size)
        calls += len(entry.calls)
        for _ in range(8):
            numbers = [rng.randrange(60) for _ in range(300)]
            first = [rng.randrange(50) for _ in range(size)]
            second = list(first)
            try:
                end = run(blocks, entry, list(range(len(entry.roles))), len(entry.roles), first, chosen(numbers), bound)
            except Spent:
                continue
            other = copy.run(second, chosen(numbers), bound)
            assert end == other and (end != "done" or first == second), (text, line, end, other, first, second)
            runs += 1
            kind = end if end == "done" else ("trap", "over")[end[0]]
            how[kind] = how.get(kind, 0) + 1
    print(f"{count} cases, {calls} calls of entries, {runs} runs: {how}")


main()
