#!/usr/bin/env python3
"""Random automata with loops, run with counts of turns and run as what `copy_loops` makes of them: the same deeds, and the same end.

Usage: automata.py PROGRAM [automata] [seed] (2,000, 1). PROGRAM is pv_rows_flow as built (crates/pv_rows_flow/out/pv_rows_flow). A run takes
at each location the edge that a list of random numbers says, so no guards are needed. It prints how many runs were compared."""
import random
import subprocess
import sys


class Automaton:
    """Locations by number; `edges` are pairs, `loops` are (first, last, whether entering starts a turn, turn edges)."""

    def __init__(self, rng):
        self.rng, self.count, self.edges, self.loops, self.open_ends = rng, 0, [], [], []
        self.body(0)
        self.done = self.count
        self.trap = self.count + 1
        self.over = self.count + 2
        names = {"done": self.done, "trap": self.trap, "over": self.over}
        self.edges = [(a, names.get(b, b)) for a, b in self.edges]

    def location(self):
        self.count += 1
        return self.count - 1

    def checks(self, at):
        """Some edges to ends."""
        for end in ("trap", "over", "done"):
            if self.rng.random() < 0.08:
                self.edges.append((at, end))

    def body(self, depth):
        """Some locations one after another, each with an edge to the next one, which may be past what is drawn here."""
        for _ in range(self.rng.randint(1, 3)):
            kind = self.rng.random()
            if depth < 3 and kind < 0.25:
                self.turning(depth)
            elif depth < 3 and kind < 0.5:
                self.tested(depth)
            else:
                at = self.location()
                self.checks(at)
                self.edges.append((at, at + 1))
                self.skips(at)

    def skips(self, at):
        """An edge past some locations, which are drawn later or are the end."""
        if self.rng.random() < 0.2:
            self.open_ends.append((len(self.edges), at))
            self.edges.append((at, at + self.rng.randint(1, 4)))

    def turning(self, depth):
        """A loop of which entering starts a turn."""
        first = self.count
        mine = len(self.loops)
        self.loops.append(None)
        self.body(depth + 1)
        last = self.location()
        turns = [len(self.edges)]
        self.edges.append((last, first))
        if self.rng.random() < 0.8:
            self.edges.append((last, last + 1))
        tests = {drawn[0] for drawn in self.loops[mine + 1 :] if not drawn[2]}
        for at in range(first, last):
            # (at the first location of such a loop this would be a turn of both)
            if at not in tests and self.rng.random() < 0.15:
                turns.append(len(self.edges))
                self.edges.append((at, first))
        self.loops[mine] = (first, last, 1, turns)

    def tested(self, depth):
        """A loop of which each pass of the first location starts a turn, at which no other loop begins."""
        first = self.location()
        mine = len(self.loops)
        self.loops.append(None)
        self.checks(first)
        turns = [len(self.edges)]
        if self.rng.random() < 0.15:
            self.edges.append((first, first))
            last = first
        else:
            self.edges.append((first, first + 1))
            self.body(depth + 1)
            last = self.location()
            self.checks(last)
            self.edges.append((last, first))
        self.edges.append((first, last + 1))
        self.loops[mine] = (first, last, 0, turns)

    def mended(self):
        """Without edges past the end or into the middle of a loop, which `build` would refuse."""
        for number, at in self.open_ends:
            to = min(self.edges[number][1], self.done)
            while any(first < to <= last and not first <= at <= last for first, last, _, _ in self.loops):
                to += 1
            self.edges[number] = (at, to)
        # in a loop that has no entry turn each edge from its first location into it starts a turn
        for first, last, entry, turns in self.loops:
            for number, (at, to) in enumerate(self.edges):
                if not entry and at == first and first <= to <= last and number not in turns:
                    turns.append(number)
        return self

    def row(self, bound):
        loops = ", ".join(" ".join(map(str, (a, b, e, *turns))) for a, b, e, turns in self.loops)
        edges = ", ".join(f"{a} {b}" for a, b in self.edges)
        return f"row {bound} {self.over + 1} {self.done} | {loops} | {edges} | t {self.trap}, o {self.over}"

    def run(self, bound, choices):
        """By the definition: deeds, and how it ends."""
        at, counts, deeds = 0, [entry if first == 0 else 0 for first, _, entry, _ in self.loops], []
        for choice in choices:
            if at == self.done:
                return deeds, "done"
            if at >= self.trap:
                return deeds, f"{'trap' if at == self.trap else 'over'} {at}"
            ways = [n for n, (a, _) in enumerate(self.edges) if a == at]
            taken = ways[choice % len(ways)]
            to = self.edges[taken][1]
            deeds.append(taken)
            past = None
            for i, (first, last, entry, turns) in enumerate(self.loops):
                before, inside = first <= at <= last, first <= to <= last
                if taken in turns:
                    if counts[i] == bound:
                        past = first if past is None else past
                    counts[i] += 1
                counts[i] = 0 if not inside else counts[i] if before else entry
            if past is not None:
                return deeds, f"over {past}"
            at = to
        return deeds, "on"


def copies(line):
    """What the program says: edges by location, ends."""
    fields = [field.strip().split(" ") for field in line.split(": ", 1)[1].split(";")]
    edges, traps, overs = fields[2][1:], fields[3][1:], fields[4][1:]
    ways = {}
    for edge in edges:
        at, _, rest = edge.partition(">")
        to, _, deed = rest.partition("/")
        assert int(at) < int(to), line
        ways.setdefault(int(at), []).append((int(to), int(deed)))
    ends = {int(fields[1][1]): "done"}
    for name, said in (("trap", traps), ("over", overs)):
        for one in said:
            at, _, place = one.partition("@")
            assert int(at) not in ends, line
            ends[int(at)] = f"{name} {place}"
    return ways, ends


def run_copies(ways, ends, choices):
    at, deeds = 0, []
    for choice in choices:
        if at in ends:
            return deeds, ends[at]
        to, deed = ways[at][choice % len(ways[at])]
        deeds.append(deed)
        at = to
    return deeds, "on"


def main():
    program = sys.argv[1]
    count = int(sys.argv[2]) if len(sys.argv) > 2 else 2000
    rng = random.Random(int(sys.argv[3]) if len(sys.argv) > 3 else 1)
    drawn = [(Automaton(rng).mended(), rng.randint(1, 4)) for _ in range(count)]
    text = "\npart drawn\nshow edges\n" + "\n".join(a.row(bound) for a, bound in drawn) + "\n"
    said = subprocess.run([program], input=text, capture_output=True, text=True, check=True).stdout.splitlines()
    runs, how = 0, {}
    for (automaton, bound), line in zip(drawn, said, strict=True):
        if "too many" in line:
            continue
        ways, ends = copies(line)
        for _ in range(8):
            choices = [rng.randrange(60) for _ in range(400)]
            first, second = automaton.run(bound, choices), run_copies(ways, ends, choices)
            assert first == second, (automaton.row(bound), line, choices, first, second)
            runs += 1
            how[first[1].split()[0]] = how.get(first[1].split()[0], 0) + 1
    print(f"{count} automata, {runs} runs: {how}")


main()
