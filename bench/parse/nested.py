"""Random texts of SCL that nest around 64 levels, and the place of the first part that has too many above it, told from how they were made."""

LEVELS = [["OR"], ["XOR"], ["AND", "&"], ["=", "<>"], ["<", ">="], ["+", "-"], ["*", "MOD"]]
DEPTHS = [0, 0, 10, 62, 63, 64, 65, 66, 70]


class Nested:
    """A text that is made: its tokens, and of each part its first token's number and how many parts are above it.

    Each method takes how many parts are above what it puts, and how many levels there shall be on the longest way down from it."""

    def __init__(self, rng):
        self.rng, self.tokens, self.parts = rng, [], []

    def put(self, *tokens):
        self.tokens += tokens

    def part(self, above):
        self.parts.append((len(self.tokens), above))

    def deep_among(self, count, levels):
        """The levels of each of so many things side by side, of which one goes down."""
        deep = self.rng.randrange(count)
        return [levels if i == deep else 0 for i in range(count)]

    def chain(self, level, above, levels):
        """Operands of one priority, which nest to the left: each operator is a part that begins with the first operand."""
        if level == len(LEVELS):
            self.factor(above, levels)
            return
        count = 1 if levels <= 0 or self.rng.random() < 0.75 else self.rng.randint(2, min(levels + 1, 12))
        for i in range(count - 1):
            self.part(above + i)
        rooms = self.deep_among(count, levels)
        if count > 1 and self.rng.random() < 0.7:
            rooms = [levels, *[0] * (count - 1)]
        for i in range(count):
            if i:
                self.put(self.rng.choice(LEVELS[level]))
            down = count - max(i, 1) if count > 1 else 0
            self.chain(level + 1, above + down, rooms[i] - down)

    def expression(self, above, levels):
        self.chain(0, above, levels)

    def factor(self, above, levels):
        self.part(above)
        if levels <= 0:
            self.put(self.rng.choice(["a", "1", "TRUE", "#x", '"q"', "M0.1"]))
            return
        kind = self.rng.choice(["group", "sign", "one", "two", "read", "read", "read"])
        if kind == "sign":
            self.put(self.rng.choice(["NOT", "-", "+"]))
            self.factor(above + 1, levels - 1)
        elif kind == "two":
            first, second = self.deep_among(2, levels - 1)
            self.put("MIN", "(", "IN1", ":=")
            self.expression(above + 1, first)
            self.put(",", "IN2", ":=")
            self.expression(above + 1, second)
            self.put(")")
        elif kind == "read":
            self.put(*self.rng.choice([["a"], ["#", "IF"], ['"q"'], ["FB", "1"], ["MW 2"]]))
            for room in self.deep_among(self.rng.randint(1, 3), levels - 1):
                self.put(*self.rng.choice([["["], [".", "f", "["]]))
                self.expression(above + 1, room)
                self.put("]")
        else:
            self.put(*(["ABS"] if kind == "one" else []), "(")
            self.expression(above + 1, levels - 1)
            self.put(")")

    def statements(self, above, levels):
        for room in self.deep_among(self.rng.randint(1, 3), levels):
            self.statement(above, room)
            self.put(";")

    def call(self, above, levels):
        """A call is no part: its arguments are as deep as what it stands in."""
        self.put(*self.rng.choice([["f"], ["f", ".", "g"], ["#", "f"], ["FC", "1"]]), "(")
        if self.rng.random() < 0.5:
            self.expression(above, levels)
        else:
            for number, room in enumerate(self.deep_among(self.rng.randint(1, 3), levels)):
                self.put(*[","] * (number > 0), "p", self.rng.choice([":=", "=>"]))
                self.expression(above, room)
        self.put(")")

    def statement(self, above, levels):
        self.part(above)
        if levels <= 0:
            self.put(*self.rng.choice([[], ["EXIT"], ["f", "(", ")"]]))
            return
        kind = self.rng.choice([self.assignment, self.call, self.branch, self.branch, self.case, self.loop, self.loop])
        kind(above + 1, levels - 1)

    def assignment(self, above, levels):
        """The target is no part, and an index in it is one below the statement."""
        kind = self.rng.choice(["index", "value", "call"])
        index, value = (levels, 0) if kind == "index" else (0, levels)
        self.put("a")
        if kind == "index":
            self.put("[")
            self.expression(above, index)
            self.put("]")
        self.put(":=")
        (self.call if kind == "call" else self.expression)(above, value)

    def branch(self, above, levels):
        condition, body, other, last = self.deep_among(4, levels)
        self.put("IF")
        self.expression(above, condition)
        self.put("THEN")
        self.statements(above, body)
        if other:
            self.put("ELSIF")
            self.expression(above, other)
            self.put("THEN")
        if last:
            self.put("ELSE")
            self.statements(above, last)
        self.put("END_IF")

    def case(self, above, levels):
        selector, body, last = self.deep_among(3, levels)
        self.put("CASE")
        self.expression(above, selector)
        self.put("OF", "1", "..", "c", ",", "-", "2", ":")
        self.statements(above, body)
        if last:
            self.put("ELSE", ":")
            self.statements(above, last)
        self.put("END_CASE")

    def loop(self, above, levels):
        first, last, body = self.deep_among(3, levels)
        kind = self.rng.choice(["FOR", "WHILE", "REPEAT"])
        self.put(kind)
        if kind == "FOR":
            self.put("i", ":=")
            self.expression(above, first)
            self.put("TO")
            self.expression(above, last)
            self.put("BY", "-", "1", "DO")
            self.statements(above, body)
        elif kind == "WHILE":
            self.expression(above, first + last)
            self.put("DO")
            self.statements(above, body)
        else:
            self.statements(above, body)
            self.put("UNTIL")
            self.expression(above, first + last)
        self.put(f"END_{kind}")

    def type(self, above, levels):
        self.part(above)
        if levels <= 0:
            self.put(*self.rng.choice([["INT"], ["g"], ["UDT", "1"], ["DATE_AND_TIME"], ["STRUCT", "END_STRUCT"]]))
        elif self.rng.random() < 0.4:
            self.put("ARRAY", "[", "-", "1", "..", "2", "]", "OF")
            self.type(above + 1, levels - 1)
        else:
            self.put("STRUCT")
            self.declarations(above + 1, levels - 1)
            self.put("END_STRUCT")

    def declarations(self, above, levels):
        for room in self.deep_among(self.rng.randint(1, 3), levels):
            self.put("v", *([] if room else self.rng.choice([[], [",", "w"]])), ":")
            self.type(above, room)
            self.put(*self.rng.choice([[], [":=", "1"]]), ";")

    def source(self):
        for _ in range(self.rng.randint(1, 3)):
            levels = self.rng.choice(DEPTHS)
            kind = self.rng.choice(["FUNCTION_BLOCK", "TYPE", "DATA_BLOCK"])
            self.put(kind, "n", "VAR" if kind == "FUNCTION_BLOCK" else "STRUCT")
            self.declarations(0, self.rng.choice([0, 3, 62, 63, 64]) if kind == "FUNCTION_BLOCK" else levels)
            self.put("END_VAR" if kind == "FUNCTION_BLOCK" else "END_STRUCT")
            if kind == "FUNCTION_BLOCK":
                self.statements(0, levels)
            self.put(f"END_{kind}")

    def first_too_deep(self, most=64):
        """The number of the first token of the first part that has so many parts above it."""
        return min((at for at, above in self.parts if above >= most), default=None)
