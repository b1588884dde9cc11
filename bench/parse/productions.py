"""SCL by plain productions, as a manual has them: a recognizer of its texts (Earley's), and random texts of it.

Nothing here is taken from the table that the readers use: no production is left-factored, priorities are one name each, and a token
is told apart only by what the production asks for. A token is after a mark where `#` or `.` stands directly before it."""
import re

PRODUCTIONS = """
source     = | source block
block      = FUNCTION_BLOCK name sections begin list END_FUNCTION_BLOCK | FUNCTION name : value sections begin list END_FUNCTION
           | ORGANIZATION_BLOCK name sections begin list END_ORGANIZATION_BLOCK | DATA_BLOCK name data starts END_DATA_BLOCK
           | TYPE name struct semicolon END_TYPE
value      = simple | VOID
begin      = | BEGIN
semicolon  = | ;
data       = name | struct semicolon
starts     = | BEGIN start_list
start_list = | start_list path := literal ;
path       = word | path . any_word | path [ integer ]
name       = word | quoted | prefix number | numbered
sections   = | sections section
section    = section_word declarations END_VAR | CONST constants END_CONST
constants  = | constants word := literal ;
declarations = | declarations words : type start ;
words      = word | words , word
start      = | := literal
type       = simple | DATE_AND_TIME | name | ARRAY [ integer .. integer ] OF type | struct
struct     = STRUCT declarations END_STRUCT
literal    = integer | TRUE | FALSE
integer    = number | - number
list       = | list statement ;
statement  = | operand := expression | operand := call | IF expression THEN list elsifs else END_IF
           | CASE expression OF branches case_else END_CASE | FOR word := expression TO expression by DO list END_FOR
           | WHILE expression DO list END_WHILE | REPEAT list UNTIL expression END_REPEAT | EXIT | CONTINUE | RETURN | call
elsifs     = | elsifs ELSIF expression THEN list
else       = | ELSE list
case_else  = | ELSE list | ELSE : list
by         = | BY literal
branches   = | branches choices : list
choices    = choice | choices , choice
choice     = constant | constant .. constant
constant   = literal | word
call       = name ( arguments ) | # marked ( arguments ) | name . marked ( arguments ) | # marked . marked ( arguments )
marked     = any_word | quoted | prefix number | numbered
arguments  = | named | expression
named      = argument | named , argument
argument   = word := expression | word => expression
operand    = word | # any_word | quoted | prefix number | numbered | address | operand . any_word | operand [ expression ]
expression = exclusive | expression OR exclusive
exclusive  = conjunction | exclusive XOR conjunction
conjunction = equality | conjunction AND equality | conjunction & equality
equality   = order | equality = order | equality <> order
order      = sum | order < sum | order > sum | order <= sum | order >= sum
sum        = product | sum + product | sum - product
product    = factor | product * factor | product / factor | product DIV factor | product MOD factor
factor     = atom | + factor | - factor | NOT factor
atom       = number | TRUE | FALSE | operand | ( expression ) | one_function ( expression )
           | MIN ( IN1 := expression , IN2 := expression ) | MAX ( IN1 := expression , IN2 := expression )
           | LIMIT ( MN := expression , IN := expression , MX := expression )
           | SEL ( G := expression , IN0 := expression , IN1 := expression )
           | SHL ( IN := expression , N := expression ) | SHR ( IN := expression , N := expression )
"""

CONVERSIONS = {"BOOL": "BYTE WORD DWORD", "BYTE": "BOOL WORD DWORD INT DINT", "WORD": "BOOL BYTE DWORD INT DINT",
               "DWORD": "BOOL BYTE WORD INT DINT", "INT": "BYTE WORD DWORD DINT", "DINT": "INT WORD DWORD TIME", "TIME": "DINT"}
ONE_FUNCTIONS = ["ABS", *(f"{one}_TO_{other}" for one, others in CONVERSIONS.items() for other in others.split())]
SIMPLE = "BOOL BYTE WORD DWORD INT DINT TIME".split()
SECTIONS = "VAR_INPUT VAR_OUTPUT VAR_IN_OUT VAR VAR_TEMP".split()
PREFIXES = "OB FB FC DB UDT".split()
# Words that stand in a production and are names elsewhere.
ARGUMENTS = "IN IN0 IN1 IN2 MN MX G N".split()
WORDS = ["a", "b", "x1", "IN", "IN1", "in2", "N", "SLW", "RET_VAL", "BOOL_TO_INT", "g", "mx", "A", "an", "_q"]

# Samples of each kind of token.
SAMPLES = {"word": WORDS, "any_word": [*WORDS, "IF", "db", "FB", "int", "NOT", "then"], "quoted": ['"q"', '"IF"'],
           "prefix": ["FB", "db", "UDT", "OB", "fc"], "numbered": ["FB1", "db22", "UDT3"], "number": ["1", "20", "16#F", "INT#-5", "T#1s"],
           "address": ["I0.1", "MW 10", "%QB3"], "simple": SIMPLE, "section_word": SECTIONS, "one_function": ["ABS", "INT_TO_DINT"]}


def read_productions():
    """The alternatives of each name."""
    found = {}
    for line in PRODUCTIONS.strip().splitlines():
        head, _, rest = line.partition("|" if line[0] == " " else " = ")
        name = head.strip() or name
        found.setdefault(name, []).extend(alternative.split() for alternative in rest.split("|"))
    return found


RULES = read_productions()
SYMBOLS = {symbol for alternatives in RULES.values() for alternative in alternatives for symbol in alternative}
RESERVED = {symbol for symbol in SYMBOLS if symbol[0].isupper() and symbol not in ARGUMENTS}
RESERVED |= {*ONE_FUNCTIONS, *SIMPLE, *SECTIONS, *PREFIXES, "NETWORK", "CALL", "UC"}


def is_word(token):
    return re.fullmatch(r"[A-Za-z_]\w*", token) is not None and not is_address(token)


def is_address(token):
    return re.fullmatch(r"%?([IQM]\d+\.\d+|[IQM][BWD] ?\d+)", token) is not None


def is_numbered(token):
    return re.fullmatch(rf"({'|'.join(PREFIXES)})\d+", token.upper()) is not None


def serves(symbol, token, marked):
    """Whether a token, after a mark or not, is what the production asks for."""
    word = token.upper()
    match symbol:
        case "word":
            return is_word(token) and not marked and word not in RESERVED and not is_numbered(token)
        case "any_word":
            return is_word(token) and marked and not is_numbered(token)
        case "quoted":
            return token[0] == '"'
        case "prefix":
            return word in PREFIXES
        case "numbered":
            return is_numbered(token)
        case "number":
            return token[0].isdigit() or re.match(r"(INT|T)#", token) is not None
        case "address":
            return is_address(token)
        case "simple" | "section_word" | "one_function":
            return not marked and word in {"simple": SIMPLE, "section_word": SECTIONS, "one_function": ONE_FUNCTIONS}[symbol]
        case _:
            return word == symbol and not (marked and is_word(token))


def nullable():
    """The names that derive the empty text."""
    found = set()
    while True:
        more = {name for name, all_of in RULES.items() if any(set(alternative) <= found for alternative in all_of)}
        if more == found:
            return found
        found = more


EMPTY = nullable()


def closed(chart, begun):
    """What may go on at a place, given what does: items of a name, an alternative, how much of it was read and where it began."""
    here, waiting, todo = set(begun), {}, list(begun)
    chart.append(waiting)

    def add(item):
        if item not in here:
            here.add(item)
            todo.append(item)

    while todo:
        name, number, dot, start = item = todo.pop()
        body = RULES[name][number]
        if dot == len(body):
            for other, its, at, begin in list(chart[start].get(name, [])):
                add((other, its, at + 1, begin))
            continue
        symbol = body[dot]
        waiting.setdefault(symbol, []).append(item)
        for k in range(len(RULES.get(symbol, []))):
            add((symbol, k, 0, len(chart) - 1))
        if symbol in EMPTY:
            add((name, number, dot + 1, start))
    return here


def fault(tokens, start):
    """The number of the first token with which no text goes on, that of the tokens where they end too early, or None."""
    chart, marked = [], False
    here = closed(chart, [(start, k, 0, 0) for k in range(len(RULES[start]))])
    for number, token in enumerate(tokens):
        taken = [(name, k, dot + 1, begin) for symbol, items in chart[-1].items() if symbol not in RULES and serves(symbol, token, marked)
                 for name, k, dot, begin in items]
        if not taken:
            return number
        marked = token in ("#", ".")
        here = closed(chart, taken)
    whole = any(name == start and begin == 0 and dot == len(RULES[name][k]) for name, k, dot, begin in here)
    return None if whole else len(tokens)


def least_sizes():
    """How many tokens and names each name takes at least."""
    sizes = dict.fromkeys(RULES, 10**6)
    for _ in RULES:
        sizes = {name: min(1 + sum(sizes.get(symbol, 1) for symbol in alternative) for alternative in RULES[name]) for name in RULES}
    return sizes


SIZES = least_sizes()


def sentence(rng, symbol, room):
    """The tokens of a random text of this symbol, of about so many tokens and names."""
    if symbol in SAMPLES:
        return [rng.choice(SAMPLES[symbol])]
    if symbol not in RULES:
        return [symbol if rng.random() < 0.8 else symbol.lower()]
    sized = [(1 + sum(SIZES.get(part, 1) for part in alternative), alternative) for alternative in RULES[symbol]]
    least = min(size for size, _ in sized)
    size, body = rng.choice([pair for pair in sized if pair[0] <= max(room, least)])
    left, found = max(0, room - size), []
    for part in body:
        share = rng.randint(0, left) if part in RULES else 0
        left -= share
        found += sentence(rng, part, SIZES.get(part, 1) + share)
    return found


POOL = sorted({token for tokens in SAMPLES.values() for token in tokens} | (SYMBOLS - set(RULES) - set(SAMPLES)) | RESERVED)


def mutated(rng, tokens):
    """These tokens with some left out, put in, replaced or swapped, or cut off."""
    tokens = list(tokens)
    for _ in range(rng.choice([1, 1, 1, 2, 3])):
        at = rng.randrange(len(tokens) + 1)
        match rng.randrange(5):
            case 0:
                del tokens[at:at + 1]
            case 1:
                tokens.insert(at, rng.choice(POOL))
            case 2:
                tokens[at:at + 1] = [rng.choice(POOL)]
            case 3:
                tokens[at:at + 2] = reversed(tokens[at:at + 2])
            case _:
                del tokens[at + 1:]
    return tokens
