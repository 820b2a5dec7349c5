"""Random values in C, for the random programs of random_programs.py.

A program computes numbers of all integer types and ends with one number, the digest of all that it came to. An interval goes
with each expression, so that nothing is written that C gives no meaning: no sum that its type doesn't hold, no quotient by 0, no
shift by too much, no index beyond. An expression that has effects stands alone with what it changes.
"""


class Rolls:
    """Numbers that are the same everywhere for the same seed (splitmix64)."""

    def __init__(self, seed):
        self.state = seed % 2**64

    def word(self):
        self.state = (self.state + 0x9E3779B97F4A7C15) % 2**64
        word = self.state
        word = (word ^ (word >> 30)) * 0xBF58476D1CE4E5B9 % 2**64
        word = (word ^ (word >> 27)) * 0x94D049BB133111EB % 2**64
        return word ^ (word >> 31)

    def below(self, count):
        return self.word() % count

    def one_of(self, things):
        return things[self.below(len(things))]

    def hits(self, percent):
        return self.below(100) < percent


class Type:
    """An integer type: its name, its width, and its rank where numbers meet."""

    def __init__(self, name, bits, signed, rank):
        self.name, self.bits, self.signed, self.rank = name, bits, signed, rank
        self.low = -(2 ** (bits - 1)) if signed else 0
        self.high = 2 ** (bits - 1) - 1 if signed else 2**bits - 1


BOOL = Type("_Bool", 8, False, 0)
BOOL.high = 1
CHAR, SCHAR, UCHAR = Type("char", 8, True, 1), Type("signed char", 8, True, 1), Type("unsigned char", 8, False, 1)
SHORT, USHORT = Type("short", 16, True, 2), Type("unsigned short", 16, False, 2)
INT, UINT = Type("int", 32, True, 3), Type("unsigned", 32, False, 3)
LONG, ULONG = Type("long", 64, True, 4), Type("unsigned long", 64, False, 4)
LLONG, ULLONG = Type("long long", 64, True, 5), Type("unsigned long long", 64, False, 5)
TYPES = [BOOL, CHAR, SCHAR, UCHAR, SHORT, USHORT, INT, INT, INT, UINT, UINT, LONG, LONG, ULONG, LLONG, ULLONG]
UNSIGNED = {INT: UINT, LONG: ULONG, LLONG: ULLONG}
WORDS = {8: [SCHAR, UCHAR], 16: [SHORT, USHORT], 32: [INT, UINT], 64: [LONG, ULONG]}
OTHER_NAMES = {
    "short": ["short int", "int16_t", "signed short"], "unsigned short": ["uint16_t", "short unsigned"],
    "int": ["int32_t", "signed", "signed int"], "unsigned": ["uint32_t", "unsigned int"],
    "long": ["long int", "int64_t", "ptrdiff_t"], "unsigned long": ["uint64_t", "size_t", "long unsigned int"],
    "long long": ["long long int"], "unsigned long long": ["long long unsigned"], "unsigned char": ["uint8_t"],
    "signed char": ["int8_t"],
}


class Array:
    def __init__(self, of, count):
        self.of, self.count = of, count


class Record:
    """A struct or a union, by its name and its members."""

    def __init__(self, name, members, is_union=False):
        self.name, self.members, self.is_union = name, members, is_union


class Value:
    """A text, how tightly its last sign binds, its type, and the interval that it is in."""

    def __init__(self, text, level, kind, low, high):
        self.text, self.level, self.kind, self.low, self.high = text, level, kind, low, high

    def within(self, level):
        return self.text if self.level >= level else f"({self.text})"


class Variable:
    """A name that is in scope; one that is kept isn't assigned to; one that is own has no other name."""

    def __init__(self, name, kind, kept=False, low=None, high=None, own=True):
        self.name, self.kind, self.kept, self.low, self.high, self.own = name, kind, kept, low, high, own


class Pointer:
    """A pointer to elements, of which those from `low` to `high` are there."""

    def __init__(self, name, kind, low, high):
        self.name, self.kind, self.low, self.high = name, kind, low, high


class Function:
    def __init__(self, name, result, takes, cost, pure, counted=False):
        self.name, self.result, self.takes, self.cost, self.pure, self.counted = name, result, takes, cost, pure, counted


LEVELS = {
    "||": 2, "&&": 3, "|": 4, "^": 5, "&": 6, "==": 7, "!=": 7, "<": 8, ">": 8, "<=": 8, ">=": 8, "<<": 9, ">>": 9, "+": 10,
    "-": 10, "*": 11, "/": 11, "%": 11,
}
COMMA, ASSIGN, CHOICE, BEFORE, ALONE = 0, 0.5, 1, 12, 13


def promoted(kind):
    return kind if kind.rank >= 3 else INT


def meeting(one, two):
    """The type in which two numbers meet (C11, 6.3.1.8)."""
    one, two = promoted(one), promoted(two)
    if one.signed == two.signed:
        return one if one.rank >= two.rank else two
    unsigned, signed = (two, one) if one.signed else (one, two)
    if unsigned.rank >= signed.rank:
        return unsigned
    return signed if signed.bits > unsigned.bits else UNSIGNED[signed]


def as_kind(kind, low, high):
    """The interval of what is converted to a type."""
    if kind is BOOL:
        return (1, 1) if low > 0 or high < 0 else (0, 0) if low == high == 0 else (0, 1)
    return (low, high) if kind.low <= low and high <= kind.high else (kind.low, kind.high)


def literal(rolls, number, kind):
    """A number as a constant of just this type, int or wider."""
    if number < 0:
        if number == kind.low:
            return f"({literal(rolls, number + 1, kind).strip('()')} - 1)"
        return f"(-{literal(rolls, -number, kind)})"
    ends = {INT: [""], UINT: ["u", "U"], LONG: ["l", "L"], ULONG: ["ul", "UL", "lu"], LLONG: ["ll", "LL"], ULLONG: ["ull", "ULL"]}
    form = rolls.below(6)
    text = f"0x{number:x}" if form == 0 else f"0{number:o}" if form == 1 else str(number)
    return text + rolls.one_of(ends[kind])


CHARACTERS = {"'a'": 97, "'0'": 48, "'\\n'": 10, "'\\''": 39, "'\\\\'": 92, "'\\x41'": 65, "'\\377'": -1, "'\\0'": 0, "'\"'": 34, "'\\x80'": -128}


class Values:
    """Writes values for a program of a seed, with this before each name of the file."""

    def __init__(self, seed, prefix=""):
        self.rolls, self.prefix, self.lines, self.depth = Rolls(seed), prefix, [], 0
        self.scopes, self.count, self.functions, self.records, self.globals = [[]], 0, [], [], []
        self.enums, self.times, self.spent, self.pure, self.loops, self.typedefs = [], 1, 0, False, 0, {}
        self.tables, self.banned, self.result, self.in_switch, self.macros = [], set(), None, 0, []

    # ---- names and lines

    def name(self, letter):
        self.count += 1
        return f"{letter}{self.count}"

    def top(self, letter):
        return self.prefix + self.name(letter)

    def line(self, text):
        self.lines.append("    " * self.depth + text)

    def type_name(self, kind):
        if isinstance(kind, Record):
            return ("union " if kind.is_union else "struct ") + kind.name
        named = self.typedefs.get(kind)
        if named and self.rolls.hits(30):
            return named
        names = OTHER_NAMES.get(kind.name)
        return self.rolls.one_of(names) if names and self.rolls.hits(25) else kind.name

    def declared(self, kind, name):
        bounds = ""
        while isinstance(kind, Array):
            bounds += f"[{kind.count}]"
            kind = kind.of
        return f"{self.type_name(kind)} {name}{bounds}"

    # ---- places

    def index(self, count, depth):
        """An index below a count."""
        rolls = self.rolls
        form = rolls.below(10)
        if form < 4 or depth <= 0:
            loops = [v for v in self.visible() if isinstance(v.kind, Type) and v.low is not None and v.low >= 0 and v.high < count]
            if loops and rolls.hits(75):
                return rolls.one_of(loops).name
            return str(rolls.below(count))
        value = self.value(depth - 1)
        if 0 <= value.low and value.high < count:
            return value.text
        if count & (count - 1) == 0 and form < 7:
            return f"{value.within(LEVELS['&'])} & {count - 1}"
        if value.low >= 0:
            return f"{value.within(LEVELS['%'])} % {count}"
        return f"(unsigned){value.within(BEFORE)} % {count}"

    def visible(self):
        found = {}
        for scope in self.scopes:
            for variable in scope:
                found[variable.name] = variable
        return [v for v in found.values() if isinstance(v, Variable) and v.name not in self.banned]

    def pointers(self):
        return [p for scope in self.scopes for p in scope if isinstance(p, Pointer)]

    def down(self, text, kind, depth, wanted=Type):
        """A place in a place, of a scalar or of a record."""
        while not isinstance(kind, wanted):
            if isinstance(kind, Array):
                if self.rolls.hits(12) and isinstance(kind.of, Type):
                    text, kind = f"(*({text} + ({self.index(kind.count, depth)})))", kind.of
                else:
                    text, kind = f"{text}[{self.index(kind.count, depth)}]", kind.of
            elif isinstance(kind, Record):
                member, inner = self.rolls.one_of(kind.members)
                text, kind = f"{text}.{member}", inner
            else:
                return None
        return text, kind

    def place(self, depth, written, wanted=Type):
        """A place of a scalar: its text, its type, and the interval of what it has."""
        rolls = self.rolls
        for _ in range(20):
            pointers = self.pointers()
            if pointers and rolls.hits(25) and not (written and self.pure):
                pointer = rolls.one_of(pointers)
                found = self.through(pointer, depth, wanted)
            else:
                variables = [v for v in self.visible() if not (written and (v.kept or (self.pure and v in self.globals)))]
                if not variables:
                    return None
                variable = rolls.one_of(variables)
                if wanted is Type and variable.low is not None:
                    return variable.name, variable.kind, variable.low, variable.high
                found = self.down(variable.name, variable.kind, depth, wanted)
            if found:
                text, kind = found
                return text, kind, getattr(kind, "low", 0), getattr(kind, "high", 0)
        return None

    def through(self, pointer, depth, wanted):
        at = pointer.low + self.rolls.below(pointer.high - pointer.low + 1)
        if isinstance(pointer.kind, Record) and at == 0 and wanted is Type:
            member, inner = self.rolls.one_of(pointer.kind.members)
            return self.down(f"{pointer.name}->{member}", inner, depth, wanted)
        form = self.rolls.below(3)
        text = f"(*{pointer.name})" if at == 0 and form else f"{pointer.name}[{at}]" if form < 2 else f"(*({pointer.name} + {at}))"
        if at < 0 and form == 2:
            text = f"(*({pointer.name} - {-at}))"
        return self.down(text, pointer.kind, depth, wanted)

    # ---- values

    def constant(self):
        rolls = self.rolls
        form = rolls.below(12)
        if form == 0:
            text = rolls.one_of(sorted(CHARACTERS))
            return Value(text, ALONE, INT, CHARACTERS[text], CHARACTERS[text])
        if form == 1 and self.enums:
            name, number = rolls.one_of(self.enums)
            return Value(name, ALONE, INT, number, number)
        if form == 2:
            kind = rolls.one_of(TYPES)
            size = kind.bits // 8
            return Value(f"sizeof({self.type_name(kind)})", ALONE, ULONG, size, size)
        if form == 3 and rolls.hits(50):
            return self.bare()
        kind = rolls.one_of([INT, INT, INT, INT, UINT, LONG, ULONG, LLONG, ULLONG])
        number = rolls.below(rolls.one_of([4, 4, 10, 100, 300, 70000, 2**31, 2**63]))
        if kind.signed and rolls.hits(20):
            number = -number
        if rolls.hits(3):
            number = rolls.one_of([kind.low, kind.high])
        number = max(kind.low, min(number, kind.high))
        return Value(literal(rolls, number, kind), ALONE, kind, number, number)

    def bare(self):
        """A large number without an end, whose type is the first that holds it (C11, 6.4.4.1)."""
        number = self.rolls.one_of([2**31 - 1, 2**31, 2**32 - 1, 2**32, 2**63 - 1, 3 * 10**9, 2**40 + 7, 2**63, 2**64 - 1])
        decimal = self.rolls.hits(50) and number < 2**63
        kinds = [INT, LONG] if decimal else [INT, UINT, LONG, ULONG]
        kind = next(kind for kind in kinds if number <= kind.high)
        text = str(number) if decimal else self.rolls.one_of([f"0x{number:x}", f"0X{number:X}", f"0{number:o}"])
        return Value(text, ALONE, kind, number, number)

    def leaf(self, depth):
        if self.rolls.hits(25):
            return self.constant()
        if self.rolls.hits(6):
            special = self.rolls.one_of([self.size, self.of_result, self.of_choice, self.by_macro])(depth)
            if special:
                return special
        found = self.place(depth - 1, False)
        if not found:
            return self.constant()
        text, kind, low, high = found
        return Value(text, ALONE, kind, low, high)

    def size(self, depth):
        """A size, of a type, a place or a value, of which none is computed."""
        rolls = self.rolls
        variables = self.visible()
        if not variables or rolls.hits(30):
            kind = rolls.one_of(self.records) if self.records and rolls.hits(50) else rolls.one_of(TYPES)
            return Value(f"sizeof({self.type_name(kind)})", ALONE, ULONG, 1, 2**40)
        variable = rolls.one_of(variables)
        if rolls.hits(40):
            value = self.value(min(depth, 1))
            return Value(f"sizeof({value.text})", ALONE, ULONG, 1, 2**40)
        if isinstance(variable.kind, Array) and variable.name[0] != "a":
            return Value(f"(sizeof {variable.name} / sizeof {variable.name}[0])", ALONE, ULONG, 1, 2**40)
        return Value(f"sizeof {variable.name}", BEFORE, ULONG, 1, 2**40)

    def of_result(self, depth):
        """A member of what a call gives."""
        fitting = [f for f in self.functions if f.pure and isinstance(f.result, Record) and self.fits(f)]
        if not fitting:
            return None
        function = self.rolls.one_of(fitting)
        given = self.given(function, 2)
        if given is None:
            return None
        self.spent += self.times * function.cost
        text, kind = self.down(f"{function.name}({', '.join(given)})", function.result, 1)
        # (what an element of an array in a result is taken by is a pointer into it: no compiler minds)
        return Value(text, ALONE, kind, kind.low, kind.high)

    def of_choice(self, depth):
        """A member of one of two records."""
        if not self.records:
            return None
        record = self.rolls.one_of(self.records)
        one, two = self.record(record), self.record(record)
        if not one or not two:
            return None
        text, kind = self.down(f"({self.value(1).within(2)} ? {one} : {two})", record, 1)
        return Value(text, ALONE, kind, kind.low, kind.high)

    def by_macro(self, depth):
        if not self.macros:
            return None
        name, body = self.rolls.one_of(self.macros)
        one, two = self.value(depth - 1), self.value(depth - 1)
        made = body(self, Value("", ALONE, one.kind, one.low, one.high), Value("", ALONE, two.kind, two.low, two.high))
        return Value(f"{name}({one.within(ASSIGN)}, {two.within(ASSIGN)})", ALONE, made.kind, made.low, made.high)

    def narrow(self, value):
        """What holds a smaller number than a value does."""
        rolls, kind = self.rolls, promoted(value.kind)
        form = rolls.below(5)
        if form == 0:
            mask = rolls.one_of([1, 7, 15, 255, 1023])
            return Value(f"{value.within(6)} & {mask}", 6, kind, 0, mask)
        if form == 1:
            by = rolls.one_of([3, 7, 10, 97, 1000])
            return Value(f"{value.within(11)} % {by}", 11, kind, 1 - by if value.low < 0 else 0, by - 1)
        narrow = rolls.one_of([SCHAR, UCHAR, SHORT, USHORT, CHAR, BOOL])
        low, high = as_kind(narrow, value.low, value.high)
        return Value(f"({self.type_name(narrow)}){value.within(BEFORE)}", BEFORE, narrow, low, high)

    def value(self, depth):
        rolls = self.rolls
        if depth <= 0:
            return self.leaf(depth)
        form = rolls.below(100)
        if form < 22:
            return self.leaf(depth)
        if form < 44:
            return self.sum(rolls.one_of(["+", "-", "*", "+", "-"]), self.value(depth - 1), self.value(depth - 1))
        if form < 52:
            return self.quotient(rolls.one_of(["/", "%"]), self.value(depth - 1), self.value(depth - 1))
        if form < 58:
            return self.shift(rolls.one_of(["<<", ">>"]), self.value(depth - 1), self.value(depth - 1))
        if form < 66:
            return self.bits(rolls.one_of(["&", "|", "^"]), self.value(depth - 1), self.value(depth - 1))
        if form < 76:
            return self.test(rolls.one_of(["<", ">", "<=", ">=", "==", "!=", "&&", "||"]), depth)
        if form < 81:
            return self.choice(depth)
        if form < 87:
            return self.before(self.value(depth - 1))
        if form < 93:
            kind = rolls.one_of(TYPES)
            value = self.value(depth - 1)
            low, high = as_kind(kind, value.low, value.high)
            return Value(f"({self.type_name(kind)}){value.within(BEFORE)}", BEFORE, kind, low, high)
        if form < 95:
            first, value = self.value(depth - 2), self.value(depth - 1)
            return Value(f"({first.within(ASSIGN)}, {value.within(ASSIGN)})", ALONE, value.kind, value.low, value.high)
        return self.called(depth) or self.leaf(depth)

    def sum(self, sign, one, two):
        for _ in range(4):
            kind = meeting(one.kind, two.kind)
            (a, b), (c, d) = as_kind(kind, one.low, one.high), as_kind(kind, two.low, two.high)
            ends = [a + c, b + d] if sign == "+" else [a - d, b - c] if sign == "-" else [a * c, a * d, b * c, b * d]
            low, high = min(ends), max(ends)
            is_held = kind.low <= low and high <= kind.high
            if is_held or not kind.signed:
                low, high = (low, high) if is_held else (kind.low, kind.high)
                level = LEVELS[sign]
                return Value(f"{one.within(level)} {sign} {two.within(level + 1)}", level, kind, low, high)
            if self.rolls.hits(30):
                one = Value(f"({UNSIGNED[kind].name}){one.within(BEFORE)}", BEFORE, UNSIGNED[kind], *as_kind(UNSIGNED[kind], one.low, one.high))
            elif abs(one.low) + abs(one.high) > abs(two.low) + abs(two.high):
                one = self.narrow(one)
            else:
                two = self.narrow(two)
        return one

    def quotient(self, sign, one, two):
        kind = meeting(one.kind, two.kind)
        (a, b), (c, d) = as_kind(kind, one.low, one.high), as_kind(kind, two.low, two.high)
        if c <= 0 <= d:
            two = Value(f"({two.within(4)} | 1)", ALONE, promoted(two.kind), promoted(two.kind).low, promoted(two.kind).high)
            if c >= 0 and d < 2**62:
                two.low, two.high = 1, d | 1
            c, d = as_kind(kind, two.low, two.high)
        if kind.signed and a == kind.low and c <= -1 <= d:
            one = self.narrow(one)
            kind = meeting(one.kind, two.kind)
            a, b = as_kind(kind, one.low, one.high)
            if kind.signed and a == kind.low:
                return one
        most = max(abs(a), abs(b))
        low, high = (-most if kind.signed else 0), most
        if sign == "%":
            rest = max(abs(c), abs(d)) - 1
            low, high = (max(a, -rest) if a < 0 else 0), (min(max(b, 0), rest))
        if not kind.low <= low <= high <= kind.high:
            low, high = kind.low, kind.high
        return Value(f"{one.within(11)} {sign} {two.within(12)}", 11, kind, low, high)

    def shift(self, sign, one, two):
        kind = promoted(one.kind)
        if two.low < 0 or two.high >= kind.bits:
            mask = self.rolls.one_of([3, 7, kind.bits - 1])
            two = Value(f"({two.within(6)} & {mask})", ALONE, promoted(two.kind), 0, mask)
        low, high = min(one.low, 0), max(one.high, 0)
        if sign == "<<":
            if kind.signed and (one.low < 0 or one.high << two.high > kind.high):
                kind = UNSIGNED[kind]
                one = Value(f"({kind.name}){one.within(BEFORE)}", BEFORE, kind, kind.low, kind.high)
            low, high = 0, one.high << two.high
            if high > kind.high:
                low, high = kind.low, kind.high
        return Value(f"{one.within(9)} {sign} {two.within(10)}", 9, kind, low, high)

    def bits(self, sign, one, two):
        kind, level = meeting(one.kind, two.kind), LEVELS[sign]
        (a, b), (c, d) = as_kind(kind, one.low, one.high), as_kind(kind, two.low, two.high)
        low, high = kind.low, kind.high
        if a >= 0 and c >= 0:
            low, high = 0, min(b, d) if sign == "&" else 2 ** max(b, d).bit_length() - 1
        return Value(f"{one.within(level)} {sign} {two.within(level + 1)}", level, kind, low, high)

    def test(self, sign, depth):
        one, two, level = self.value(depth - 1), self.value(depth - 1), LEVELS[sign]
        pointers = self.pointers()
        if pointers and self.rolls.hits(10):
            pointer = self.rolls.one_of(pointers)
            at = pointer.low + self.rolls.below(pointer.high - pointer.low + 1)
            sign = self.rolls.one_of(["<", "==", "!=", ">=", ">", "<="])
            text = f"{pointer.name} + {at} {sign} &{pointer.name}[{pointer.low}]".replace("+ -", "- ")
            return Value(text, LEVELS[sign], INT, 0, 1)
        return Value(f"{one.within(level)} {sign} {two.within(level + 1)}", level, INT, 0, 1)

    def choice(self, depth):
        first, one, two = self.value(depth - 1), self.value(depth - 1), self.value(depth - 1)
        made = self.between(one, two)
        return Value(f"{first.within(2)} ? {one.within(ASSIGN)} : {two.within(CHOICE)}", CHOICE, made.kind, made.low, made.high)

    def between(self, one, two):
        """One of two values, without a text."""
        kind = meeting(one.kind, two.kind)
        (a, b), (c, d) = as_kind(kind, one.low, one.high), as_kind(kind, two.low, two.high)
        return Value("", ALONE, kind, min(a, c), max(b, d))

    def before(self, value):
        sign, kind = self.rolls.one_of(["-", "-", "~", "!", "+"]), promoted(value.kind)
        if sign == "!":
            return Value(f"!{value.within(BEFORE)}", BEFORE, INT, 0, 1)
        if sign == "-" and kind.signed and value.low == kind.low:
            value = self.narrow(value)
            kind = promoted(value.kind)
            if kind.signed and value.low == kind.low:
                return value
        low, high = (value.low, value.high) if sign == "+" else (-value.high, -value.low) if sign == "-" else (~value.high, ~value.low)
        if not kind.low <= low <= high <= kind.high:
            low, high = kind.low, kind.high
        return Value(f"{sign}({value.text})" if value.level < ALONE or value.text[0] in "-+(" else f"{sign}{value.text}", BEFORE, kind, low, high)

    def fits(self, function):
        return self.spent + self.times * function.cost <= 12_000

    def called(self, depth, pure=True):
        """A call of a function that has no effect, in any value; or of one that has, alone."""
        fitting = [f for f in self.functions if f.pure >= pure and isinstance(f.result, Type) and self.fits(f)]
        if not fitting:
            return None
        function = self.rolls.one_of(fitting)
        given = self.given(function, depth)
        if given is None:
            return None
        self.spent += self.times * function.cost
        name = function.name
        form = self.rolls.below(8)
        name = f"(&{name})" if form == 0 else f"(*{name})" if form == 1 else name
        for table, alike in self.tables:
            if function in alike and self.rolls.hits(50):
                name = f"{table}[{alike.index(function)}]"
        return Value(f"{name}({', '.join(given)})", ALONE, function.result, function.result.low, function.result.high)

    def given(self, function, depth):
        given = []
        for at, kind in enumerate(function.takes):
            if at == 0 and function.counted:
                given.append(str(self.rolls.below(5)))
            elif isinstance(kind, Type):
                given.append(self.value(depth - 2).within(ASSIGN))
            elif isinstance(kind, Array):
                fitting = [v.name for v in self.visible() if isinstance(v.kind, Array) and v.kind.of is kind.of and v.kind.count >= kind.count and (function.pure or not v.kept)]
                if not fitting:
                    return None
                given.append(self.rolls.one_of(fitting))
            else:
                found = self.record(kind)
                if not found:
                    return None
                given.append(found)
        return given

    def record(self, kind, written=False):
        """A place that has a record of this kind."""
        fitting = [v.name for v in self.visible() if v.kind is kind and not (written and (v.kept or (self.pure and v in self.globals)))]
        fitting += [f"{v.name}[{self.index(v.kind.count, 1)}]" for v in self.visible() if isinstance(v.kind, Array) and v.kind.of is kind and not (written and self.pure and v in self.globals)]
        return self.rolls.one_of(fitting) if fitting else None

    # ---- initial values

    def initial(self, kind, depth, constant):
        if isinstance(kind, Type):
            return self.first(kind) if constant else self.value(depth).within(ASSIGN)
        if isinstance(kind, Array):
            count = kind.count if self.rolls.hits(60) else 1 + self.rolls.below(kind.count)
            parts = [self.initial(kind.of, depth, constant) for _ in range(count)]
            if self.rolls.hits(25):
                at = self.rolls.below(kind.count - count + 1)
                parts[0] = f"[{at}] = {parts[0]}"
            return "{ " + ", ".join(parts) + (",}" if self.rolls.hits(20) else " }")
        if kind.is_union:
            member, inner = self.rolls.one_of(kind.members)
            return f"{{ .{member} = {self.initial(inner, depth, constant)} }}"
        parts = [(member, self.initial(inner, depth, constant)) for member, inner in kind.members]
        if self.rolls.hits(40):
            parts = [parts[at] for at in sorted(range(len(parts)), key=lambda _: self.rolls.word())][: 1 + self.rolls.below(len(parts))]
            return "{ " + ", ".join(f".{member} = {part}" for member, part in parts) + " }"
        return "{ " + ", ".join(part for _, part in parts[: 1 + self.rolls.below(len(parts))]) + " }"

    def first(self, kind):
        """A constant expression."""
        value = self.constant()
        if self.rolls.hits(40):
            other = self.constant()
            value = self.rolls.one_of([
                lambda: self.sum(self.rolls.one_of(["+", "-", "*"]), value, other),
                lambda: self.bits(self.rolls.one_of(["&", "|", "^"]), value, other),
                lambda: self.shift("<<", value, Value("3", ALONE, INT, 3, 3)),
                lambda: Value(f"{value.within(8)} < {other.within(9)}", 8, INT, 0, 1),
            ])()
        return value.within(ASSIGN)
