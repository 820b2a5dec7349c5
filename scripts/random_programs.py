"""Random programs in C that compute numbers of all integer types, for the script values_executed.

A program ends with one number, the digest of all that it came to (`note`). C gives each a meaning: random_values.py keeps
intervals, and a statement with effects changes what else it doesn't name. Its tasks are awaited at once.
"""
from random_values import (
    ALONE, ASSIGN, INT, LEVELS, LLONG, LONG, SHORT, TYPES, UCHAR, UINT, ULONG, WORDS, Array, Function, Pointer, Record, Type, Value,
    Values, Variable, promoted,
)

CAN_STEP = [kind for kind in TYPES if not kind.signed or kind.rank < 3]


class Program(Values):
    """Writes a program of a seed, with this before each name of the file."""

    def __init__(self, seed, prefix=""):
        super().__init__(seed, prefix)
        self.text = self.whole()

    # ---- the file

    def whole(self):
        rolls = self.rolls
        for _ in range(rolls.below(3)):
            self.enumeration()
        for _ in range(rolls.below(3)):
            self.macro()
        for _ in range(rolls.below(4)):
            self.alias()
        for _ in range(1 + rolls.below(4)):
            self.define_record()
        for _ in range(4 + rolls.below(7)):
            self.global_variable()
        for _ in range(2 + rolls.below(5)):
            self.function()
        self.begin()
        return "\n".join(self.lines) + "\n"

    def enumeration(self):
        parts, number = [], -1
        for _ in range(2 + self.rolls.below(4)):
            name = self.top("E")
            form = self.rolls.below(10)
            if form < 4:
                number = self.rolls.below(200) - 50
                parts.append(f"{name} = {number}")
            elif form == 4:
                text, number = self.rolls.one_of([("sizeof(long)", 8), ("3u", 3), ("'a'", 97), ("1 << 4", 16), ("5l - 7", -2), ("(char)200", -56), ("3 > 2u", 1)])
                parts.append(f"{name} = {text}")
            else:
                number += 1
                parts.append(name)
            self.enums.append((name, number))
        self.line(f"enum {self.top('e')} {{ {', '.join(parts)} }};")

    def macro(self):
        """A macro of two values, and how its own is made of theirs."""
        name = self.top("M")
        forms = [
            ("((p) > (q) ? (p) : (q))", lambda made, one, two: made.between(one, two)),
            ("((p) ^ (q))", lambda made, one, two: made.bits("^", one, two)),
            ("((p) && !(q))", lambda made, one, two: Value("", ALONE, INT, 0, 1)),
            ("((p) < (q) || (q) == 3)", lambda made, one, two: Value("", ALONE, INT, 0, 1)),
            ("((unsigned long)(p) + (q))", lambda made, one, two: Value("", ALONE, ULONG, ULONG.low, ULONG.high)),
        ]
        text, body = self.rolls.one_of(forms)
        self.line(f"#define {name}(p, q) {text}")
        self.macros.append((name, body))

    def alias(self):
        kind, name = self.rolls.one_of(TYPES), self.top("t")
        self.line(f"typedef {kind.name} {name};")
        self.typedefs[kind] = name

    def define_record(self):
        rolls = self.rolls
        is_union = rolls.hits(25)
        if is_union:
            alike = rolls.one_of([WORDS[8], WORDS[16], WORDS[32], WORDS[64]])
            members = [(self.name("m"), rolls.one_of(alike)) for _ in range(2 + rolls.below(2))]
        else:
            members = [(self.name("m"), self.member_type()) for _ in range(1 + rolls.below(5))]
        record = Record(self.top("s"), members, is_union)
        self.line(f"{self.type_name(record)} {{ {' '.join(self.declared(kind, name) + ';' for name, kind in members)} }};")
        self.records.append(record)

    def member_type(self):
        rolls = self.rolls
        kind = rolls.one_of(self.records) if self.records and rolls.hits(30) else rolls.one_of(TYPES)
        return Array(kind, 1 + rolls.below(4)) if rolls.hits(30) else kind

    def any_type(self, scalars=50):
        rolls = self.rolls
        if rolls.hits(scalars):
            return rolls.one_of(TYPES)
        kind = rolls.one_of(self.records) if self.records and rolls.hits(40) else rolls.one_of(TYPES)
        if isinstance(kind, Record) and rolls.hits(60):
            return kind
        for _ in range(1 if isinstance(kind, Record) else 1 + rolls.below(3)):
            kind = Array(kind, 2 + rolls.below(4))
        return kind

    def global_variable(self):
        kind, name = self.any_type(), self.top("g")
        word = self.rolls.one_of(["", "", "static "])
        value = f" = {self.initial(kind, 0, True)}" if self.rolls.hits(60) else ""
        self.line(f"{word}{self.declared(kind, name)}{value};")
        variable = Variable(name, kind, own=False)
        self.globals.append(variable)
        self.scopes[0].append(variable)

    # ---- functions

    def function(self):
        rolls = self.rolls
        self.pure, self.spent, self.times, self.loops, self.in_switch = rolls.hits(65), 3, 1, 0, 0
        counted = self.pure and rolls.hits(30)
        result = rolls.one_of(self.records) if rolls.hits(20) and not counted else rolls.one_of(TYPES)
        name, takes, scope, parts = self.top("f"), [], [], []
        if counted:
            takes.append(INT)
            parts.append("int n")
            scope.append(Variable("n", INT, True, -1, 5))
        for _ in range(rolls.below(4)):
            kind = self.parameter_type()
            taken = self.name("a")
            takes.append(kind)
            if isinstance(kind, Array):
                parts.append(self.rolls.one_of([self.declared(kind, taken), f"{self.type_name(kind.of)} *{taken}"]))
            else:
                parts.append(self.declared(kind, taken))
            scope.append(Variable(taken, kind, kept=isinstance(kind, Array) and self.pure))
        self.result = result
        self.line(f"{rolls.one_of(['static ', 'static ', ''])}{self.declared(result, name)}({', '.join(parts) or 'void'})")
        self.opened(scope)
        function = Function(name, result, takes, 0, self.pure, counted)
        if counted:
            self.line("if (n <= 0)")
            self.line(f"    return {self.value(2).text};")
        if not self.pure:
            self.static_local()
        self.statements(2 + rolls.below(5), 2)
        self.returned(function)
        self.closed()
        function.cost = self.spent * (12 if counted else 1)
        self.functions.append(function)
        if self.rolls.hits(40):
            self.table()

    def parameter_type(self):
        rolls = self.rolls
        if rolls.hits(65):
            return rolls.one_of(TYPES)
        if rolls.hits(50):
            return rolls.one_of(self.records)
        arrays = [v.kind for v in self.globals if isinstance(v.kind, Array) and isinstance(v.kind.of, Type)]
        return rolls.one_of(arrays) if arrays else INT

    def static_local(self):
        kind, name = self.rolls.one_of(CAN_STEP), self.name("k")
        self.line(f"static {self.declared(kind, name)} = {self.first(kind)};")
        self.scopes[-1].append(Variable(name, kind))
        self.line(f"{name}++;")

    def returned(self, function):
        if isinstance(function.result, Record):
            self.line(f"return {self.record_value(function.result)};")
            return
        value = self.value(3).within(LEVELS["^"])
        if function.counted:
            again = [f"{function.name}({', '.join(['n - %d' % by] + self.given(function, 2)[1:])})" for by in (1, 2)[: 1 + self.rolls.below(2)]
                     if self.given(function, 0) is not None]
            # (in a type that holds all sums)
            value = " ^ ".join([value] + [f"(unsigned long){call}" for call in again])
        self.line(f"return {value};")

    def record_value(self, kind):
        """A record of a kind, by a place or by a call; where there is none, by a new variable."""
        calls = [f for f in self.functions if f.result is kind and f.pure and self.fits(f)]
        if calls and self.rolls.hits(50):
            function = self.rolls.one_of(calls)
            given = self.given(function, 2)
            if given is not None:
                self.spent += self.times * function.cost
                return f"{function.name}({', '.join(given)})"
        found = self.record(kind)
        if found:
            return found
        name = self.name("v")
        self.line(f"{self.declared(kind, name)} = {self.initial(kind, 1, False)};")
        self.scopes[-1].append(Variable(name, kind))
        return name

    def table(self):
        """A table of pointers to functions that are alike."""
        last = self.functions[-1]
        if last.counted or not all(isinstance(kind, Type) for kind in last.takes):
            return
        alike = [f for f in self.functions if f.result is last.result and f.takes == last.takes and f.pure == last.pure and not f.counted]
        name = self.top("p")
        takes = ", ".join(self.type_name(kind) for kind in last.takes) or "void"
        stars = self.rolls.one_of(["&", ""])
        result = last.result.name if isinstance(last.result, Type) else self.type_name(last.result)
        self.line(f"static {result} (*{name}[{len(alike)}])({takes}) = {{ {', '.join(stars + f.name for f in alike)} }};")
        self.tables.append((name, alike))

    # ---- blocks

    def opened(self, scope=()):
        self.line("{")
        self.depth += 1
        self.scopes.append(list(scope))

    def closed(self, behind=""):
        self.scopes.pop()
        self.depth -= 1
        self.line("}" + behind)

    def statements(self, count, depth):
        for _ in range(count):
            self.statement(depth)

    def block(self, count, depth, scope=()):
        self.opened(scope)
        self.statements(count, depth)
        self.closed()

    def statement(self, depth):
        self.spent += 4 * self.times
        rolls = self.rolls
        simple = [self.assign, self.assign, self.change, self.step, self.declare, self.declare, self.call, self.copy, self.with_effect, self.point, self.noted, self.many, self.special]
        nested = [self.branch, self.branch, self.count_up, self.walk, self.repeat, self.pick, self.inner, self.task, self.leave]
        if depth > 0 and self.spent < 6_000 and rolls.hits(45):
            rolls.one_of(nested)(depth - 1)
        else:
            rolls.one_of(simple)()

    # ---- simple statements

    def assign(self):
        found = self.place(2, True)
        if found:
            self.line(f"{found[0]} = {self.value(4).within(ASSIGN)};")

    def change(self):
        """A compound assignment."""
        found = self.place(2, True)
        if not found:
            return
        text, kind, low, high = found
        place = Value(text, ALONE, kind, low, high)
        sign = self.rolls.one_of(["+", "-", "*", "/", "%", "<<", ">>", "&", "|", "^"])
        for _ in range(6):
            value = self.value(3)
            if sign in ("/", "%"):
                made = self.quotient(sign, place, value)
            elif sign in ("<<", ">>"):
                made = self.shift(sign, place, value)
            elif sign in ("&", "|", "^"):
                made = self.bits(sign, place, value)
            else:
                made = self.sum(sign, place, value)
            begin = f"{text} {sign} "
            if made.text.startswith(begin) and made.level == LEVELS[sign]:
                self.line(f"{text} {sign}= {made.text[len(begin):]};")
                return
        self.line(f"{text} ^= {self.value(3).within(ASSIGN)};")

    def step(self):
        found = self.place(2, True)
        if found and found[1] in CAN_STEP:
            sign = self.rolls.one_of(["++", "--"])
            self.line(f"{sign}{found[0]};" if self.rolls.hits(50) else f"{found[0]}{sign};")

    def declare(self):
        kind, name = self.any_type(70), self.name("v")
        if isinstance(kind, Type) and self.rolls.hits(15):
            kept = self.rolls.hits(50)
            self.line(f"{'const ' if kept else ''}{self.declared(kind, name)} = {self.value(3).within(ASSIGN)};")
            self.scopes[-1].append(Variable(name, kind, kept))
            return
        if isinstance(kind, Record) and self.rolls.hits(40):
            value = self.record_value(kind)
            self.line(f"{self.declared(kind, name)} = {value};")
        else:
            self.line(f"{self.declared(kind, name)} = {self.initial(kind, 2, False)};")
        self.scopes[-1].append(Variable(name, kind))

    def own_scalar(self, kinds=None):
        """A variable that nothing else names: no global, and nothing points to it."""
        fitting = [v for v in self.visible() if v.own and not v.kept and isinstance(v.kind, Type) and v.low is None and (kinds is None or v.kind in kinds)]
        return self.rolls.one_of(fitting) if fitting else None

    def call(self):
        """A call that may have effects, alone, or given to a variable."""
        value = None if self.pure else self.called(3, pure=False)
        if value is None:
            return self.noted()
        variable = self.own_scalar()
        if variable and self.rolls.hits(70):
            self.line(f"{variable.name} = {value.text};")
        else:
            self.line(f"{self.rolls.one_of(['', '(void)'])}{value.text};")

    def copy(self):
        if not self.records:
            return self.assign()
        kind = self.rolls.one_of(self.records)
        to = self.record(kind, True)
        if to:
            self.line(f"{to} = {self.record_value(kind)};")

    def noted(self):
        if self.pure:
            return self.assign()
        self.line(f"{self.prefix}note({self.value(4).within(ASSIGN)});")

    def with_effect(self):
        """Values that change a variable which nothing else in them names."""
        one = self.own_scalar(CAN_STEP)
        if not one:
            return self.step()
        self.banned.add(one.name)
        value, other, test = self.value(2), self.value(2), self.value(2)
        to = self.own_scalar()
        self.banned.discard(one.name)
        name = one.name
        lines = [
            f"{test.within(4)} && ({name} = {value.within(ASSIGN)});",
            f"{test.within(3)} || {name}++;",
            f"{test.within(2)} ? ({name} = {value.within(ASSIGN)}) : (void){other.within(12)};".replace("(void)", ""),
            f"{name} = {value.within(ASSIGN)}, {name}--, {name} ^= {other.within(ASSIGN)};",
        ]
        if to:
            lines += [
                f"{to.name} = {name}++ ^ {value.within(6)};",
                f"{to.name} = {value.within(7)} & --{name};",
                f"{to.name} = ({name} = {value.within(ASSIGN)});",
                f"{to.name} = ({name} ^= {value.within(ASSIGN)}) | {other.within(5)};",
                f"{to.name} = {name}-- > {value.within(9)};",
                f"{to.name} = ({name}++, {name}) != {value.within(8)};",
                f"{to.name} ^= {name}++;",
                f"{to.name} = {test.within(2)} ? {name}++ : {value.within(ASSIGN)};",
            ]
        self.line(self.rolls.one_of(lines))

    def point(self):
        """A pointer into an array, or to a record, and what is done with it."""
        arrays = [v for v in self.visible() if isinstance(v.kind, Array) and not v.kept and not (self.pure and v in self.globals)]
        records = [v for v in self.visible() if isinstance(v.kind, Record) and not (self.pure and v in self.globals)]
        if not arrays and not records:
            return self.declare()
        name = self.name("p")
        if records and (not arrays or self.rolls.hits(40)):
            variable = self.rolls.one_of(records)
            self.line(f"{self.type_name(variable.kind)} *{name} = &{variable.name};")
            self.scopes[-1].append(Pointer(name, variable.kind, 0, 0))
            return
        variable = self.rolls.one_of(arrays)
        text, kind = variable.name, variable.kind
        while isinstance(kind.of, Array):
            text, kind = f"{text}[{self.rolls.below(kind.count)}]", kind.of
        at = self.rolls.below(kind.count)
        form = self.rolls.one_of([f"&{text}[{at}]", f"{text} + {at}", f"&{text}[{kind.count}] - {kind.count - at}"])
        self.line(f"{self.type_name(kind.of)} *{name} = {form};")
        pointer = Pointer(name, kind.of, -at, kind.count - 1 - at)
        if self.rolls.hits(50) and self.moved(pointer):
            pass
        self.scopes[-1].append(pointer)

    def moved(self, pointer):
        by = pointer.low + self.rolls.below(pointer.high - pointer.low + 1)
        if by == 0:
            return False
        forms = [f"{pointer.name} += {by};", f"{pointer.name} = {pointer.name} + {by};".replace("+ -", "- "), f"{pointer.name} -= {-by};"]
        if isinstance(pointer.kind, Type) and not self.pure:
            forms.append(f"{self.prefix}note(*({pointer.name} += {by}));")
        if by == 1:
            forms += [f"{pointer.name}++;", f"++{pointer.name};"]
            if isinstance(pointer.kind, Type):
                forms.append(f"*{pointer.name}++ = {self.value(2).within(ASSIGN)};")
        if by == -1:
            forms += [f"{pointer.name}--;", f"--{pointer.name};"]
        self.line(self.rolls.one_of(forms))
        pointer.low, pointer.high = pointer.low - by, pointer.high - by
        return True

    def many(self):
        """Several variables of one declaration."""
        kind, names = self.rolls.one_of(TYPES), [self.name("v") for _ in range(3)]
        count = 1 + self.rolls.below(3)
        parts = [f"{names[0]} = {self.value(2).within(ASSIGN)}", f"{names[1]}[{count}] = {self.initial(Array(kind, count), 1, False)}", f"*{names[2]} = &{names[1]}[{count - 1}]"]
        self.line(f"{kind.name} {', '.join(parts)};")
        self.scopes[-1] += [Variable(names[0], kind), Variable(names[1], Array(kind, count)), Pointer(names[2], kind, 1 - count, 0)]

    def special(self):
        self.rolls.one_of([self.linked, self.allocated, self.pointed_twice, self.handed_on, self.of_a_length, self.static_table, self.copied])()

    def told(self, value):
        """Notes a value; where that can't be, something has it."""
        if not self.pure:
            self.line(f"{self.prefix}note({value});")
            return
        name = self.name("v")
        self.line(f"{self.declared(LONG, name)} = {value};")
        self.scopes[-1].append(Variable(name, LONG))

    def linked(self):
        """A list of nodes, and a walk along it."""
        kind, tag, name, count = self.rolls.one_of(TYPES), self.name("n"), self.name("v"), 2 + self.rolls.below(3)
        self.line(f"struct {tag} {{ {self.declared(kind, 'v')}; struct {tag} *next, **own; }} {name}[{count}] = {{ {{ {self.value(2).within(ASSIGN)} }} }};")
        walk = self.name("p")
        self.line(f"struct {tag} *{walk} = 0;")
        self.line(f"for (int at = 0; at < {count}; at++) {{")
        self.line(f"    {name}[at].next = {walk}; {name}[at].v ^= at * {self.rolls.below(9)}; {walk} = &{name}[at]; {name}[at].own = &{name}[at].next;")
        self.line("}")
        total = self.name("v")
        self.line(f"unsigned long {total} = {self.rolls.below(9)};")
        form = self.rolls.below(3)
        if form == 0:
            self.line(f"for (; {walk}; {walk} = {walk}->next) {total} = {total} * 7 + {walk}->v;")
        elif form == 1:
            self.line(f"while ({walk} != NULL) {{ {total} += {walk}->v; {walk} = *{walk}->own; }}")
        else:
            self.line(f"{total} += {walk}->next->v; {walk}->next->v++; {total} ^= {name}[{count - 2}].v; {total} += ({walk}->next == &{name}[{count - 2}]);")
        self.scopes[-1].append(Variable(total, ULONG))

    def allocated(self):
        """Elements that are allocated, set and given back."""
        kind, name, count, total = self.rolls.one_of(TYPES), self.name("p"), 2 + self.rolls.below(4), self.name("v")
        named = self.type_name(kind)
        self.line(f"{named} *{name} = " + self.rolls.one_of([f"malloc({count} * sizeof({named}))", f"({named} *)malloc(sizeof *{name} * {count})", f"calloc({count}, sizeof *{name})"]) + ";")
        self.line(f"for (int at = 0; at < {count}; at++) {name}[at] = at * {self.rolls.below(50)} + {self.value(1).within(11)} % 100;")
        self.line(f"{name}[{self.rolls.below(count)}] = {self.value(3).within(ASSIGN)};")
        self.line(f"long {total} = {name}[{self.rolls.below(count)}] ^ *{name};")
        self.line(f"free({name});")
        self.scopes[-1].append(Variable(total, LONG))

    def pointed_twice(self):
        """A pointer to a pointer, and pointers in an array."""
        arrays = [v for v in self.visible() if isinstance(v.kind, Array) and isinstance(v.kind.of, Type) and not v.kept and not (self.pure and v in self.globals)]
        if not arrays:
            return self.point()
        variable = self.rolls.one_of(arrays)
        kind, count, name, other = self.type_name(variable.kind.of), variable.kind.count, self.name("q"), self.name("q")
        ends = [self.rolls.below(count) for _ in range(3)]
        self.line(f"{kind} *{name}[3] = {{ {variable.name} + {ends[0]}, &{variable.name}[{ends[1]}], {variable.name} }}, **{other} = {name};")
        self.line(f"**{other} = {self.value(2).within(ASSIGN)}; ++{other}; *{other}[0] ^= {self.value(2).within(ASSIGN)};")
        self.line(f"*({other} + 1) = &{variable.name}[{ends[2]}];")
        self.told(f"({name}[1] - {name}[0]) * 3 + ({name}[2] == {variable.name} + {ends[2]}) + *{name}[2] % 7 + ({other} - {name}) + ({name}[0] < {name}[2])")

    def handed_on(self):
        """A function that is chosen and called by a pointer."""
        fitting = [f for f in self.functions if f.pure and not f.counted and isinstance(f.result, Type) and f.takes and all(isinstance(kind, Type) for kind in f.takes) and self.fits(f)]
        if not fitting:
            return self.assign()
        function, name = self.rolls.one_of(fitting), self.name("q")
        self.line(f"{function.result.name} (*{name})({', '.join(kind.name for kind in function.takes)}) = {self.rolls.one_of(['', '&', '*'])}{function.name};")
        self.spent += self.times * function.cost
        self.told(f"{name} ? {self.rolls.one_of([name, '(*' + name + ')'])}({', '.join(self.given(function, 2))}) : 0")

    def of_a_length(self):
        """An array whose length is known when it is met."""
        kind, name, length = self.rolls.one_of(TYPES), self.name("v"), self.name("v")
        count = 2 + self.rolls.below(3)
        self.line(f"int {length} = {count};")
        self.line(f"{self.type_name(kind)} {name}[{length}][2];")
        self.line(f"for (int at = 0; at < {length}; at++) {{ {name}[at][0] = at * 3; {name}[at][1] = {self.value(2).within(ASSIGN)}; }}")
        self.told(f"sizeof {name} + sizeof {name}[0] + {name}[{self.rolls.below(count)}][1] + *{name}[{count - 1}]")

    def static_table(self):
        kind, name, count = self.rolls.one_of(TYPES), self.name("v"), 2 + self.rolls.below(4)
        self.line(f"static const {self.declared(Array(kind, count), name)} = {self.initial(Array(kind, count), 0, True)};")
        self.scopes[-1].append(Variable(name, Array(kind, count), True))

    def copied(self):
        """memcpy and memset of whole objects."""
        records = [v for v in self.visible() if isinstance(v.kind, Record) and not v.kept and not (self.pure and v in self.globals)]
        if not records:
            return self.assign()
        one = self.rolls.one_of(records)
        two = self.rolls.one_of([v for v in records if v.kind is one.kind])
        if one is two:
            self.line(f"memset(&{one.name}, 0, sizeof {one.name});")
        else:
            self.line(f"memcpy(&{one.name}, &{two.name}, sizeof({self.type_name(one.kind)}));")

    # ---- statements with statements in them

    def branch(self, depth):
        self.line(f"if ({self.value(4).text})")
        self.block(1 + self.rolls.below(2), depth)
        while self.rolls.hits(25):
            self.line(f"else if ({self.value(2).text})")
            self.block(1 + self.rolls.below(2), depth)
        if self.rolls.hits(45):
            self.line("else")
            self.block(1 + self.rolls.below(2), depth)

    def in_turns(self, turns, depth, scope, last=None):
        """The body of a loop of so many turns."""
        self.times *= turns
        self.loops += 1
        outer, self.in_switch = self.in_switch, 0
        self.opened(scope)
        self.statements(1 + self.rolls.below(3), depth)
        if last:
            self.line(last)
        self.closed()
        self.in_switch = outer
        self.loops -= 1
        self.times //= turns

    def count_up(self, depth):
        rolls = self.rolls
        kind, name, count = rolls.one_of([INT, INT, INT, UINT, LONG, ULONG, SHORT, UCHAR, LLONG]), self.name("i"), 1 + rolls.below(4)
        first = f"{self.type_name(kind)} {name}"
        form = rolls.below(6)
        head = [
            f"{first} = 0; {name} < {count}; {name}++",
            f"{first} = 0; {name} <= {count - 1}; ++{name}",
            f"{first} = {count - 1}; {name} > 0; {name}--",
            f"{first} = 0; {name} != {count}; {name} += 1",
            f"{first} = 1; {name} < {count}; {name} = {name} * 2",
            f"{first} = 0, {name}_to = {count}; {name} < {name}_to; {name}++, {name}_to--",
        ][form]
        self.line(f"for ({head})")
        self.in_turns(count, depth, [Variable(name, kind, True, 0, count - 1)])

    def walk(self, depth):
        """A loop that goes through an array by a pointer."""
        arrays = [v for v in self.visible() if isinstance(v.kind, Array) and isinstance(v.kind.of, Type) and not v.kept and not (self.pure and v in self.globals)]
        if not arrays:
            return self.count_up(depth)
        variable, name = self.rolls.one_of(arrays), self.name("p")
        kind, count = self.type_name(variable.kind.of), variable.kind.count
        head = self.rolls.one_of([
            f"{kind} *{name} = {variable.name}; {name} < {variable.name} + {count}; {name}++",
            f"{kind} *{name} = &{variable.name}[{count - 1}]; {name} - {variable.name} >= 1; --{name}",
            f"{kind} *{name} = {variable.name}; {name} != &{variable.name}[{count}]; {name} += 1",
        ])
        self.line(f"for ({head})")
        self.in_turns(count, depth, [Pointer(name, variable.kind.of, 0, 0)])

    def repeat(self, depth):
        """`while`, or `do`, with a variable that counts."""
        name, count, rolls = self.name("w"), 1 + self.rolls.below(4), self.rolls
        form = rolls.below(4)
        if form == 0:
            self.line(f"unsigned {name} = {count};")
            self.line(f"while ({name}-- > 0)")
            self.in_turns(count, depth, [])
        elif form == 1:
            self.line(f"int {name} = 0;")
            self.line(f"while ({name}++ < {count} && {self.value(3).within(3)})")
            self.in_turns(count, depth, [])
        elif form == 2:
            self.line(f"long {name} = 0;")
            self.line("do")
            self.in_turns(count, depth, [])
            self.lines[-1] += f" while (++{name} < {count});"
        else:
            self.line(f"signed char {name} = {count};")
            self.line("for (;;)")
            self.in_turns(count, depth, [], f"if (--{name} <= 0) break;")
            # (a `continue` would miss the end)
            self.no_continue(name)
        self.spent += 4 * self.times

    def no_continue(self, name):
        begin = max(at for at, line in enumerate(self.lines) if line.strip() == "for (;;)")
        for at in range(begin, len(self.lines)):
            self.lines[at] = self.lines[at].replace("continue;", "break;")

    def pick(self, depth):
        """`switch`, with cases that fall through."""
        rolls = self.rolls
        value = self.value(3)
        if value.high - value.low > 20 and rolls.hits(80):
            value = self.bits("&", value, Value("3", ALONE, INT, 3, 3)) if rolls.hits(50) else self.quotient("%", value, Value("4", ALONE, INT, 4, 4))
        self.line(f"switch ({value.text})")
        self.opened()
        low = max(promoted(value.kind).low, min(value.low, 1000))
        labels = list({low + at for at in range(5) if low + at <= promoted(value.kind).high})
        default = rolls.below(len(labels) + 1) if rolls.hits(75) else None
        loops, self.in_switch = self.loops, self.in_switch + 1
        for at, number in enumerate(labels):
            if rolls.hits(20) and at != default:
                continue
            if at == default:
                self.line("default:")
            else:
                named = [name for name, known in self.enums if known == number]
                self.line(f"case {named[0] if named else number if abs(number) < 2**31 else f'({number + 1}ll - 1)' if number < 0 else f'{number}ull'}:")
            self.opened()
            self.statements(1 + rolls.below(2), depth)
            self.closed()
            if rolls.hits(65):
                self.line("break;")
        self.line(";" if not self.lines[-1].endswith(":") else "break;")
        self.loops, self.in_switch = loops, self.in_switch - 1
        self.closed()

    def inner(self, depth):
        """A block that hides a name."""
        hidden = self.own_scalar()
        if not hidden:
            return self.block(2, depth)
        kind = self.rolls.one_of(TYPES)
        self.banned.add(hidden.name)
        value = self.value(2)
        self.banned.discard(hidden.name)
        self.opened()
        self.line(f"{self.declared(kind, hidden.name)} = {value.within(ASSIGN)};")
        self.scopes[-1].append(Variable(hidden.name, kind))
        self.statements(2, depth)
        self.closed()

    def task(self, depth):
        loops, self.loops, result, self.result, inner, self.in_switch = self.loops, 0, self.result, None, self.in_switch, 0
        words = self.rolls.one_of(["", " if(0)", " final(1)", " untied"])
        self.line(f"#pragma omp task default(shared){words}")
        self.block(2, depth)
        self.line("#pragma omp taskwait")
        self.loops, self.result, self.in_switch = loops, result, inner

    def leave(self, depth):
        """`break`, `continue` or `return`, behind a condition."""
        ways = []
        if self.loops and not self.in_switch:
            ways += ["break;", "continue;"]
        if isinstance(self.result, Type):
            ways.append(f"return {self.value(2).text};")
        if not ways:
            return self.branch(depth)
        self.line(f"if ({self.value(3).text})")
        self.line("    " + self.rolls.one_of(ways))

    # ---- the end

    def begin(self):
        """The function that does all, and tells all that the file's variables have."""
        self.pure, self.spent, self.times, self.loops, self.result, self.in_switch = False, 0, 1, 0, None, 0
        self.line(f"static void {self.prefix}run(void)")
        self.opened()
        for _ in range(3):
            self.declare()
        self.statements(8 + self.rolls.below(10), 3)
        for variable in [v for scope in self.scopes for v in scope if isinstance(v, Variable)]:
            self.tell(variable.name, variable.kind, 0)
        self.closed()

    def tell(self, text, kind, level):
        if isinstance(kind, Type):
            self.line(f"{self.prefix}note({text});")
        elif isinstance(kind, Array):
            name = "xyzuvw"[level]
            self.line(f"for (int {name} = 0; {name} < {kind.count}; {name}++) {{")
            self.depth += 1
            self.tell(f"{text}[{name}]", kind.of, level + 1)
            self.depth -= 1
            self.line("}")
        else:
            for member, inner in kind.members:
                self.tell(f"{text}.{member}", inner, level)
