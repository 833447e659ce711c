"""Random programs with tasks of all kinds.

A program is made statement by statement. For each task that is made, a `Task` of the interpreter tells what it may touch at that place, so that most
programs have no fault. What stands in a branch or a loop is made so that it may be passed over and repeated.
"""

import random

from interpreter import FOLDS, Task

NUMBERS = ["0", "1", "2", "3", "4", "5", "7", "8", "10", "16", "63", "0x1f", "017", "255", "1000"]
WIDE_NUMBERS = NUMBERS + [
    "2147483647", "2147483648", "4294967295", "4294967296", "0xffffffff", "0x80000000", "9223372036854775807", "9223372036854775808",
    "18446744073709551615", "0x8000000000000000", "0xffffffffffffffff", "1u", "3UL", "7ull", "63u", "1L", "0LLU", "0x7fffffffffffffffLL",
    "01777777777777777777777", "64", "65", "6148914691236517205",
]
BINARY = ["+", "-", "*", "/", "%", "<<", ">>", "<", "<=", ">", ">=", "==", "!=", "&", "^", "|", "&&", "||"]
PREFIXES = ["-", "+", "!", "~"]
TYPES = ["int", "long", "unsigned long"]


class Array:
    """A global of a generated program: a scalar has no rows, and an array of one dimension no columns."""

    def __init__(self, type_, name, start, rows=None, columns=None):
        self.type = type_
        self.name = name
        self.start = start
        self.rows = rows
        self.columns = columns
        self.size = (rows or 1) * (columns or 1)

    def cells(self, first=0, count=None):
        return list(range(self.start + first, self.start + first + (self.size if count is None else count)))


class Scope:
    """What a task knows at a place: its rights, its locals (names of numbers), its pointers (name to array, first index and length), and where it stands."""

    def __init__(self, task, numbers=(), pointers=(), in_loop=False, straight=True, depth=0):
        self.task = task
        self.numbers = list(numbers)
        self.pointers = dict(pointers)
        # variables that must not be assigned, with the numbers that they go through
        self.counters = {}
        self.in_loop = in_loop
        # it is passed exactly once: not in a branch or a loop
        self.straight = straight
        self.depth = depth

    def inner(self, **changes):
        """The same place, in a block of its own."""
        found = Scope(self.task, self.numbers, self.pointers, self.in_loop, self.straight, self.depth)
        found.counters = dict(self.counters)
        for name, value in changes.items():
            setattr(found, name, value)
        return found


def copy_of(task):
    found = Task(task.point, task.above, task.final, task.rights, set(task.unwritten))
    found.released = set(task.released)
    found.lent = dict(task.lent)
    return found


def worst_of(task, other):
    """Makes of `task` what is safe to say of both."""
    task.unwritten |= other.unwritten
    for cell, how in other.lent.items():
        if how == "write":
            task.lent[cell] = how
        else:
            task.lent.setdefault(cell, how)


class Whole:
    """Makes a program with tasks."""

    def __init__(self, number):
        self.random = random.Random(f"whole {number}")
        self.left = self.random.randint(12, 70)
        # how often a test is left out
        self.reckless = self.random.choice([0, 0, 0, 0.03, 0.08])
        self.names = 0
        self.arrays = []
        self.functions = []
        self.lines = []

    def choose(self, *choices):
        return self.random.choice(choices)

    def chance(self, part):
        return self.random.random() < part

    def slips(self):
        """Whether a test is left out here."""
        return self.reckless > 0 and self.chance(self.reckless)

    def new_name(self, letter):
        self.names += 1
        return f"{letter}{self.names}"

    # Globals

    def make_globals(self):
        kinds = ["long"] * self.random.randint(2, 4) + ["int", "unsigned long"]
        cells = 0
        for place, type_ in enumerate(kinds):
            array = Array(type_, f"{type_[0]}{place}", cells)
            self.arrays.append(array)
            cells += 1
            value = self.choose("", "", f" = {self.choose(*NUMBERS)}", f" = -{self.choose(*WIDE_NUMBERS)}")
            self.lines.append(f"{type_} {array.name}{value};")
        shapes = [("long", "a", 8, None), ("long", "b", self.choose(4, 6), None)]
        shapes += self.random.sample([("long", "m", 3, 4), ("int", "c", 4, None), ("unsigned long", "d", 4, None), ("long", "g", 2, 2)], 2)
        for type_, name, rows, columns in shapes:
            array = Array(type_, name, cells, rows, columns)
            self.arrays.append(array)
            cells += array.size
            self.lines.append(f"{type_} {name}[{rows}]{'' if columns is None else f'[{columns}]'};")

    def vectors(self, type_="long"):
        return [each for each in self.arrays if each.rows and not each.columns and each.type == type_]

    # What may be touched

    def may(self, scope, cells, how):
        """Whether a task may touch all these cells; sometimes that is said without a look."""
        if self.slips():
            return True
        return all(scope.task.refusal(cell, how) is None for cell in cells)

    def touched(self, scope, how):
        """An expression of a cell that may be touched so, with the cells that it may be, or None. No cell of an `int` is folded."""
        places = [*self.arrays, *self.arrays, *scope.pointers]
        for _ in range(12):
            place = self.random.choice(places)
            if isinstance(place, str):
                array, first, length = scope.pointers[place]
            else:
                array, first, length = place, 0, place.size
            if how in FOLDS and array.type == "int":
                continue
            text, cells = self.element(scope, place, array, first, length)
            if self.may(scope, cells, how):
                if how == "write" and len(cells) == 1:
                    scope.task.unwritten.discard(cells[0])
                return text, cells
        return None

    def element(self, scope, place, array, first, length):
        """An expression of a cell of an array or behind a pointer, and all the cells that it may be."""
        if array.rows is None:
            return array.name, array.cells()
        name = place if isinstance(place, str) else array.name
        if array.columns and not isinstance(place, str):
            row, column = self.random.randrange(array.rows), self.random.randrange(array.columns)
            cell = array.start + row * array.columns + column
            return self.choose(f"{name}[{row}][{column}]", f"*({name}[{row}] + {column})"), [cell]
        counters = [(counter, low, high) for counter, (low, high) in scope.counters.items() if 0 <= low and high <= length]
        if counters and self.chance(0.6):
            counter, low, high = self.random.choice(counters)
            return f"{name}[{counter}]", array.cells(first + low, high - low)
        if self.chance(0.15) and length in (2, 4, 8):
            return f"{name}[{self.plain(scope)} & {length - 1}]", array.cells(first, length)
        index = self.random.randrange(length) + (length if self.slips() else 0)
        return self.choose(f"{name}[{index}]", f"{name}[{index}]", f"*({name} + {index})", f"({name} + {index})[0]"), array.cells(first + index, 1)

    # Expressions

    def plain(self, scope):
        """A number without a touch."""
        names = [*scope.numbers, *scope.counters]
        return self.random.choice(names) if names and self.chance(0.6) else self.choose(*NUMBERS)

    def expression(self, scope, depth=2):
        if depth == 0 or self.chance(0.25):
            if self.chance(0.55):
                found = self.touched(scope, "read")
                if found:
                    return found[0]
            return self.plain(scope)
        form = self.random.randrange(10)
        left = self.expression(scope, depth - 1)
        if form == 0:
            return f"{self.choose(*PREFIXES)}({left})"
        if form == 1:
            return f"(({left}) {self.choose('/', '/', '%')} {self.choose('2', '3', f'({self.expression(scope, 0)} | 1)')})"
        if form == 2:
            return f"(({left}) {self.choose('<<', '>>')} {self.choose('1', '3', f'({self.plain(scope)} & 15)')})"
        if form == 3:
            call = self.call_of_a_number(scope, depth)
            if call:
                return call
        operator = self.choose("+", "-", "*", "+", "-", "&", "|", "^", "<", "<=", "==", "!=", "&&", "||", ">", ">=")
        right = self.expression(scope, depth - 1)
        return f"({left} {operator} {right})"

    # Functions. A maker gives the lines of a function and how it is called at a place: an expression or a statement, or None where it may not be.

    def make_functions(self):
        makers = [self.square, self.narrow, self.sum_of, self.count_down, self.talk, self.fill, self.spawn, self.reader]
        makers += [self.task_of_cells, self.task_of_sums, self.task_of_copies]
        for maker in self.random.sample(makers, self.random.randint(3, 6)):
            maker()

    def add_function(self, kind, lines, call):
        self.functions.append((kind, call))
        self.lines += lines

    def call_of_a_number(self, scope, depth):
        calls = [call for kind, call in self.functions if kind == "number"]
        return self.random.choice(calls)(scope, depth) if calls else None

    def part_of_a_vector(self, scope, how, least=1, type_="long"):
        """A pointer into an array, with the cells behind it that may be touched so, and the text of how many they are."""
        for _ in range(6):
            array = self.random.choice(self.vectors(type_))
            first = self.random.randrange(array.size - least + 1)
            count = self.random.randint(least, array.size - first)
            if self.may(scope, array.cells(first, count), how):
                text = self.choose(f"&{array.name}[{first}]", f"{array.name} + {first}") if first else array.name
                return text, array, first, count
        return None

    def square(self):
        add = self.choose(*NUMBERS)
        type_, parameter = self.choose(*TYPES), self.choose(*TYPES)
        lines = [f"{type_} square({parameter} n) {{", f"  if (n > 40) return n + {add};", "  return n * n - n / 3;", "}"]
        self.add_function("number", lines, lambda scope, depth: f"square({self.expression(scope, depth - 1)})")

    def narrow(self):
        lines = ["int narrow(int x, unsigned long y) {", "  int low = x + y;", "  low <<= 3; low -= y;", "  return low ^ x;", "}"]
        self.add_function("number", lines, lambda scope, depth: f"narrow({self.expression(scope, depth - 1)}, {self.plain(scope)})")

    def count_down(self):
        lines = ["long down(long n) {", "  long k;", "  while (n > 0) {", "    n--;", "    if (n == 3) continue;"]
        lines += ["    if (n == 1) break;", "    k += n;", "  }", "  return k;", "}"]
        self.add_function("number", lines, lambda scope, depth: f"down({self.plain(scope)} & 7)")

    def sum_of(self):
        lines = ["long sum(long *p, long n) {", "  if (n == 0) return 0;", "  return *p + sum(p + 1, n - 1);", "}"]

        def call(scope, _depth):
            part = self.part_of_a_vector(scope, "read")
            return f"sum({part[0]}, {part[3]})" if part else None

        self.add_function("number", lines, call)

    def reader(self):
        scalar = self.random.choice([each for each in self.arrays if each.rows is None])
        lines = [f"long reads() {{ return {scalar.name} + 1; }}"]
        self.add_function("number", lines, lambda scope, _depth: "reads()" if self.may(scope, scalar.cells(), "read") else None)

    def talk(self):
        lines = ["void talk(long n) {", '  printf("talk %ld\\n", n);', "  if (n > 5) { talk(n / 2); return; }", "}"]
        self.add_function("statement", lines, lambda scope: f"talk({self.expression(scope, 1)} & 31);")

    def fill(self):
        lines = ["void fill(long *p, long n, long x) {", "  for (long k = 0; k < n; k++) {", "    *p = x + k;", "    p++;", "  }", "}"]

        def call(scope):
            part = self.part_of_a_vector(scope, "write")
            if not part:
                return None
            value = self.expression(scope, 1)
            scope.task.unwritten -= set(part[1].cells(part[2], part[3]))
            return f"fill({part[0]}, {part[3]}, {value});"

        self.add_function("statement", lines, call)

    def named(self, scope, cells, mode):
        """Whether a task may name these cells for a child."""
        if self.slips():
            return True
        return all(cell not in scope.task.released and scope.task.covers(cell, mode) for cell in cells)

    def lend(self, scope, cells, mode):
        if mode == "write":
            scope.task.unwritten -= set(cells)
        if not scope.task.final:
            scope.task.lend({cell: (mode, True) for cell in cells})

    def part_to_name(self, scope, mode, least=1):
        for _ in range(6):
            array = self.random.choice(self.vectors())
            first = self.random.randrange(array.size - least + 1)
            count = self.random.randint(least, array.size - first)
            if self.named(scope, array.cells(first, count), mode):
                return array, first, count
        return None

    def pointer_to(self, array, first):
        return self.choose(f"&{array.name}[{first}]", f"{array.name} + {first}")

    def spawn(self):
        extra = self.choose("", " priority(x)", " wait", " final(x > 2)", " label(spawned)")
        lines = ["void spawn(long *p, long x) {", f"#pragma oss task inout(p[1]){extra}", "  p[1] = p[1] * 2 + x;", "}"]

        def call(scope):
            part = self.part_to_name(scope, "write", 2)
            if not part:
                return None
            text = f"spawn({self.pointer_to(*part[:2])}, {self.plain(scope)});"
            self.lend(scope, part[0].cells(part[1] + 1, 1), "write")
            return text

        self.add_function("statement", lines, call)

    def task_of_cells(self):
        section = self.choose("p[0;n]", "[n]p", "p[0:n - 1]", "p[:n - 1]", "{ p[k], k = 0; n }")
        extra = self.choose("", " if(n > 2)", " final(n > 3)", " wait priority(n)", " label(\"cells\")")
        lines = [
            f"#pragma oss task inout({section}){extra}",
            "void cells(long *p, long n, int x) {",
            "  for (long k = 0; k < n; k++) {",
            f"    {self.choose('p[k] += x;', 'p[k] = p[k] * 3 + x;', 'p[k]++;', 'p[k] -= x; p[k] ^= k;')}",
            self.choose("    if (k > 3) return;", "    if (x == 3) continue;", "    ;"),
            "  }",
            "}",
        ]

        def call(scope):
            part = self.part_to_name(scope, "write")
            if not part:
                return None
            text = f"cells({self.pointer_to(*part[:2])}, {part[2]}, {self.plain(scope)});"
            self.lend(scope, part[0].cells(part[1], part[2]), "write")
            return text

        self.add_function("statement", lines, call)

    def task_of_sums(self):
        operator = self.choose("+", "^", "|", "+")
        lines = [f"#pragma oss task reduction({operator}: *to)", "void sums(long *to, long n) {", f"  *to {operator}= n;", f"  if (n > 4) *to {operator}= 1;", "}"]

        def call(scope):
            part = self.part_to_name(scope, operator)
            if not part:
                return None
            text = f"sums({self.pointer_to(*part[:2])}, {self.plain(scope)});"
            self.lend(scope, part[0].cells(part[1], 1), operator)
            return text

        self.add_function("statement", lines, call)

    def task_of_copies(self):
        lines = ["#pragma oss task in(from[0;n]) out(to[0;n])", "void copy(long *from, long *to, long n) {", "  while (n > 0) { n--; to[n] = from[n] + n; }", "}"]

        def call(scope):
            a, b = self.vectors()[:2]
            if self.chance(0.5):
                a, b = b, a
            count = self.random.randint(1, min(a.size, b.size))
            if not self.named(scope, a.cells(0, count), "read") or not self.named(scope, b.cells(0, count), "write"):
                return None
            self.lend(scope, a.cells(0, count), "read")
            self.lend(scope, b.cells(0, count), "write")
            return f"copy({a.name}, {b.name}, {count});"

        self.add_function("statement", lines, call)

    # Sections and clauses

    def section(self, scope):
        """The text of a section, its array and its cells."""
        if scope.pointers and self.chance(0.2):
            name = self.random.choice(list(scope.pointers))
            array, first, length = scope.pointers[name]
            text, low, count = self.part(scope, name, length, False)
            return text, array, array.cells(first + low, count)
        array = self.random.choice(self.arrays)
        if array.rows is None or self.chance(0.25):
            return array.name, array, array.cells()
        if array.columns:
            return self.section_of_a_grid(scope, array)
        if self.chance(0.15) and array.size >= 4:
            step = self.choose(2, 2, 3)
            turns = self.random.randint(0, (array.size - 1) // step + 1)
            return f"{{ {array.name}[k * {step}], k = 0; {turns} }}", array, [array.start + step * turn for turn in range(turns)]
        text, low, count = self.part(scope, array.name, array.size, True)
        return text, array, array.cells(low, count)

    def part(self, scope, name, length, is_array):
        """A section of neighbours: its text, its first index and its length."""
        low = self.random.randrange(length)
        count = self.random.randint(1, length - low)
        if self.slips():
            count = self.choose(count + length, -1, 0)
        forms = [
            (f"{name}[{low}]", low, 1), (f"{name}[{low}]", low, 1), (f"{name}[{low};{count}]", low, count), (f"{name}[{low}:{low + count - 1}]", low, count),
            (f"[{count}]{name}", 0, count), (f"*{name}", 0, 1), (f"{name}[:{count - 1}]", 0, count), (f"{name}[9;0]", 0, 0),
        ]
        if is_array:
            forms += [(f"{name}[{low}:]", low, length - low), (f"{name}[:]", 0, length)]
        counters = [(counter, at) for counter, (at, behind) in scope.counters.items() if behind == at + 1 and 0 <= at < length]
        if counters:
            counter, at = self.random.choice(counters)
            forms += [(f"{name}[{counter}]", at, 1)] * 3
        return self.random.choice(forms)

    def section_of_a_grid(self, scope, array):
        name = array.name
        row = self.random.randrange(array.rows)
        rows = self.random.randint(1, array.rows - row)
        column = self.random.randrange(array.columns)
        columns = self.random.randint(1, array.columns - column)

        def cells(rows_, columns_):
            return [array.start + each * array.columns + place for each in rows_ for place in columns_]

        every_row, every_column = range(array.rows), range(array.columns)
        some_rows, some_columns = range(row, row + rows), range(column, column + columns)
        return self.random.choice([
            (f"{name}[{row}]", array, cells([row], every_column)),
            (f"{name}[{row};{rows}]", array, cells(some_rows, every_column)),
            (f"{name}[:{row}]", array, cells(range(row + 1), every_column)),
            (f"{name}[{row}][{column}]", array, cells([row], [column])),
            (f"{name}[:][{column}]", array, cells(every_row, [column])),
            (f"{name}[{row}:{row + rows - 1}][{column};{columns}]", array, cells(some_rows, some_columns)),
            (f"{name}[{row};{rows}][{column}:]", array, cells(some_rows, range(column, array.columns))),
            (f"{{ {name}[k], k = {row}; {rows} }}", array, cells(some_rows, every_column)),
            (f"{{ {name}[k][{column}], k = 0; {array.rows} }}", array, cells(every_row, [column])),
        ])

    def clauses(self, scope, final):
        """The texts of some clauses with cells, and the rights and the unwritten cells that they give, or None for rights that cannot be joined."""
        texts, rights, fresh = [], {}, {}
        for _ in range(self.choose(0, 1, 2, 2, 3, 3, 4, 5)):
            word = self.choose("in", "in", "out", "inout", "inout", "weakin", "weakout", "weakinout", "reduction", "weakreduction")
            operator = self.choose("+", "+", "&", "|", "^") if "reduction" in word else None
            mode = operator or ("read" if word in ("in", "weakin") else "write")
            found = []
            for _ in range(self.choose(1, 2, 2, 3)):
                text, array, cells = self.section(scope)
                if operator and array.type == "int" or not self.named(scope, cells, mode):
                    continue
                if any(cell in rights and rights[cell][0] != mode and (operator or rights[cell][0] in FOLDS) for cell in cells):
                    if not self.slips():
                        continue
                found.append(text)
                for cell in cells:
                    known = rights.get(cell, (mode, False))
                    rights[cell] = mode if known[0] == mode else "write", known[1] or final or not word.startswith("weak")
                    fresh[cell] = fresh.get(cell, True) and word in ("out", "weakout")
            if found:
                texts.append(f"{word}({operator + ': ' if operator else ''}{', '.join(found)})")
        return texts, rights, {cell for cell, is_fresh in fresh.items() if is_fresh}

    # Statements

    def statements(self, scope, indent, most):
        """Some statements, each a list of lines."""
        lines = []
        for _ in range(most):
            if self.left <= 0:
                break
            lines += self.statement(scope, indent)
        return lines or [indent + ";"]

    def statement(self, scope, indent):
        self.left -= 1
        makers = [self.assignment] * 5 + [self.task] * 6 + [self.fold] * 2 + [self.print, self.print, self.declare, self.pointer, self.call, self.call]
        makers += [self.if_, self.for_, self.while_, self.tasks_in_a_loop, self.task_loop, self.wait, self.wait_on, self.release, self.block, self.jump, self.step]
        if len(indent) > 10:
            makers = [self.assignment, self.assignment, self.fold, self.print, self.wait, self.task]
        for _ in range(8):
            lines = self.random.choice(makers)(scope, indent)
            if lines:
                return lines
        return [indent + ";"]

    def assignment(self, scope, indent):
        if scope.numbers and self.chance(0.25):
            operator = self.choose("=", "+=", "-=", "*=", "^=", "|=", "&=")
            return [f"{indent}{self.random.choice(scope.numbers)} {operator} {self.expression(scope)};"]
        if self.chance(0.7):
            value = self.expression(scope)
            found = self.touched(scope, "write")
            return [f"{indent}{found[0]} = {value};"] if found and self.is_target(found[0]) else None
        found = self.touched(scope, "read")
        if not found or not self.is_target(found[0]) or not self.may(scope, found[1], "write"):
            return None
        operator, value = self.choose(("-=", self.expression(scope, 1)), ("*=", self.expression(scope, 1)), ("/=", "3"), ("%=", "7"), ("<<=", "1"), (">>=", "2"))
        return [f"{indent}{found[0]} {operator} {value};"]

    def is_target(self, text):
        return not text.startswith("(")

    def fold(self, scope, indent):
        operator = self.choose("+", "+", "&", "|", "^")
        found = self.touched(scope, operator)
        if not found or not self.is_target(found[0]):
            return None
        if operator == "+" and self.chance(0.3):
            return [indent + self.choose(f"{found[0]}++;", f"++{found[0]};")]
        return [f"{indent}{found[0]} {operator}= {self.expression(scope, 1)};"]

    def step(self, scope, indent):
        if not scope.numbers:
            return None
        name = self.random.choice(scope.numbers)
        return [indent + self.choose(f"{name}++;", f"--{name};", f"{name}--;", f"{name} %= 5;", f"{name} >>= 1;")]

    def print(self, scope, indent):
        values = [self.expression(scope) for _ in range(self.choose(1, 1, 2, 3))]
        words = " ".join(self.choose("%ld", "%ld", "%d", "%lu") for _ in values)
        return [f'{indent}printf("{words}{self.choose("", "%%")}\\n", {", ".join(values)});']

    def declare(self, scope, indent):
        name = self.new_name("x")
        value = f" = {self.expression(scope)}" if self.chance(0.8) else ""
        scope.numbers.append(name)
        return [f"{indent}{self.choose('long', 'long', 'int', 'unsigned long')} {name}{value};"]

    def pointer(self, scope, indent):
        name = self.new_name("p")
        array = self.random.choice(self.vectors())
        first = self.random.randrange(array.size)
        scope.pointers[name] = array, first, array.size - first
        if first and self.chance(0.3):
            return [f"{indent}long *{name} = {array.name};", f"{indent}{name} += {first};"]
        return [f"{indent}long *{name} = {self.pointer_to(array, first)};"]

    def call(self, scope, indent):
        calls = [call for kind, call in self.functions if kind == "statement"]
        if not calls:
            return None
        if scope.in_loop:
            # what it lends would be lent in the next turn
            return None
        text = self.random.choice(calls)(scope)
        return [indent + text] if text else None

    def block(self, scope, indent):
        return [indent + "{", *self.statements(scope.inner(), indent + "  ", 3), indent + "}"]

    def jump(self, scope, indent):
        if scope.in_loop != "loop":
            return None
        return [f"{indent}if ({self.expression(scope, 1)} > {self.choose(*NUMBERS)}) {self.choose('break', 'continue')};"]

    def branch(self, scope, indent, most, **changes):
        """Statements that may be passed over, in a block."""
        before = copy_of(scope.task)
        inner = scope.inner(straight=False, **changes)
        lines = self.statements(inner, indent + "  ", most)
        return lines, before

    def if_(self, scope, indent):
        test = self.expression(scope)
        lines, before = self.branch(scope, indent, 3)
        found = [f"{indent}if ({test}) {{", *lines, indent + "}"]
        if self.chance(0.5):
            after = scope.task
            scope.task = before
            other, untouched = self.branch(scope, indent, 2)
            worst_of(after, scope.task)
            scope.task = after
            return [*found[:-1], indent + "} else {", *other, indent + "}"]
        worst_of(scope.task, before)
        return found

    def turns(self, scope, indent, most, **changes):
        """Statements that may be repeated: what they lend is waited for."""
        lines, before = self.branch(scope, indent, most, in_loop="loop", **changes)
        if set(scope.task.lent.items()) - set(before.lent.items()):
            lines.append("#pragma oss taskwait")
            # a jump may pass the wait
            lines = [line for line in lines if not line.endswith((" break;", " continue;"))] or [";"]
        worst_of(scope.task, before)
        return lines

    def for_(self, scope, indent):
        if scope.in_loop and self.chance(0.6):
            return None
        name = self.new_name("k")
        low, high = self.choose((0, 2), (0, 3), (0, 4), (1, 4), (2, 6))
        counters = {**scope.counters, name: (low, high)}
        lines = self.turns(scope, indent, 3, counters=counters)
        step = self.choose(f"{name}++", f"++{name}", f"{name} += 1")
        return [f"{indent}for (long {name} = {low}; {name} < {high}; {step}) {{", *lines, indent + "}"]

    def while_(self, scope, indent):
        if scope.in_loop and self.chance(0.8):
            return None
        name = self.new_name("w")
        lines = self.turns(scope, indent, 2)
        return [
            f"{indent}{{", f"{indent}  long {name} = {self.choose(1, 2, 3)};", f"{indent}  while ({name} > 0) {{", f"{indent}    {name}--;", *lines,
            f"{indent}  }}", f"{indent}}}",
        ]

    def wait(self, scope, indent):
        if not scope.task.lent and self.chance(0.7):
            return None
        scope.task.lent.clear()
        return [indent + ";"] if self.slips() and self.chance(0.5) else ["#pragma oss taskwait"]

    def wait_on(self, scope, indent):
        found = []
        for _ in range(self.choose(1, 1, 2)):
            text, _, cells = self.section(scope)
            safe = all(scope.task.right(cell) and cell not in scope.task.released for cell in cells)
            if safe or self.slips():
                found.append(text)
                for cell in cells:
                    scope.task.lent.pop(cell, None)
        return [f"#pragma oss taskwait on({', '.join(found)})"] if found else None

    def release(self, scope, indent):
        if not scope.straight or scope.depth == 0 and self.chance(0.8):
            return None
        text, _, cells = self.section(scope)
        word = self.choose("in", "out", "inout", "inout", "weakin", "weakinout")
        if not self.named(scope, cells, "read" if word in ("in", "weakin") else "write"):
            return None
        scope.task.released.update(cells)
        return [f"#pragma oss release {word}({text})"]

    # Tasks

    def task(self, scope, indent):
        if scope.depth > 4:
            return None
        value = self.choose(*[None] * 5, 0, 1, 1)
        final = scope.task.final or value == 1
        texts, rights, unwritten = self.clauses(scope, final)
        if value is not None:
            texts.append(f"final({value})")
        waited = self.chance(0.1)
        if waited:
            texts.append("if(0)")
        elif self.chance(0.1):
            texts.append(f"if({self.expression(scope, 1)})")
        if self.chance(0.15):
            texts.append("wait")
        if self.chance(0.15):
            texts.append(f"priority({self.expression(scope, 1)})")
        if self.chance(0.05):
            texts.append(self.choose("label(some)", 'label("a task")'))
        self.random.shuffle(texts)
        pragma = " ".join(["#pragma oss task", self.choose(" ", ", ").join(texts)]).rstrip()
        child = Task((), 0, final, rights, unwritten)
        inner = Scope(child, scope.numbers, scope.pointers, False, True, scope.depth + 1)
        inner.counters = dict(scope.counters)
        lines = self.statements(inner, indent + "  ", self.choose(1, 2, 3, 4, 6))
        scope.task.unwritten -= {cell for cell, right in rights.items() if right[0] == "write"}
        if not scope.task.final and not waited:
            scope.task.lend(rights)
        return [pragma, indent + "{", *lines, indent + "}"]

    def tasks_in_a_loop(self, scope, indent):
        """A loop that creates tasks and does nothing else, so that they may be side by side."""
        parts = [part for part in [self.part_to_name(scope, "write", 2)] if part]
        if not parts or scope.depth > 4:
            return None
        array, first, count = parts[0]
        name = self.new_name("k")
        sums = [each for each in self.arrays if each.rows is None and each.type != "int" and self.named(scope, each.cells(), "+")]
        texts, rights, body = [], {}, []
        form = self.random.randrange(4)
        cells = array.cells(first, count)
        element = f"{array.name}[{name}]"
        if form == 0:
            texts, rights, body = [f"inout({element})"], {cell: ("write", True) for cell in cells}, [f"{element} = {element} * 2 + {name};"]
        elif form == 1 and sums:
            total = self.random.choice(sums)
            texts, rights = [f"in({element})", f"reduction(+: {total.name})"], {cell: ("read", True) for cell in cells}
            rights[total.start] = "+", True
            body = [f"{total.name} += {element};"]
            if total.start in cells:
                return None
        elif form == 2:
            texts, rights = [f"weakinout({array.name}[{name}:{first + count - 1}])"], {cell: ("write", True) for cell in cells}
            body = [f"#pragma oss task inout({element})", f"{element} += {name};", f"#pragma oss task in({element})", f'printf("%ld ", {element});']
        else:
            texts, rights, body = [f"out({element})"], {cell: ("write", True) for cell in cells}, [f"{element} = {name} * {self.choose(*NUMBERS)};"]
        if self.chance(0.3):
            texts.append(self.choose("wait", f"priority({name})", f"priority(-{name})", f"final({name} > 1)", f"if({name} & 1)"))
        self.lend_all(scope, rights)
        return [
            f"{indent}for (long {name} = {first}; {name} < {first + count}; {name}++)", f"#pragma oss task {' '.join(texts)}", indent + "{",
            *[line if line.startswith("#") else indent + "  " + line for line in body], indent + "}",
        ]

    def lend_all(self, scope, rights):
        scope.task.unwritten -= {cell for cell, right in rights.items() if right[0] == "write"}
        if not scope.task.final:
            scope.task.lend(rights)

    def task_loop(self, scope, indent):
        part = self.part_to_name(scope, "write", 2)
        if not part or scope.depth > 4:
            return None
        array, first, count = part
        name = self.new_name("t")
        end = first + count
        grain = self.random.randint(1, count)
        section = f"{array.name}[{name}; {grain} - ({name} + {grain} > {end}) * ({name} + {grain} - {end})]"
        if count % grain == 0 or self.reckless:
            section = self.choose(f"{array.name}[{name};{grain}]", f"{array.name}[{name}:{name} + {grain - 1}]")
        rights = {cell: ("write", True) for cell in array.cells(first, count)}
        extra = self.choose("", "", " wait", f" priority({name})", f" final({name} > 2)", f" if({name} != {first})")
        clauses = [f"grainsize({self.choose(str(grain), f'{grain} + 0')})", self.choose("inout", "inout", "out") + f"({section})"]
        if grain == 1 and self.chance(0.5):
            clauses[0] = self.choose("", "grainsize(0)", "grainsize(-3)")
        self.random.shuffle(clauses)
        body = self.choose(f"{array.name}[{name}] = {name} + {self.plain(scope)};", f"{{ if ({name} == 2) continue; {array.name}[{name}] = 7 - {name}; }}")
        self.lend_all(scope, rights)
        return [
            f"#pragma oss taskloop {' '.join(clauses)}{extra}", f"{indent}for (long {name} = {first}; {name} < {end}; {name}++)", f"{indent}  {body}",
        ]

    # The program

    def program(self):
        self.make_globals()
        self.make_functions()
        scope = Scope(Task((0,), 0, False, None, set()))
        lines = ["int main() {"]
        while self.left > 0:
            lines += self.statements(scope, "  ", 8)
        lines.append("#pragma oss taskwait")
        scope.task.lent.clear()
        readable = [each for each in self.arrays if each.rows is None and self.may(scope, each.cells(), "read")]
        if readable:
            lines.append(f'  printf("{" ".join("%ld" for _ in readable)}\\n", {", ".join(each.name for each in readable)});')
        waits = [place for place, line in enumerate(lines) if line == "#pragma oss taskwait"]
        if self.reckless and waits and self.chance(0.6):
            del lines[self.random.choice(waits)]
        return "\n".join([*self.lines, *lines, "}", ""])
