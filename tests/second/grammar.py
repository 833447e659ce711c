"""The grammar: from tokens to the tree of a program, and the first token that fits nowhere or passes a limit.

The tokens are read from the left with one token of lookahead, and none is taken that no program could go on with. So the token at which the
reader stops is the offending one.
"""

import trees
from words import LEFT_OUT, Refused, tokens

LEVELS = 64
OPERATORS = 256

LEFT_OUT_SYMBOLS = ("?", ".", "->")
LEFT_OUT_WORDS = frozenset(
    "assert atomic commutative concurrent cost critical device firstprivate onready private shared taskfor taskiter weakcommutative".split()
)
PREFIXES = ("-", "+", "!", "~", "*", "&")
ASSIGNMENTS = ("=", "+=", "-=", "*=", "/=", "%=", "&=", "|=", "^=", "<<=", ">>=")
STEPS = ("++", "--")
TIGHTNESS = {
    operator: 10 - place
    for place, operators in enumerate(("* / %", "+ -", "<< >>", "< <= > >=", "== !=", "&", "^", "|", "&&", "||"))
    for operator in operators.split()
}
TYPES = ("int", "long", "unsigned")
DEPENDENCIES = ("in", "out", "inout", "weakin", "weakout", "weakinout")
REDUCTIONS = ("reduction", "weakreduction")
FOLDS = ("+", "&", "|", "^")
VALUES = ("if", "final", "priority")


class Reader:
    """Goes through the tokens of a text."""

    def __init__(self, text):
        self.tokens = tokens(text)
        self.place = 0
        self.operators = 0

    @property
    def next(self):
        return self.tokens[self.place]

    def take(self):
        self.place += 1
        return self.tokens[self.place - 1]

    def is_symbol(self, *texts):
        return self.next.kind == "symbol" and self.next.text in texts

    def is_keyword(self, *texts):
        return self.next.kind == "keyword" and self.next.text in texts

    def is_word(self, *texts):
        """Whether the next token is one of these words of pragmas, `if` among them."""
        return self.next.kind in ("name", "keyword") and self.next.text in texts

    def offend(self):
        """Refuses the next token, which fits nowhere."""
        token = self.next
        if token.kind == "last":
            kind = "Syntax"
        elif token.kind == "directive" or self.is_symbol(*LEFT_OUT_SYMBOLS) or self.is_keyword(*LEFT_OUT):
            kind = "Unsupported"
        elif token.in_pragma:
            kind = "Unsupported" if token.kind == "name" and token.text in LEFT_OUT_WORDS else "BadPragma"
        else:
            kind = "Syntax"
        raise Refused(kind, token.line)

    def symbol(self, *texts):
        if not self.is_symbol(*texts):
            self.offend()
        return self.take()

    def keyword(self, *texts):
        if not self.is_keyword(*texts):
            self.offend()
        return self.take()

    def name(self):
        if self.next.kind != "name":
            self.offend()
        return self.take()

    def goes_on(self, symbol=","):
        """Whether this symbol is next; it is taken."""
        if not self.is_symbol(symbol):
            return False
        self.take()
        return True

    def limit(self, level):
        """Refuses the next token, with which the text can go on, where it would have too high a level."""
        if level > LEVELS:
            raise Refused("TooLarge", self.next.line)

    # Expressions

    def whole(self):
        """A whole expression."""
        self.operators = 0
        return self.expression(1)

    def expression(self, level, loosest=1):
        left = self.operand(level)
        while self.next.kind == "symbol" and TIGHTNESS.get(self.next.text, 0) >= loosest:
            operator = self.operator()
            right = self.expression(level, TIGHTNESS[operator] + 1)
            left = trees.Binary(left.line, operator, left, right)
        return left

    def operator(self):
        self.operators += 1
        if self.operators > OPERATORS:
            raise Refused("TooLarge", self.next.line)
        return self.take().text

    def begins_expression(self):
        return self.next.kind in ("number", "name") or self.is_symbol("(", *PREFIXES)

    def operand(self, level):
        if not self.begins_expression():
            self.offend()
        self.limit(level)
        if self.is_symbol(*PREFIXES):
            line = self.next.line
            operator = self.operator()
            return trees.Prefix(line, operator, self.operand(level + 1))
        element = self.primary(level)
        for _ in range(2):
            if self.is_symbol("["):
                element = self.index(element, level)
        return element

    def index(self, base, level):
        """A base with the index that stands behind it."""
        self.symbol("[")
        index = self.expression(level + 1)
        self.symbol("]")
        return trees.Index(base.line, base, index)

    def primary(self, level):
        token = self.take()
        if token.kind == "number":
            return trees.Number(token.line, token.value, token.unsigned)
        if token.kind == "symbol":
            inner = self.expression(level + 1)
            self.symbol(")")
            return inner
        if self.is_symbol("("):
            return trees.Call(token.line, token.text, self.arguments(lambda: self.expression(level + 1)))
        return trees.Name(token.line, token.text)

    def arguments(self, argument):
        """The arguments of a call in their brackets, each of which `argument` reads."""
        self.symbol("(")
        found = []
        if not self.is_symbol(")"):
            found.append(argument())
            while self.goes_on():
                found.append(argument())
        self.symbol(")")
        return found

    # Statements

    def type(self):
        if not self.is_keyword(*TYPES):
            self.offend()
        word = self.take().text
        if word == "unsigned":
            self.keyword("long")
        return word

    def block(self, level):
        """A block whose statements have this level."""
        line = self.symbol("{").line
        statements = []
        while not self.is_symbol("}"):
            if self.is_keyword(*TYPES):
                self.limit(level)
                statements.append(self.declaration())
                self.symbol(";")
            else:
                statements.append(self.statement(level))
        self.take()
        return trees.Block(line, statements)

    def declaration(self):
        line = self.next.line
        type_ = self.type()
        found = [self.local()]
        while self.goes_on():
            found.append(self.local())
        return trees.Declaration(line, type_, found)

    def local(self):
        pointer = self.goes_on("*")
        name = self.name()
        value = self.whole() if self.goes_on("=") else None
        return trees.Local(name.line, name.text, pointer, value)

    def begins_simple(self):
        return self.next.kind == "name" or self.is_symbol("*", *STEPS)

    def begins_statement(self):
        return (
            self.begins_simple()
            or self.next.kind == "start"
            or self.is_symbol("{", ";")
            or self.is_keyword("printf", "if", "while", "for", "return", "break", "continue")
        )

    def statement(self, level):
        if not self.begins_statement():
            self.offend()
        self.limit(level)
        if self.begins_simple():
            found = self.simple()
            self.symbol(";")
            return found
        if self.is_symbol("{"):
            return self.block(level + 1)
        if self.next.kind == "start":
            return self.directive(level)
        token = self.take()
        if token.kind == "symbol":
            return trees.Empty(token.line)
        return getattr(self, token.text + "_statement")(token.line, level)

    def in_brackets(self):
        self.symbol("(")
        inner = self.whole()
        self.symbol(")")
        return inner

    def printf_statement(self, line, _level):
        self.symbol("(")
        if self.next.kind != "string":
            self.offend()
        string = self.take().text
        arguments = []
        while self.goes_on():
            arguments.append(self.whole())
        self.symbol(")")
        self.symbol(";")
        return trees.Print(line, string, arguments)

    def if_statement(self, line, level):
        test = self.in_brackets()
        then = self.statement(level + 1)
        otherwise = None
        if self.is_keyword("else"):
            self.take()
            otherwise = self.statement(level + 1)
        return trees.If(line, test, then, otherwise)

    def while_statement(self, line, level):
        test = self.in_brackets()
        return trees.While(line, test, self.statement(level + 1))

    def for_statement(self, line, level):
        self.symbol("(")
        first = None
        if self.is_keyword(*TYPES):
            first = self.declaration()
        elif self.begins_simple():
            first = self.simple()
        self.symbol(";")
        test = self.whole() if self.begins_expression() else None
        self.symbol(";")
        step = self.simple() if self.begins_simple() else None
        self.symbol(")")
        return trees.For(line, first, test, step, self.statement(level + 1))

    def return_statement(self, line, _level):
        value = self.whole() if self.begins_expression() else None
        self.symbol(";")
        return trees.Return(line, value)

    def break_statement(self, line, _level):
        self.symbol(";")
        return trees.Break(line)

    def continue_statement(self, line, _level):
        self.symbol(";")
        return trees.Continue(line)

    def step(self, line, target, sign):
        return trees.Assign(line, target, sign[0], trees.Number(line, 1, False))

    def simple(self):
        line = self.next.line
        if self.is_symbol(*STEPS):
            sign = self.take().text
            return self.step(line, self.target(), sign)
        if self.next.kind == "name" and self.is_symbol_behind("("):
            token = self.take()
            return trees.CallStatement(line, trees.Call(line, token.text, self.arguments(self.whole)))
        target = self.target()
        if self.is_symbol(*STEPS):
            return self.step(line, target, self.take().text)
        operator = self.symbol(*ASSIGNMENTS).text[:-1]
        return trees.Assign(line, target, operator, self.whole())

    def is_symbol_behind(self, text):
        """Whether this symbol stands behind the next token."""
        behind = self.tokens[self.place + 1]
        return behind.kind == "symbol" and behind.text == text

    def target(self):
        line = self.next.line
        if self.goes_on("*"):
            if self.is_symbol("("):
                return trees.Prefix(line, "*", self.in_brackets())
            name = self.name()
            return trees.Prefix(line, "*", trees.Name(name.line, name.text))
        name = self.name()
        found = trees.Name(name.line, name.text)
        for _ in range(2):
            if self.is_symbol("["):
                self.take()
                found = trees.Index(line, found, self.whole())
                self.symbol("]")
        return found

    # Pragmas

    def directive(self, level):
        """A statement that begins with a pragma."""
        line = self.take().line
        if self.is_word("task"):
            self.take()
            pragma = self.clauses(line, VALUES)
            return trees.Task(line, pragma, self.statement(level + 1))
        if self.is_word("taskloop"):
            self.take()
            return self.task_loop(line, level)
        if self.is_word("taskwait"):
            self.take()
            return self.task_wait(line)
        if self.is_word("release"):
            self.take()
            return self.release(line)
        return self.offend()

    def end(self):
        if self.next.kind != "end":
            self.offend()
        self.take()

    def clauses(self, line, values):
        """The clauses of a task or a task loop, to the end of the pragma. Clauses of an expression are those of `values`."""
        found = []
        once = {"wait", "label", *values}
        while self.next.kind != "end":
            self.goes_on()
            token = self.next
            if self.is_word(*DEPENDENCIES):
                found.append(self.dependency())
            elif self.is_word(*REDUCTIONS):
                self.take()
                self.symbol("(")
                fold = self.symbol(*FOLDS).text
                self.symbol(":")
                found.append(trees.Clause(token.line, token.text, fold, self.sections(), None, None))
                self.symbol(")")
            elif self.is_word(*once):
                once.remove(self.take().text)
                found.append(self.clause_once(token))
            else:
                self.offend()
        self.take()
        return trees.Pragma(line, found)

    def clause_once(self, token):
        value = label = None
        if token.text == "label":
            self.symbol("(")
            if self.next.kind not in ("name", "string"):
                self.offend()
            label = self.take().text
            self.symbol(")")
        elif token.text != "wait":
            value = self.in_brackets()
        return trees.Clause(token.line, token.text, None, [], value, label)

    def dependency(self):
        if not self.is_word(*DEPENDENCIES):
            self.offend()
        token = self.take()
        self.symbol("(")
        found = trees.Clause(token.line, token.text, None, self.sections(), None, None)
        self.symbol(")")
        return found

    def task_loop(self, line, level):
        pragma = self.clauses(line, (*VALUES, "grainsize"))
        for_line = self.keyword("for").line
        self.symbol("(")
        self.keyword("long")
        name = self.name()
        self.symbol("=")
        first = self.whole()
        self.symbol(";")
        test = self.name()
        self.symbol("<")
        end = self.whole()
        self.symbol(";")
        step = self.name()
        self.symbol("++")
        self.symbol(")")
        body = self.statement(level + 1)
        return trees.TaskLoop(line, pragma, for_line, name.text, name.line, first, test.text, test.line, end, step.text, step.line, body)

    def task_wait(self, line):
        if self.is_word("on"):
            self.take()
            self.symbol("(")
            sections = self.sections()
            self.symbol(")")
            self.end()
            return trees.WaitOn(line, sections)
        self.end()
        return trees.Wait(line)

    def release(self, line):
        found = [self.dependency()]
        while self.next.kind != "end":
            self.goes_on()
            found.append(self.dependency())
        self.take()
        return trees.Release(line, found)

    def sections(self):
        found = [self.section()]
        while self.goes_on():
            found.append(self.section())
        return found

    def section(self):
        line = self.next.line
        if self.goes_on("*"):
            name = self.name()
            return self.section_of("star", line, name, [])
        if self.goes_on("["):
            count = self.whole()
            self.symbol("]")
            name = self.name()
            return self.section_of("count", line, name, [count])
        if self.goes_on("{"):
            return self.turns(line)
        name = self.name()
        parts = []
        while len(parts) < 2 and self.goes_on("["):
            parts.append(self.extent())
            self.symbol("]")
        return self.section_of("parts" if parts else "name", line, name, parts)

    def section_of(self, form, line, name, parts):
        return trees.Section(line, form, name.text, name.line, parts, None, None, None, None)

    def extent(self):
        line = self.next.line
        low = None if self.is_symbol(":") else self.whole()
        if self.goes_on(";"):
            return trees.Extent(line, "length", low, self.whole())
        if self.goes_on(":"):
            return trees.Extent(line, "bounds", low, self.whole() if self.begins_expression() else None)
        return trees.Extent(line, "one", low, None)

    def turns(self, line):
        """A multidependency, behind its `{`."""
        name = self.name()
        parts = []
        self.symbol("[")
        parts.append(self.whole())
        self.symbol("]")
        if self.goes_on("["):
            parts.append(self.whole())
            self.symbol("]")
        self.symbol(",")
        counter = self.name()
        self.symbol("=")
        start = self.whole()
        self.symbol(";")
        turns = self.whole()
        self.symbol("}")
        return trees.Section(line, "turns", name.text, name.line, parts, counter.text, counter.line, start, turns)

    # Programs

    def program(self):
        """The globals and functions of the text, in its order."""
        items = []
        while self.next.kind != "last":
            pragma = None
            if self.next.kind == "start":
                line = self.take().line
                if not self.is_word("task"):
                    self.offend()
                self.take()
                pragma = self.clauses(line, VALUES)
            if self.is_keyword("void"):
                self.take()
                items.append(self.function(pragma, "void", self.name()))
                continue
            type_ = self.type()
            name = self.name()
            if pragma or self.is_symbol("("):
                items.append(self.function(pragma, type_, name))
            else:
                self.globals(items, type_, name)
        return items

    def globals(self, items, type_, name):
        items.append(self.global_(type_, name))
        while self.goes_on():
            items.append(self.global_(type_, self.name()))
        self.symbol(";")

    def number(self):
        if self.next.kind != "number":
            self.offend()
        return self.take().value

    def global_(self, type_, name):
        value, sizes = 0, []
        if self.goes_on("="):
            sign = -1 if self.goes_on("-") else 1
            value = sign * self.number()
        else:
            while len(sizes) < 2 and self.goes_on("["):
                sizes.append(self.number())
                self.symbol("]")
        rows, columns = (sizes + [None, None])[:2]
        return trees.Global(name.line, type_, name.text, value, rows, columns)

    def function(self, pragma, result, name):
        self.symbol("(")
        parameters = []
        if self.is_keyword("void"):
            self.take()
        elif not self.is_symbol(")"):
            parameters.append(self.parameter())
            while self.goes_on():
                parameters.append(self.parameter())
        self.symbol(")")
        return trees.Function(name.line, pragma, result, name.text, parameters, self.block(1))

    def parameter(self):
        type_ = self.type()
        pointer = self.goes_on("*")
        name = self.name()
        return trees.Parameter(name.line, type_, name.text, pointer)


def read(text):
    """The items of the program in this text, if it is one of the grammar."""
    return Reader(text).program()
