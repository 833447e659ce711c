"""The static rules: the first rule that a program breaks, and what its names and operators mean where it breaks none.

`judge(text)` reads a text and gives a `Program`, or refuses it by `Refused`. The rules are gone through in the order of the text, so the first
one that is found broken is the one to report.
"""

import re

import trees
from grammar import read
from words import Refused

CELLS = 1 << 20
LOCALS = 255
SECTIONS = 64

# The kinds of values. What takes its kind from a mistake has the kind ANY, and may stand at each place.
SIGNED, UNSIGNED, NOTHING, ANY = "signed", "unsigned", "nothing", None
COMPARISONS = ("<", "<=", ">", ">=", "==", "!=", "&&", "||")
CONVERSION = re.compile(r"%(d|ld|lu|%)?")


def is_number(kind):
    return kind in (SIGNED, UNSIGNED)


def is_pointer(kind):
    return isinstance(kind, tuple) and kind[0] == "pointer"


def is_rows(kind):
    return isinstance(kind, tuple) and kind[0] == "rows"


def number_of(type_):
    return UNSIGNED if type_ == "unsigned" else SIGNED


def either(left, right):
    """The kind of what is computed of two numbers."""
    return UNSIGNED if UNSIGNED in (left, right) else SIGNED


def first_of(expression):
    """The part of an expression that begins with its first token that is no `(`."""
    while isinstance(expression, (trees.Binary, trees.Index)):
        expression = expression.left if isinstance(expression, trees.Binary) else expression.base
    return expression


class Variable:
    """A local or a parameter, with its place in the frame of its function."""

    def __init__(self, type_, pointer, slot):
        self.type = type_
        self.pointer = pointer
        self.slot = slot

    def kind(self):
        return ("pointer", self.type) if self.pointer else number_of(self.type)


def kind_of_global(global_):
    if global_.columns is not None:
        return ("rows", global_.type)
    return ("pointer", global_.type) if global_.rows is not None else number_of(global_.type)


def has_elements(named):
    """Whether what a name stands for is an array or a pointer."""
    if isinstance(named, Variable):
        return named.pointer
    return isinstance(named, trees.Global) and named.rows is not None


def is_grid(named):
    return isinstance(named, trees.Global) and named.columns is not None


def conversions(string):
    """The parts of a string of `printf`: the text before each conversion and the word behind its `%`; the last has no word. None if a `%` begins none."""
    parts, text, place = [], "", 0
    for found in CONVERSION.finditer(string):
        text += string[place:found.start()]
        place = found.end()
        if found.group(1) is None:
            return None
        if found.group(1) == "%":
            text += "%"
        else:
            parts.append((text, found.group(1)))
            text = ""
    return parts, text + string[place:]


class Program:
    """Globals in the order of the text, each with its first cell and its number of cells, and functions by their names."""

    def __init__(self, globals_, functions):
        self.globals = globals_
        self.functions = functions
        self.cells = sum(each.size for each in globals_)


class Judge:
    def __init__(self, items):
        self.items = items
        self.outermost = {}
        for item in items:
            self.outermost.setdefault(item.name, item)
        self.scopes = []
        self.locals = 0
        self.most = 0
        self.result = None
        # the nearest loop in the task or function: `loop`, `task loop` or None
        self.loop = None
        self.in_task = False

    # Names

    def look_up(self, name):
        for scope in reversed(self.scopes):
            if name in scope:
                return scope[name]
        return self.outermost.get(name)

    def known(self, name, line):
        named = self.look_up(name)
        if named is None:
            raise Refused("UnknownName", line)
        return named

    def may_declare(self, name, line):
        if name in self.scopes[-1]:
            raise Refused("DuplicateName", line)
        if self.locals >= LOCALS:
            raise Refused("TooLarge", line)

    def bring(self, name, type_, pointer):
        """A local that is brought into scope without a rule."""
        variable = Variable(type_, pointer, self.locals)
        self.scopes[-1][name] = variable
        self.locals += 1
        self.most = max(self.most, self.locals)
        return variable

    def within(self, judge, *what):
        """Judges what has a scope of its own."""
        self.scopes.append({})
        locals_ = self.locals
        judge(*what)
        self.locals = locals_
        self.scopes.pop()

    # Kinds of expressions

    def kind(self, expression):
        if not hasattr(expression, "kind"):
            expression.kind = getattr(self, "kind_of_" + type(expression).__name__)(expression)
        return expression.kind

    def kind_of_Number(self, number):
        return UNSIGNED if number.unsigned else SIGNED

    def kind_of_Name(self, name):
        named = self.look_up(name.name)
        if isinstance(named, Variable):
            return named.kind()
        return kind_of_global(named) if isinstance(named, trees.Global) else ANY

    def kind_of_Call(self, call):
        function = self.look_up(call.name)
        if not isinstance(function, trees.Function):
            return ANY
        return NOTHING if function.result == "void" else number_of(function.result)

    def kind_of_Index(self, element):
        base = self.kind(element.base)
        if is_rows(base):
            return ("pointer", base[1])
        return number_of(base[1]) if is_pointer(base) else ANY

    def kind_of_Prefix(self, prefix):
        if prefix.operator == "!":
            return SIGNED
        operand = self.kind(prefix.operand)
        if prefix.operator == "*":
            return number_of(operand[1]) if is_pointer(operand) else ANY
        if prefix.operator == "&":
            return ("pointer", self.type_of_cell(prefix.operand)) if self.is_cell(prefix.operand) else ANY
        return operand if is_number(operand) else ANY

    def kind_of_Binary(self, binary):
        if binary.operator in COMPARISONS:
            return SIGNED
        left = self.kind(binary.left)
        if binary.operator in ("<<", ">>"):
            return left if is_number(left) else ANY
        right = self.kind(binary.right)
        if not is_number(right):
            return ANY
        if binary.operator in ("+", "-") and is_pointer(left):
            return left
        return either(left, right) if is_number(left) else ANY

    def is_cell(self, expression):
        """Whether this names a cell: a global scalar, an element, or what a pointer points to."""
        if isinstance(expression, trees.Name):
            named = self.look_up(expression.name)
            return isinstance(named, trees.Global) and named.rows is None
        if isinstance(expression, trees.Index) or isinstance(expression, trees.Prefix) and expression.operator == "*":
            return is_number(self.kind(expression))
        return False

    def type_of_cell(self, expression):
        if isinstance(expression, trees.Name):
            return self.look_up(expression.name).type
        return self.kind(expression.base if isinstance(expression, trees.Index) else expression.operand)[1]

    # Rules of expressions

    def check(self, expression, allowed):
        """Judges an expression at a place that allows these kinds."""
        kind = self.kind(expression)
        if kind is not ANY and not allowed(kind):
            first = first_of(expression)
            if isinstance(first, (trees.Name, trees.Call)):
                # at one token a name that is not in scope comes before a wrong kind
                self.known(first.name, first.line)
            raise Refused("WrongKind", expression.line)
        getattr(self, "inside_" + type(expression).__name__)(expression)

    def number(self, expression):
        self.check(expression, is_number)

    def inside_Number(self, number):
        pass

    def inside_Name(self, name):
        name.named = self.known(name.name, name.line)
        if isinstance(name.named, trees.Function):
            raise Refused("WrongKind", name.line)

    def inside_Call(self, call, as_statement=False):
        function = self.known(call.name, call.line)
        if not isinstance(function, trees.Function) or function.name == "main" or function.pragma and not as_statement:
            raise Refused("WrongKind", call.line)
        if len(call.arguments) != len(function.parameters):
            raise Refused("WrongCount", call.line)
        for argument, parameter in zip(call.arguments, function.parameters):
            self.check(argument, self.kept_by(parameter))
        call.function = function

    def kept_by(self, variable):
        """What may be stored in a local or parameter."""
        if variable.pointer:
            return lambda kind: kind == ("pointer", variable.type)
        return is_number

    def inside_Index(self, element):
        self.check(element.base, lambda kind: is_pointer(kind) or is_rows(kind))
        self.number(element.index)
        element.of_rows = is_rows(self.kind(element.base))

    def inside_Prefix(self, prefix):
        if prefix.operator == "*":
            self.check(prefix.operand, is_pointer)
        elif prefix.operator == "&":
            self.check(prefix.operand, lambda kind: self.is_cell(prefix.operand))
        else:
            self.number(prefix.operand)

    def inside_Binary(self, binary):
        if binary.operator in ("+", "-"):
            self.check(binary.left, lambda kind: is_number(kind) or is_pointer(kind))
        else:
            self.number(binary.left)
        self.number(binary.right)
        self.mark(binary, self.kind(binary.left), self.kind(binary.right))

    def mark(self, operation, left, right):
        """Notes whether an operation is one of unsigned numbers."""
        operation.unsigned = left == UNSIGNED if operation.operator in ("<<", ">>") else UNSIGNED in (left, right)

    # Sections

    def clauses(self, clauses):
        """Judges the clauses of one pragma. That of a task loop stands in the scope of its variable, which is not known in the `grainsize`."""
        count = 0
        for clause in clauses:
            for section in clause.sections:
                count += 1
                self.section(section, clause.operator, count)
            if clause.word == "grainsize":
                self.outside(clause.value)
            elif clause.value:
                self.number(clause.value)

    def section(self, section, fold, count):
        named = self.look_up(section.name)
        base_first = section.form in ("name", "parts")
        if base_first:
            self.known(section.name, section.name_line)
        if named is not None and self.is_wrong_section(section, named, fold):
            raise Refused("WrongKind", section.line)
        if count > SECTIONS:
            raise Refused("TooLarge", section.line)
        if section.form == "turns":
            self.known(section.name, section.name_line)
            self.within(self.indices, section)
            self.number(section.start)
            self.number(section.turns)
        else:
            for part in section.parts:
                for expression in (part.low, part.high) if section.form == "parts" else (part,):
                    if expression is not None:
                        self.number(expression)
        section.named = self.known(section.name, section.name_line)

    def is_wrong_section(self, section, named, fold):
        """Whether the form of a section does not fit its base, or a reduction its type."""
        if section.form == "name":
            return not isinstance(named, trees.Global) or fold and named.type == "int"
        if not has_elements(named) or fold and named.type == "int":
            return True
        if section.form in ("star", "count"):
            return is_grid(named)
        if len(section.parts) == 2 and not is_grid(named):
            return True
        open_ended = section.form == "parts" and any(part.form == "bounds" and part.high is None for part in section.parts)
        return open_ended and isinstance(named, Variable)

    def indices(self, section):
        section.slot = self.bring(section.counter, "long", False).slot
        for index in section.parts:
            self.number(index)
        if self.locals > LOCALS:
            raise Refused("TooLarge", section.counter_line)

    # Statements

    def statement(self, statement):
        getattr(self, "judge_" + type(statement).__name__)(statement)

    def judge_Empty(self, statement):
        pass

    judge_Wait = judge_Empty

    def judge_Block(self, block):
        self.within(self.statements, block.statements)

    def statements(self, statements):
        for statement in statements:
            self.statement(statement)

    def judge_Declaration(self, declaration):
        for local in declaration.locals:
            # the mistakes of its name come before its value, in which it is not known
            self.may_declare(local.name, local.line)
            if local.value:
                self.check(local.value, self.kept_by(Variable(declaration.type, local.pointer, 0)))
            local.variable = self.bring(local.name, declaration.type, local.pointer)

    def judge_Assign(self, assign):
        target = assign.target
        variable = self.look_up(target.name) if isinstance(target, trees.Name) else None
        if isinstance(variable, Variable) and variable.pointer:
            if assign.operator not in ("", "+", "-"):
                raise Refused("WrongKind", target.line)
            self.check(target, is_pointer)
            self.check(assign.value, is_number if assign.operator else self.kept_by(variable))
        else:
            is_local = isinstance(variable, Variable)
            self.check(target, lambda kind: is_local or self.is_cell(target))
            self.number(assign.value)
        self.mark(assign, self.kind(target), self.kind(assign.value))

    def judge_CallStatement(self, statement):
        self.inside_Call(statement.call, True)

    def judge_Print(self, print_):
        found = conversions(print_.string)
        if found is None:
            raise Refused("WrongKind", print_.line)
        print_.parts, print_.rest = found
        if len(print_.parts) != len(print_.arguments):
            raise Refused("WrongCount", print_.line)
        for argument in print_.arguments:
            self.number(argument)

    def judge_If(self, if_):
        self.number(if_.test)
        self.statement(if_.then)
        if if_.otherwise:
            self.statement(if_.otherwise)

    def body(self, statement, loop):
        """Judges the statement of a loop."""
        outer, self.loop = self.loop, loop
        self.statement(statement)
        self.loop = outer

    def judge_While(self, while_):
        self.number(while_.test)
        self.body(while_.body, "loop")

    def judge_For(self, for_):
        self.within(self.for_in_scope, for_)

    def for_in_scope(self, for_):
        if for_.first:
            self.statement(for_.first)
        if for_.test:
            self.number(for_.test)
        if for_.step:
            self.statement(for_.step)
        self.body(for_.body, "loop")

    def judge_Return(self, return_):
        if (return_.value is None) != (self.result == "void"):
            raise Refused("WrongKind", return_.line)
        if self.in_task:
            raise Refused("BadJump", return_.line)
        if return_.value:
            self.number(return_.value)

    def judge_Break(self, break_):
        if self.loop != "loop":
            raise Refused("BadJump", break_.line)

    def judge_Continue(self, continue_):
        if self.loop is None:
            raise Refused("BadJump", continue_.line)

    def of_a_task(self, statement, loop):
        """Judges the statement of a task or a task loop."""
        outer, self.in_task = self.in_task, True
        self.body(statement, loop)
        self.in_task = outer

    def judge_Task(self, task):
        self.clauses(task.pragma.clauses)
        self.of_a_task(task.body, None)

    def judge_TaskLoop(self, loop):
        self.within(self.task_loop_in_scope, loop)

    def task_loop_in_scope(self, loop):
        loop.variable = self.bring(loop.name, "long", False)
        # the other four that it is written out with
        self.locals += 4
        self.most = max(self.most, self.locals)
        self.clauses(loop.pragma.clauses)
        if self.locals > LOCALS:
            raise Refused("TooLarge", loop.name_line)
        self.outside(loop.first)
        if loop.test_name != loop.name:
            raise Refused("WrongKind", loop.test_line)
        self.outside(loop.end)
        if loop.step_name != loop.name:
            raise Refused("WrongKind", loop.step_line)
        self.of_a_task(loop.body, "task loop")

    def outside(self, expression):
        """Judges an expression in which the names of the innermost scope are not known."""
        scope = self.scopes.pop()
        self.number(expression)
        self.scopes.append(scope)

    def judge_WaitOn(self, wait):
        for count, section in enumerate(wait.sections, 1):
            self.section(section, None, count)

    def judge_Release(self, release):
        self.clauses(release.clauses)

    # Globals and functions

    def program(self):
        globals_, functions, cells = [], {}, 0
        for item in self.items:
            if isinstance(item, trees.Global):
                self.first_of_its_name(item)
                item.size = (1 if item.rows is None else item.rows) * (1 if item.columns is None else item.columns)
                item.start = cells
                cells += item.size
                if item.size == 0 or cells > CELLS:
                    raise Refused("TooLarge", item.line)
                globals_.append(item)
            else:
                self.within(self.function, item)
                functions[item.name] = item
        if "main" not in functions:
            raise Refused("NoMain", 1)
        return Program(globals_, functions)

    def first_of_its_name(self, item):
        if self.outermost[item.name] is not item:
            raise Refused("DuplicateName", item.line)

    def function(self, function):
        self.most = self.locals = 0
        self.result = function.result
        parameters = self.parameters_of(function)
        if function.pragma:
            self.scopes.append(parameters)
            self.clauses(function.pragma.clauses)
            self.scopes.pop()
        self.first_of_its_name(function)
        if function.name == "main" and (function.pragma or function.parameters or function.result != "int"):
            raise Refused("WrongKind", function.line)
        if function.pragma and function.result != "void":
            raise Refused("WrongKind", function.line)
        self.locals = 0
        for parameter in function.parameters:
            self.may_declare(parameter.name, parameter.line)
            self.bring(parameter.name, parameter.type, parameter.pointer)
        self.statements(function.body.statements)
        function.frame = max(self.most, len(function.parameters))

    def parameters_of(self, function):
        """The scope of a function's pragma: its parameters, of which the first counts where two have one name."""
        scope = {}
        for slot, parameter in enumerate(function.parameters):
            scope.setdefault(parameter.name, Variable(parameter.type, parameter.pointer, slot))
        self.locals = self.most = len(function.parameters)
        return scope


def judge(text):
    """The program in a text, which is refused if it breaks a rule."""
    return Judge(read(text)).program()
