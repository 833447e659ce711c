"""The trees of programs. `line` is the line of a tree's first token that is no `(`."""


class Tree:
    """A tree with the fields that its class names, each given by its name or in their order."""

    fields = ()

    def __init__(self, line, *values):
        assert len(values) == len(self.fields)
        self.line = line
        for field, value in zip(self.fields, values):
            setattr(self, field, value)


def tree(name, fields=""):
    return type(name, (Tree,), {"fields": tuple(fields.split())})


# Expressions. The judge of the static rules adds `unsigned` to a `Binary`, and to a `Name` and a `Section` what it names.
Number = tree("Number", "value unsigned")
Name = tree("Name", "name")
Call = tree("Call", "name arguments")
Index = tree("Index", "base index")
Prefix = tree("Prefix", "operator operand")
Binary = tree("Binary", "operator left right")

# Statements. `Assign` has the operator before its `=`, which is empty for a plain one; `x++` is `x += 1`.
Block = tree("Block", "statements")
Empty = tree("Empty")
Declaration = tree("Declaration", "type locals")
Assign = tree("Assign", "target operator value")
CallStatement = tree("CallStatement", "call")
Print = tree("Print", "string arguments")
If = tree("If", "test then otherwise")
While = tree("While", "test body")
For = tree("For", "first test step body")
Return = tree("Return", "value")
Break = tree("Break")
Continue = tree("Continue")
Task = tree("Task", "pragma body")
TaskLoop = tree("TaskLoop", "pragma for_line name name_line first test_name test_line end step_name step_line body")
Wait = tree("Wait")
WaitOn = tree("WaitOn", "sections")
Release = tree("Release", "clauses")

# What stands in declarations. `pointer` says whether a `*` stands before the name.
Local = tree("Local", "name pointer value")

# Pragmas. A `Clause` has its word, the operator of a reduction, and a list of sections, an expression or the text of a label.
Pragma = tree("Pragma", "clauses")
Clause = tree("Clause", "word operator sections value label")

# Sections. The form is `name`, `star` (`*p`), `count` (`[n]p`), `parts` or `turns` (a multidependency). The line of the base is `name_line`.
# The parts are extents; of a count the part is its expression, and of turns they are one or two indices, whose variable is `counter`.
Section = tree("Section", "form name name_line parts counter counter_line start turns")
Extent = tree("Extent", "form low high")

# Programs.
Global = tree("Global", "type name value rows columns")
Parameter = tree("Parameter", "type name pointer")
Function = tree("Function", "pragma result name parameters body")
