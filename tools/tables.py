"""Node tables, written as their programs read: each function gives the records of one node with its parts.

A record is a triple (kind, a, v). The kinds are those of docs/node-table.md, as tools/oracle.py names them.
"""
import oracle


def number(value):
    return [(oracle.NUMBER, 0, value)]


def variable(name):
    return [(oracle.VARIABLE, name, 0)]


def plus(first, second):
    return [(oracle.SUM, 0, 0)] + first + second


def minus(first, second):
    return [(oracle.DIFFERENCE, 0, 0)] + first + second


def greater(first, second):
    return [(oracle.GREATER, 0, 0)] + first + second


def assign(name, part):
    return [(oracle.ASSIGNMENT, name, 0)] + part


def call(name, *arguments):
    return [(oracle.CALL, name, len(arguments))] + sum(arguments, [])


def read(slot):
    return [(oracle.BAY_READ, 0, 0)] + slot


def write(slot, word):
    return [(oracle.BAY_WRITE, 0, 0)] + slot + word


def do(part):
    """An expression statement."""
    return [(oracle.EXPRESSION_STATEMENT, 0, 0)] + part


def branch(test, first, second):
    """An if."""
    return [(oracle.IF, 0, 0)] + test + first + second


def repeat(test, body):
    """A while."""
    return [(oracle.WHILE, 0, 0)] + test + body


def give(part):
    """A return."""
    return [(oracle.RETURN, 0, 0)] + part


def local(name, value=0):
    """A variable declaration, of a block or of the program."""
    return [(oracle.VARIABLE_DECLARATION, name, value)]


def block(*statements, locals=()):
    return [(oracle.BLOCK, len(locals), len(statements))] + sum(locals, []) + sum(statements, [])


def function(name, parameters, body):
    return [(oracle.FUNCTION, name, len(parameters))] + [(oracle.PARAMETER, p, 0) for p in parameters] + body


def program(*parts):
    """Declarations, then the main statement."""
    return [(oracle.PROGRAM, len(parts) - 1, 0)] + sum(parts, [])


def locals_from(first, end):
    return [local(name) for name in range(first, end)]


def sums_to_the_right(count, last):
    """1 + (1 + (1 + ..)), which needs a word for each sum and what the last part needs."""
    return [(oracle.SUM, 0, 0), (oracle.NUMBER, 0, 1)] * count + last


def raised(name, by=1):
    """The assignment that adds to a variable."""
    return assign(name, plus(variable(name), number(by)))


NOTHING = block()
IDLE = do(number(0))
SEVEN = program(give(number(7)))
# marks the bays 0, 1 and 2
END_BAY = program(
    local(0),
    function(0, [], block(do(raised(0)))),
    repeat(greater(number(3), plus(variable(0), call(0))), do(write(minus(variable(0), number(1)), number(1)))),
)
COUNTING = program(local(0), repeat(number(1), do(raised(0))))
# function 0 of n: n + .. + 2 + 1, by calls nested in one another
TRIANGLE = function(
    0,
    [1],
    branch(variable(1), give(plus(variable(1), call(0, minus(variable(1), number(1))))), give(number(0))),
)


def shown(*parts):
    """A program that leaves the word of each part in a global of its own."""
    globals_ = locals_from(0, len(parts))
    return program(*globals_, block(*(do(assign(name, part)) for name, part in enumerate(parts))))
