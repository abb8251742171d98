#!/usr/bin/env python3
"""Says what `aisle` prints, by the rules in docs/.

Usage: oracle.py [check|walk] < TEXT

Standard output is that of `aisle`, `aisle check` or `aisle walk` on the same text (docs/program.md). Each run that ends
is made twice, by the stack machine (docs/machine.md) and by the tree run (docs/tree-run.md). Where the two differ, or a
run makes more steps than (ticks + 1) x code length, the oracle fails: nothing is printed and the status is 2.

It is written after the pages in docs/, and is no translation of the program's sources.
"""
import re
import sys
import threading
from collections import namedtuple
from decimal import Decimal

# What the pages do not allow to happen: the two runs differ, or translated code is undefined somewhere.
class Contradiction(Exception):
    pass


class Unreadable(Exception):
    """A text that is no job or no table: the message, with its line."""


def unreadable(line, problem):
    return Unreadable(f"line {line}: {problem}")


# Refusals and endings (docs/refusals.md, docs/program.md)

SENTENCES = {
    "TableSize": (1, "a table has 1 to 1024 records"),
    "UnexpectedKind": (2, "record {} has a kind that is unknown, or that cannot stand there"),
    "FieldOutOfBounds": (
        3, "record {} has a field outside the bounds of its kind; a field without a meaning is 0"),
    "EndsEarly": (4, "the table ends after {} records, and a part of the program is still missing"),
    "LeftOver": (4, "the program ends before record {}, and nothing may follow it"),
    "DeclaredTwice": (
        5, "record {} declares a name that is declared before it, where it would be seen twice"),
    "Undeclared": (6, "record {} uses a name that is not declared where it stands"),
    "ArgumentCount": (
        7, "record {} calls its function with more or fewer arguments than it has parameters"),
    "FrameNeed": (8, "a function or the main statement needs more than 100 words in its frame"),
    "FuelOrDepth": (9, "fuel is 0 to 1000000 and depth is 0 to 63"),
    "TooFewWords": (10, "a slice that is lent is too short: {} elements are wanted"),
    "WrongState": (11, "the cell does not take this call in the state that it is in"),
}


class Refused(Exception):
    def __init__(self, name, tells=0):
        self.number, sentence = SENTENCES[name]
        self.tells = tells
        self.sentence = sentence.format(tells)

    def line(self):
        return f"refusal {self.number}, tells {self.tells}"


DONE, NO_FUEL, TOO_DEEP, NO_SUCH_BAY, CANNOT_HOLD = range(5)

End = namedtuple("End", "ending place")


def end_line(end):
    return f"ending {end.ending}, place {end.place}"


def end_sentence(end):
    return {
        DONE: "the program came to its end",
        NO_FUEL: f"the fuel was spent at record {end.place}",
        TOO_DEEP: f"record {end.place} calls a function while as many calls are open as the depth allows",
        NO_SUCH_BAY: f"record {end.place} names a bay that there is not",
        CANNOT_HOLD: f"record {end.place} writes a word that its bay cannot hold",
    }[end.ending]


# The node table (docs/node-table.md)

Record = namedtuple("Record", "kind a v")

NUMBER, VARIABLE, SUM, DIFFERENCE, GREATER, ASSIGNMENT, CALL, BAY_READ, BAY_WRITE = range(1, 10)
EXPRESSION_STATEMENT, IF, WHILE, RETURN, BLOCK = range(16, 21)
VARIABLE_DECLARATION, FUNCTION, PARAMETER, PROGRAM = range(24, 28)

EXPRESSION, STATEMENT = "expression", "statement"

# kind: sort, bounds of a, bounds of v (None: any), the parts' sorts
BLANK, NAME = (0, 0), (0, 255)
ROWS = {
    NUMBER: (EXPRESSION, BLANK, None, lambda r: []),
    VARIABLE: (EXPRESSION, NAME, BLANK, lambda r: []),
    SUM: (EXPRESSION, BLANK, BLANK, lambda r: [EXPRESSION] * 2),
    DIFFERENCE: (EXPRESSION, BLANK, BLANK, lambda r: [EXPRESSION] * 2),
    GREATER: (EXPRESSION, BLANK, BLANK, lambda r: [EXPRESSION] * 2),
    ASSIGNMENT: (EXPRESSION, NAME, BLANK, lambda r: [EXPRESSION]),
    CALL: (EXPRESSION, NAME, (0, 15), lambda r: [EXPRESSION] * r.v),
    BAY_READ: (EXPRESSION, BLANK, BLANK, lambda r: [EXPRESSION]),
    BAY_WRITE: (EXPRESSION, BLANK, BLANK, lambda r: [EXPRESSION] * 2),
    EXPRESSION_STATEMENT: (STATEMENT, BLANK, BLANK, lambda r: [EXPRESSION]),
    IF: (STATEMENT, BLANK, BLANK, lambda r: [EXPRESSION, STATEMENT, STATEMENT]),
    WHILE: (STATEMENT, BLANK, BLANK, lambda r: [EXPRESSION, STATEMENT]),
    RETURN: (STATEMENT, BLANK, BLANK, lambda r: [EXPRESSION]),
    BLOCK: (STATEMENT, (0, 63), (0, 1023), lambda r: ["variable declaration"] * r.a + [STATEMENT] * r.v),
    VARIABLE_DECLARATION: ("variable declaration", NAME, None, lambda r: []),
    FUNCTION: ("function", NAME, (0, 15), lambda r: ["parameter"] * r.v + [STATEMENT]),
    PARAMETER: ("parameter", NAME, BLANK, lambda r: []),
    PROGRAM: ("program", (0, 128), BLANK, lambda r: ["declaration"] * r.a + [STATEMENT]),
}

WORDINGS = {
    NUMBER: "number {v}",
    VARIABLE: "variable {a}",
    SUM: "sum",
    DIFFERENCE: "difference",
    GREATER: "greater",
    ASSIGNMENT: "assignment to variable {a}",
    CALL: "call of function {a}, arguments {v}",
    BAY_READ: "bay read",
    BAY_WRITE: "bay write",
    EXPRESSION_STATEMENT: "expression statement",
    IF: "if",
    WHILE: "while",
    RETURN: "return",
    BLOCK: "block, locals {a}, statements {v}",
    VARIABLE_DECLARATION: "variable declaration {a}, value {v}",
    FUNCTION: "function {a}, parameters {v}",
    PARAMETER: "parameter {a}",
    PROGRAM: "program, declarations {a}",
}


class Node:
    """A record with its parts."""

    def __init__(self, index, record):
        self.index = index
        self.kind, self.a, self.v = record
        self.wanted = ROWS[record.kind][3](record)
        self.parts = []


def within(bounds, value):
    return bounds is None or bounds[0] <= value <= bounds[1]


def check_shape(table):
    """The program tree of a table of accepted shape, and how deeply each record is nested."""
    if not 1 <= len(table) <= 1024:
        raise Refused("TableSize")
    depths = []
    root = None
    around = []  # the nodes whose parts are not complete
    at = 0
    while root is None or around:
        wanted = around[-1].wanted[len(around[-1].parts)] if around else "program"
        if at == len(table):
            raise Refused("EndsEarly", at)
        record = table[at]
        sort, a_bounds, v_bounds, _ = ROWS.get(record.kind, (None, None, None, None))
        allowed = ("variable declaration", "function") if wanted == "declaration" else (wanted,)
        if sort not in allowed:
            raise Refused("UnexpectedKind", at)
        if not (within(a_bounds, record.a) and within(v_bounds, record.v)):
            raise Refused("FieldOutOfBounds", at)
        node = Node(at, record)
        depths.append(len(around))
        if around:
            around[-1].parts.append(node)
        else:
            root = node
        around.append(node)
        while around and len(around[-1].parts) == len(around[-1].wanted):
            around.pop()
        at += 1
    if at < len(table):
        raise Refused("LeftOver", at)
    return root, depths


# Names and frame need (docs/names.md)

class Program:
    """A tree whose names are in order."""

    def __init__(self, root):
        self.root = root
        self.main = root.parts[-1]
        self.globals = [d for d in root.parts[:-1] if d.kind == VARIABLE_DECLARATION]
        self.functions = [d for d in root.parts[:-1] if d.kind == FUNCTION]
        self.check_names()
        self.need = max([need_of(self.main)] + [f.v + need_of(f.parts[-1]) for f in self.functions])
        if self.need > 100:
            raise Refused("FrameNeed")

    def check_names(self):
        variables, functions = set(), set()
        for declaration in self.root.parts[:-1]:
            names = variables if declaration.kind == VARIABLE_DECLARATION else functions
            if declaration.a in names:
                raise Refused("DeclaredTwice", declaration.index)
            names.add(declaration.a)
        self.function_of = {f.a: i for i, f in enumerate(self.functions)}
        self.global_of = {g.a: i for i, g in enumerate(self.globals)}
        for function in self.functions:
            scope = set()
            for parameter in function.parts[:-1]:
                self.declare(parameter, scope)
            self.check_part(function.parts[-1], scope)
        self.check_part(self.main, set())

    def declare(self, node, scope):
        if node.a in scope or node.a in self.global_of:
            raise Refused("DeclaredTwice", node.index)
        scope.add(node.a)

    def check_part(self, node, scope):
        if node.kind in (VARIABLE, ASSIGNMENT) and node.a not in scope and node.a not in self.global_of:
            raise Refused("Undeclared", node.index)
        if node.kind == CALL:
            if node.a not in self.function_of:
                raise Refused("Undeclared", node.index)
            if node.v != self.functions[self.function_of[node.a]].v:
                raise Refused("ArgumentCount", node.index)
        if node.kind == BLOCK:
            scope = set(scope)
        for part in node.parts:
            if part.kind == VARIABLE_DECLARATION:
                self.declare(part, scope)
            else:
                self.check_part(part, scope)

    def words_wanted(self, depth):
        return len(self.globals) + (depth + 1) * self.need


def need_of(node):
    kind, parts = node.kind, node.parts
    if kind in (NUMBER, VARIABLE):
        return 1
    if kind in (SUM, DIFFERENCE, GREATER, BAY_WRITE):
        return max(need_of(parts[0]), 1 + need_of(parts[1]))
    if kind == CALL:
        return max([1] + [i + need_of(part) for i, part in enumerate(parts)])
    if kind == BLOCK:
        return max([1, node.a] + [node.a + need_of(part) for part in parts[node.a:]])
    return max(need_of(part) for part in parts)


# Number kinds and racks (docs/kinds-and-racks.md)

class Counter:
    @staticmethod
    def literal(number):
        return number

    @staticmethod
    def wrapped(number):
        return (number + 2**31) % 2**32 - 2**31

    @staticmethod
    def sum(a, b):
        return Counter.wrapped(a + b)

    @staticmethod
    def difference(a, b):
        return Counter.wrapped(a - b)

    @staticmethod
    def slot(word):
        return word if 0 <= word <= 4095 else None

    @staticmethod
    def text(word):
        return str(word)


class Rail:
    @staticmethod
    def literal(number):
        return float(number)

    @staticmethod
    def sum(a, b):
        return a + b

    @staticmethod
    def difference(a, b):
        return a - b

    @staticmethod
    def slot(word):
        return int(word) if 0 <= word <= 4095 and word == int(word) else None

    @staticmethod
    def text(word):
        if word != word:
            return "NaN"
        if word in (float("inf"), float("-inf")):
            return "inf" if word > 0 else "-inf"
        text = format(Decimal(repr(word)), "f")
        return text[:-2] if text.endswith(".0") else text


class Rack:
    def __init__(self, kind, bays, holds):
        self.kind, self.bays, self.holds = kind, bays, holds

    def copy(self):
        return Rack(self.kind, list(self.bays), self.holds)

    def bay_of(self, word):
        """The bay that a word names, if there is one."""
        slot = self.kind.slot(word)
        return slot if slot is not None and slot < len(self.bays) else None


def bay_table(count):
    return Rack(Counter, [0] * min(count, 256), lambda word: True)


def occupancy_rack(count):
    return Rack(Counter, [0] * min(count, 4096), lambda word: word in (0, 1))


def rail_rack(words):
    return Rack(Rail, words[:4096], lambda word: -1000000 <= word <= 1000000)


# The tree run (docs/tree-run.md)

class Ended(Exception):
    def __init__(self, ending, place):
        self.end = End(ending, place)


class Returned(Exception):
    def __init__(self, word):
        self.word = word


Report = namedtuple("Report", "end answer globals bays ticks")


class TreeRun:
    def __init__(self, program, rack, fuel, depth):
        self.program, self.rack, self.kind = program, rack, rack.kind
        self.granted = self.fuel = fuel
        self.depth = depth
        self.open = 0
        self.bindings = []  # [name, word], oldest first

    def report(self):
        program = self.program
        for declaration in program.globals:
            self.bindings.append([declaration.a, self.kind.literal(declaration.v)])
        end, answer = End(DONE, 0), None
        try:
            answer = self.run(program.main)
        except Returned as returned:
            answer = returned.word
        except Ended as ended:
            end = ended.end
        held = [word for _, word in self.bindings[: len(program.globals)]]
        return Report(end, answer, held, list(self.rack.bays), self.granted - self.fuel)

    def binding(self, name):
        return next(binding for binding in reversed(self.bindings) if binding[0] == name)

    def spend(self, place):
        if self.fuel == 0:
            raise Ended(NO_FUEL, place)
        self.fuel -= 1

    def bay(self, word, place):
        bay = self.rack.bay_of(word)
        if bay is None:
            raise Ended(NO_SUCH_BAY, place)
        return bay

    def run(self, node):
        """The value of an expression or a statement."""
        kind, parts, words = node.kind, node.parts, self.kind
        if kind == NUMBER:
            return words.literal(node.v)
        if kind == VARIABLE:
            return self.binding(node.a)[1]
        if kind in (SUM, DIFFERENCE, GREATER):
            first = self.run(parts[0])
            second = self.run(parts[1])
            if kind == SUM:
                return words.sum(first, second)
            if kind == DIFFERENCE:
                return words.difference(first, second)
            return words.literal(1 if first > second else 0)
        if kind == ASSIGNMENT:
            word = self.run(parts[0])
            self.binding(node.a)[1] = word
            return word
        if kind == CALL:
            return self.call(node)
        if kind == BAY_READ:
            return self.rack.bays[self.bay(self.run(parts[0]), node.index)]
        if kind == BAY_WRITE:
            slot = self.run(parts[0])
            word = self.run(parts[1])
            bay = self.bay(slot, node.index)
            if not self.rack.holds(word):
                raise Ended(CANNOT_HOLD, node.index)
            self.rack.bays[bay] = word
            return word
        if kind == EXPRESSION_STATEMENT:
            return self.run(parts[0])
        if kind == IF:
            return self.run(parts[2] if self.run(parts[0]) == 0 else parts[1])
        if kind == WHILE:
            while True:
                self.spend(node.index)
                if self.run(parts[0]) == 0:
                    return words.literal(0)
                self.run(parts[1])
        if kind == RETURN:
            raise Returned(self.run(parts[0]))
        assert kind == BLOCK
        below = len(self.bindings)
        for declaration in parts[: node.a]:
            self.bindings.append([declaration.a, words.literal(declaration.v)])
        for statement in parts[node.a:]:
            self.run(statement)
        del self.bindings[below:]
        return words.literal(0)

    def call(self, node):
        given = [self.run(part) for part in node.parts]
        if self.open >= self.depth:
            raise Ended(TOO_DEEP, node.index)
        self.spend(node.index)
        function = self.program.functions[self.program.function_of[node.a]]
        below = len(self.bindings)
        for parameter, word in zip(function.parts[:-1], given):
            self.bindings.append([parameter.a, word])
        self.open += 1
        answer = self.kind.literal(0)
        try:
            self.run(function.parts[-1])
        except Returned as returned:
            answer = returned.word
        self.open -= 1
        del self.bindings[below:]
        return answer


# Stack code (docs/stack-code.md)

class Code:
    def __init__(self, program):
        self.program = program
        self.instructions = []  # [operation, argument, place]
        self.entries = []  # (index of the first instruction, parameters)
        self.frame = []
        self.in_function = False
        self.emit_part(program.main)
        self.emit("HALT", 0, 0)
        self.in_function = True
        for function in program.functions:
            self.entries.append((len(self.instructions), function.v))
            self.frame = [parameter.a for parameter in function.parts[:-1]]
            self.emit_part(function.parts[-1])
            self.emit("POP", 0, function.index)
            self.emit("LIT", 0, function.index)
            self.emit("RET", 0, function.index)

    def emit(self, operation, argument, place):
        self.instructions.append([operation, argument, place])
        return len(self.instructions) - 1

    def land(self, jump):
        self.instructions[jump][1] = len(self.instructions)

    def slot_of(self, name):
        """Which of the two sorts of variable, and its slot."""
        if name in self.frame:
            return "L", len(self.frame) - 1 - self.frame[::-1].index(name)
        return "G", self.program.global_of[name]

    def emit_part(self, node):
        kind, parts, place = node.kind, node.parts, node.index
        if kind == NUMBER:
            self.emit("LIT", node.v, place)
        elif kind == VARIABLE:
            sort, slot = self.slot_of(node.a)
            self.emit("GET" + sort, slot, place)
        elif kind == ASSIGNMENT:
            self.emit_part(parts[0])
            sort, slot = self.slot_of(node.a)
            self.emit("SET" + sort, slot, place)
        elif kind == IF:
            self.emit_part(parts[0])
            to_second = self.emit("JZ", 0, place)
            self.emit_part(parts[1])
            to_end = self.emit("JMP", 0, place)
            self.land(to_second)
            self.emit_part(parts[2])
            self.land(to_end)
        elif kind == WHILE:
            again = self.emit("TICK", 0, place)
            self.emit_part(parts[0])
            to_end = self.emit("JZ", 0, place)
            self.emit_part(parts[1])
            self.emit("POP", 0, place)
            self.emit("JMP", again, place)
            self.land(to_end)
            self.emit("LIT", 0, place)
        elif kind == BLOCK:
            for declaration in parts[: node.a]:
                self.emit("LIT", declaration.v, place)
                self.frame.append(declaration.a)
            for statement in parts[node.a:]:
                self.emit_part(statement)
                self.emit("POP", 0, place)
            for _ in range(node.a):
                self.emit("POP", 0, place)
                self.frame.pop()
            self.emit("LIT", 0, place)
        else:
            for part in parts:
                self.emit_part(part)
            if kind == RETURN:
                self.emit("RET" if self.in_function else "HALT", 0, place)
            elif kind == CALL:
                self.emit("CALL", self.program.function_of[node.a], place)
            elif kind != EXPRESSION_STATEMENT:
                operation = {SUM: "ADD", DIFFERENCE: "SUB", GREATER: "GT", BAY_READ: "BAYR", BAY_WRITE: "BAYW"}
                self.emit(operation[kind], 0, place)


# The stack machine (docs/machine.md)

class Machine:
    def __init__(self, code, depth, fuel):
        self.code = code
        self.globals = len(code.program.globals)
        self.depth, self.fuel, self.granted = depth, fuel, fuel
        self.pc = 0
        self.height = self.base = self.globals
        self.calls = []
        self.steps = 0
        self.end = None

    def ticks(self):
        return self.granted - self.fuel

    def run(self, words, rack, steps):
        """At most so many steps; the ending, if there was one."""
        kind = rack.kind
        for _ in range(steps):
            if not 0 <= self.pc < len(self.code.instructions):
                raise Contradiction("the run left the code")
            end = self.step(words, rack, kind)
            self.steps += 1
            if end:
                self.end = end
                return end
        return None

    def push(self, words, word):
        if self.height >= len(words):
            raise Contradiction("the store is full")
        words[self.height] = word
        self.height += 1

    def want(self, holds):
        if not holds:
            raise Contradiction(f"instruction {self.pc} is undefined")

    def step(self, words, rack, kind):
        operation, argument, place = self.code.instructions[self.pc]
        goes_on = self.pc + 1
        if operation == "LIT":
            self.push(words, kind.literal(argument))
        elif operation in ("GETL", "GETG"):
            slot = argument + (self.base if operation == "GETL" else 0)
            self.want(slot < self.height)
            self.push(words, words[slot])
        elif operation in ("SETL", "SETG"):
            slot = argument + (self.base if operation == "SETL" else 0)
            self.want(slot < self.height - 1)
            words[slot] = words[self.height - 1]
        elif operation in ("ADD", "SUB", "GT"):
            self.want(self.height >= 2)
            first, second = words[self.height - 2], words[self.height - 1]
            self.height -= 1
            if operation == "ADD":
                word = kind.sum(first, second)
            elif operation == "SUB":
                word = kind.difference(first, second)
            else:
                word = kind.literal(1 if first > second else 0)
            words[self.height - 1] = word
        elif operation == "POP":
            self.want(self.height >= 1)
            self.height -= 1
        elif operation == "JZ":
            self.want(self.height >= 1)
            self.height -= 1
            if words[self.height] == 0:
                goes_on = argument
        elif operation == "JMP":
            goes_on = argument
        elif operation == "TICK":
            if self.fuel == 0:
                return End(NO_FUEL, place)
            self.fuel -= 1
        elif operation == "CALL":
            self.want(argument < len(self.code.entries))
            start, parameters = self.code.entries[argument]
            self.want(self.height >= parameters)
            if len(self.calls) >= self.depth:
                return End(TOO_DEEP, place)
            if self.fuel == 0:
                return End(NO_FUEL, place)
            self.fuel -= 1
            self.calls.append((goes_on, self.base))
            self.base = self.height - parameters
            goes_on = start
        elif operation == "RET":
            self.want(self.calls and self.height - 1 >= self.base)
            words[self.base] = words[self.height - 1]
            self.height = self.base + 1
            goes_on, self.base = self.calls.pop()
        elif operation == "BAYR":
            self.want(self.height >= 1)
            bay = rack.bay_of(words[self.height - 1])
            if bay is None:
                return End(NO_SUCH_BAY, place)
            words[self.height - 1] = rack.bays[bay]
        elif operation == "BAYW":
            self.want(self.height >= 2)
            word = words[self.height - 1]
            bay = rack.bay_of(words[self.height - 2])
            if bay is None:
                return End(NO_SUCH_BAY, place)
            if not rack.holds(word):
                return End(CANNOT_HOLD, place)
            rack.bays[bay] = word
            self.height -= 1
            words[self.height - 1] = word
        else:
            assert operation == "HALT"
            self.want(self.height - 1 >= self.globals)
            words[self.globals] = words[self.height - 1]
            self.height -= 1
            return End(DONE, 0)
        self.pc = goes_on
        return None


def compare(code, report, machine, words, rack):
    """Fails unless an ended run of the machine is the tree run."""
    text = rack.kind.text
    answer = words[machine.globals] if machine.end.ending == DONE else None
    made = Report(machine.end, answer, words[: machine.globals], rack.bays, machine.ticks())

    def shown(of):
        return (of.end, of.answer is not None and text(of.answer), [text(w) for w in of.globals],
                [text(w) for w in of.bays], of.ticks)

    if shown(report) != shown(made):
        raise Contradiction(f"tree run {shown(report)}, machine {shown(made)}")
    if machine.steps > (machine.ticks() + 1) * len(code.instructions):
        raise Contradiction("too many steps")


# The cell (docs/cell.md)

class Cell:
    """A cell with the words and the rack that each call is lent."""

    def __init__(self, words, rack):
        self.words, self.rack = words, rack
        self.state = "empty"
        self.tree = self.program = self.code = self.machine = None

    def only_in(self, *states):
        if self.state not in states:
            raise Refused("WrongState")

    def load(self, table):
        self.only_in("empty", "loaded", "coded", "over")
        self.tree, _ = check_shape(table)
        self.program = self.code = self.machine = None
        self.state = "loaded"
        return "taken"

    def compile(self):
        self.only_in("loaded")
        self.program = Program(self.tree)
        self.code = Code(self.program)
        self.state = "coded"
        return "taken"

    def arm(self, fuel, depth):
        self.only_in("coded", "over")
        check_limits(fuel, depth)
        wanted = self.program.words_wanted(depth)
        if len(self.words) < wanted:
            raise Refused("TooFewWords", wanted)
        for slot, declaration in enumerate(self.program.globals):
            self.words[slot] = self.rack.kind.literal(declaration.v)
        self.machine = Machine(self.code, depth, fuel)
        self.armed = (fuel, depth, self.rack.copy())
        self.state = "running"
        return "taken"

    def run(self, steps):
        self.only_in("running")
        end = self.machine.run(self.words, self.rack, steps)
        if not end:
            return "paused"
        fuel, depth, rack = self.armed
        report = TreeRun(self.program, rack, fuel, depth).report()
        compare(self.code, report, self.machine, self.words, self.rack)
        self.state = "over"
        return end_line(end)

    def stop(self):
        self.only_in("running")
        self.machine = None
        self.state = "coded"
        return "taken"


def check_limits(fuel, depth):
    if fuel > 1000000 or depth > 63:
        raise Refused("FuelOrDepth")


# Reading texts (docs/program.md)

WHITE_SPACE = "\t\n\v\f\r \x85\xa0\u1680\u2000-\u200a\u2028\u2029\u202f\u205f\u3000"

Job = namedtuple("Job", "rack words calls")


def lines_of(text):
    """The number of each line, counted from 1, and the words on it."""
    lines = text.split("\n")
    if lines[-1] == "":
        lines.pop()
    for number, line in enumerate(lines, 1):
        words = re.split(f"[{WHITE_SPACE}]+", line.split("#")[0])
        yield number, [word for word in words if word]


def whole_number(word, least, most):
    """A whole number in a range, or None."""
    if word is None or not re.fullmatch(r"\+?[0-9]+" if least >= 0 else r"[+-]?[0-9]+", word):
        return None
    number = int(word)
    return number if least <= number <= most else None


def fraction(word):
    if re.fullmatch(r"[+-]?([0-9]+\.?[0-9]*|\.[0-9]+)(e[+-]?[0-9]+)?|[+-]?(inf|infinity|nan)", word, re.I):
        return float(word)
    return None


class JobLine:
    def __init__(self, number, words):
        self.number, self.words, self.at = number, words, 0

    def fault(self, problem):
        return unreadable(self.number, problem)

    def next(self):
        self.at += 1
        return self.words[self.at - 1] if self.at <= len(self.words) else None

    def count(self):
        number = whole_number(self.next(), 0, 2**32 - 1)
        if number is None:
            raise self.fault("a number is missing, or does not fit")
        return number

    def end(self, problem):
        if self.at < len(self.words):
            raise self.fault(problem)


def rack_of(line):
    problem = "a job begins with rack bays N, rack occupancy N or rack rail W W .."
    if line.next() != "rack":
        raise line.fault(problem)
    make = line.next()
    if make == "rail":
        words = [fraction(word) for word in line.words[2:]]
        if None in words:
            raise line.fault("a number is missing, or does not fit")
        return rail_rack(words)
    if make not in ("bays", "occupancy"):
        raise line.fault(problem)
    count = line.count()
    line.end(problem)
    return bay_table(count) if make == "bays" else occupancy_rack(count)


def words_of(line):
    problem = "the second line of a job is words N"
    if line.next() != "words":
        raise line.fault(problem)
    count = line.count()
    line.end(problem)
    return count


def call_of(line):
    """The call's name and what it takes."""
    problem = "a call is load, compile, arm FUEL DEPTH, run STEPS or stop"
    name = line.next()
    if name == "load":
        fields = line.words[1:]
        records = []
        for at in range(0, len(fields), 3):
            three = fields[at:at + 3] + [None, None]
            record = Record(whole_number(three[0], 0, 255), whole_number(three[1], 0, 65535),
                            whole_number(three[2], -2**31, 2**31 - 1))
            if None in record:
                raise line.fault("a record is kind 0 to 255, a 0 to 65535 and v of 32 bits")
            records.append(record)
        return name, [records]
    counts = {"compile": 0, "arm": 2, "run": 1, "stop": 0}
    if name not in counts:
        raise line.fault(problem)
    taken = [line.count() for _ in range(counts[name])]
    line.end(problem)
    return name, taken


def read_job(text):
    rack = words = None
    calls = []
    last = 0
    for last, found in lines_of(text):
        line = JobLine(last, found)
        if not found:
            continue
        if rack is None:
            rack = rack_of(line)
        elif words is None:
            words = words_of(line)
        else:
            calls.append(call_of(line))
    if words is None:
        raise unreadable(last, "a job begins with a rack and its words")
    return Job(rack, words, calls)


def read_table(text):
    settings = {"bays": 16, "fuel": 10000, "depth": 63, "slices": 6528}
    records, begun = [], []
    last = 1
    fields = [
        (0, 255, "a kind is a number from 0 to 255"),
        (0, 65535, "the second number of a record is from 0 to 65535"),
        (-2**31, 2**31 - 1, "the third number of a record is from -2147483648 to 2147483647"),
    ]
    for last, words in lines_of(text):
        for word in words:
            if not begun and word in settings:
                begun = [word]
                continue
            number = whole_number(word, -2**63, 2**63 - 1)
            if number is None:
                raise unreadable(last, "a record is three whole numbers, and this word is none")
            if begun and begun[0] in settings:
                least, most, problem = 0, 2**32 - 1, "a setting is a number from 0 to 4294967295"
            else:
                least, most, problem = fields[len(begun)]
            if not least <= number <= most:
                raise unreadable(last, problem)
            if begun and begun[0] in settings:
                settings[begun[0]] = number
                begun = []
                continue
            begun.append(number)
            if len(begun) == 3:
                records.append(Record(*begun))
                begun = []
    if begun:
        raise unreadable(last, "the text ends within a record, which is three numbers, or within a setting")
    return records, settings


# Printing (docs/program.md)

def list_line(name, words, kind):
    return " ".join([name] + [kind.text(word) for word in words])


def code_lines(code):
    return [f"code {index}: {operation} {argument}, place {place}"
            for index, (operation, argument, place) in enumerate(code.instructions)]


def job_lines(text):
    job = read_job(text)
    kind = job.rack.kind
    cell = Cell([kind.literal(0)] * job.words, job.rack)
    lines = []
    for name, taken in job.calls:
        try:
            lines.append(f"{name}: {getattr(cell, name)(*taken)}")
        except Refused as refused:
            lines.append(f"{name}: {refused.line()}")
    machine = cell.machine
    lines.append(f"state {cell.state}")
    if cell.code:
        lines += code_lines(cell.code)
    lines.append(f"ticks {machine.ticks() if machine else 0}")
    lines.append(f"steps {machine.steps if machine else 0}")
    if cell.state == "over":
        lines.append(end_line(machine.end))
        if machine.end.ending == DONE:
            lines.append(f"answer {kind.text(cell.words[machine.globals])}")
    if machine:
        lines.append(list_line("globals", cell.words[: machine.globals], kind))
    lines.append(list_line("bays", cell.rack.bays, kind))
    lines.append(list_line("words", cell.words, kind))
    return lines


def accepted_lines(table, settings, walked):
    """Line by line, so that what stands before a refusal is printed."""
    tree, depths = check_shape(table)
    yield f"accepted, records {len(table)}"
    for index, record in enumerate(table):
        wording = WORDINGS[record.kind].format(a=record.a, v=record.v)
        yield f"{index:>4} {'  ' * depths[index]}{wording}"
    if walked:
        yield from walk_lines(Program(tree), settings)


def walk_lines(program, settings):
    code = Code(program)
    yield from code_lines(code)
    for index, (start, parameters) in enumerate(code.entries):
        yield f"function {index} begins at {start}, parameters {parameters}"
    fuel, depth = settings["fuel"], settings["depth"]
    check_limits(fuel, depth)
    wanted = program.words_wanted(depth)
    if settings["slices"] < wanted:
        raise Refused("TooFewWords", wanted)
    rack = bay_table(settings["bays"])
    report = TreeRun(program, rack.copy(), fuel, depth).report()
    words = [0] * wanted
    for slot, declaration in enumerate(program.globals):
        words[slot] = declaration.v
    machine = Machine(code, depth, fuel)
    machine.run(words, rack, (fuel + 1) * len(code.instructions))
    compare(code, report, machine, words, rack)
    yield end_line(report.end)
    yield end_sentence(report.end)
    if report.answer is not None:
        yield f"answer {report.answer}"
    yield f"ticks {report.ticks}"
    yield list_line("globals", report.globals, Counter)
    yield list_line("bays", report.bays, Counter)


def table_lines(text, walked):
    table, settings = read_table(text)
    lines = []
    try:
        for line in accepted_lines(table, settings, walked):
            lines.append(line)
    except Refused as refused:
        lines += [refused.line(), refused.sentence]
    return lines


def output_of(mode, text):
    """The lines that a mode prints for a text: job, check or walk."""
    return job_lines(text) if mode == "job" else table_lines(text, mode == "walk")


def with_room(work):
    """Does some work with room for calls nested as deeply as tables and depth allow, and gives its result."""
    result = []
    threading.stack_size(1000 * 2**20)
    sys.setrecursionlimit(2**20)
    thread = threading.Thread(target=lambda: result.append(work()))
    thread.start()
    thread.join()
    return result[0] if result else 2


def main():
    mode = sys.argv[1] if len(sys.argv) > 1 else "job"
    if mode not in ("job", "check", "walk"):
        print("usage: oracle.py [check|walk] < TEXT", file=sys.stderr)
        return 2
    try:
        lines = output_of(mode, sys.stdin.buffer.read().decode())
    except Unreadable as error:
        print(f"aisle: {error}", file=sys.stderr)
        return 1
    sys.stdout.write("".join(line + "\n" for line in lines))
    return 0


if __name__ == "__main__":
    sys.exit(with_room(main))
