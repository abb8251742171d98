#!/usr/bin/env python3
"""Writes the further cases anew, with what is to come out of each: crates/checks/stdin and crates/checks/stdout.

Usage: further_cases.py

The cases are named texts of the modes job, check and walk (docs/program.md, "Further cases"). What is to come out is
what tools/oracle.py says; the program itself is never run. Random cases come from a fixed seed, so the same files are
written each time.
"""
import os
import random
import sys

import oracle
from tables import (COUNTING, END_BAY, IDLE, NOTHING, SEVEN, TRIANGLE, assign, block, branch, call, do, function, give,
                    greater, local, locals_from, minus, number, plus, program, raised, read, repeat, shown,
                    sums_to_the_right, variable, write)

LEAST, LARGEST = -2**31, 2**31 - 1
LARGEST_COUNT = 2**32 - 1


def load(table):
    return "load " + "  ".join("%d %d %d" % record for record in table)


def run_each(tables, arm="arm 0 0", run="run 99"):
    """The calls that run each of these tables."""
    return [line for table in tables for line in (load(table), "compile", arm, run)]


class Cases:
    def __init__(self):
        self.inputs, self.outputs, self.names = [], [], set()

    def add(self, mode, name, text):
        assert (mode, name) not in self.names and "== " not in text, name
        self.names.add((mode, name))
        try:
            lines = oracle.output_of(mode, text)
        except oracle.Unreadable as error:
            lines = [str(error)]
        heading = f"== {mode} {name}\n"
        self.inputs.append(heading + text)
        self.outputs.append(heading + "".join(line + "\n" for line in lines))

    def job(self, name, rack, words, *calls):
        self.add("job", name, "\n".join([f"rack {rack}", f"words {words}", *calls]) + "\n")

    def once(self, name, table, rack="bays 4", words=16, fuel=100, depth=1, steps=100000):
        """One table, run once."""
        self.job(name, rack, words, *run_each([table], f"arm {fuel} {depth}", f"run {steps}"))

    def table(self, mode, name, table, settings=""):
        rows = "".join("%d %d %d\n" % record for record in table)
        self.add(mode, name, f"{settings}\n{rows}" if settings else rows)


def end_bay_cases(cases):
    """The worked example."""

    def end_bay(name, *runs, rack="bays 3", words=7, arm="arm 8 1"):
        cases.job("end-bay, " + name, rack, words, load(END_BAY), "compile", arm, *runs)

    end_bay("whole", "run 1000")
    end_bay("fuel 7", "run 1000", arm="arm 7 1")
    end_bay("depth 0 and fuel 1", "run 1000", arm="arm 1 0")
    end_bay("two bays", "run 1000", rack="bays 2")
    end_bay("six words", "run 1000", words=6)
    end_bay("no words", "run 1000", words=0)
    end_bay("86 steps", "run 86")
    end_bay("87 steps", "run 87")
    end_bay("86 steps, then 1", "run 86", "run 1")
    end_bay("40 steps, then 47", "run 40", "run 47")
    end_bay("fuel for more", "run 1000", arm="arm 9 1")
    end_bay("occupancy", "run 1000", rack="occupancy 3")
    end_bay("rail", "run 1000", rack="rail 0 0 0")
    end_bay("a rail that held others", "run 1000", rack="rail 5 6 7 8")
    for settings in [
        "bays 3 fuel 8 depth 1 slices 7",
        "bays 3 fuel 7 depth 1",
        "bays 3 fuel 1 depth 0",
        "bays 2 fuel 8 depth 1",
        "bays 3 fuel 8 depth 1 slices 6",
        "",
    ]:
        cases.table("walk", "end-bay, " + (settings or "nothing set"), END_BAY, settings)


def piece_cases(cases):
    """The end-bay table's 87 steps, cut in many ways."""
    for name, pieces in [
        ("nothing at first", [0, 0, 87]),
        ("nothing in between", [50, 0, 0, 37]),
        ("one by one", [1] * 87),
        ("one by one, and once more", [1] * 88),
        ("by 2", [2] * 44),
        ("by 13", [13] * 7),
        ("by 29", [29] * 3),
        ("by 44", [44] * 2),
        ("all but one, then too many", [86, 10]),
        ("one of the largest number", [LARGEST_COUNT]),
        ("two of the largest number", [80, LARGEST_COUNT, LARGEST_COUNT]),
        *((f"what is held after {made} steps", [made]) for made in [0, 1, 4, 9, 24, 25, 60, 85]),
    ]:
        runs = [f"run {steps}" for steps in pieces]
        cases.job("pieces, " + name, "bays 3", 7, load(END_BAY), "compile", "arm 8 1", *runs)


def state_cases(cases):
    """Each call in each state."""
    for state, way in [
        ("empty", []),
        ("loaded", [load(SEVEN)]),
        ("coded", [load(SEVEN), "compile"]),
        ("running", [load(SEVEN), "compile", "arm 5 0", "run 1"]),
        ("over", [load(SEVEN), "compile", "arm 5 0", "run 9"]),
    ]:
        for name, line in [
            ("load", load(END_BAY)),
            ("load of a bad table", "load 27 0 0"),
            ("compile", "compile"),
            ("arm", "arm 3 1"),
            ("arm with too much", "arm 1000001 64"),
            ("arm with too few words", "arm 3 2"),
            ("run", "run 1"),
            ("run of no steps", "run 0"),
            ("stop", "stop"),
        ]:
            cases.job(f"{name} in {state}", "bays 3", 2, *way, line)


def cell_cases(cases):
    """Longer lists of calls."""
    writes = program(local(9, 5), do(write(number(1), plus(read(number(1)), number(1)))))
    fails = program(local(9, 5), local(8, 6), do(write(number(9), number(1))))
    unnamed = program(give(variable(3)))
    counting, written = [load(COUNTING), "compile", "arm 9 0"], run_each([writes], "arm 9 0")
    for name, calls in [
        ("none", []),
        ("stop and arm again", counting + ["run 30", "stop", "arm 4 0", "run 1000"]),
        ("stop at once", counting + ["stop"]),
        ("stop after a run", counting + ["run 30", "stop"]),
        ("arm again when over", written + ["arm 9 0", "run 99", "arm 0 0", "run 99"]),
        ("arm again when over, not yet run", written + ["arm 9 0"]),
        ("arm again after an ending", run_each([fails], "arm 9 0") + ["arm 9 0", "run 99"]),
        ("arm refused when over", written + ["arm 9 64", "arm 1000001 0", "arm 9 63", "run 1"]),
        ("load over code", [load(writes), "compile", load(SEVEN)]),
        ("load over code, and compile", [load(writes), "compile", load(SEVEN), "compile"]),
        ("load over code, and run", [load(writes), "compile"] + run_each([SEVEN])),
        ("load when over", written + [load(SEVEN)]),
        ("load when over, and run", written + run_each([END_BAY], "arm 9 0")),
        ("load refused over code", [load(writes), "compile", "load", "load 27 0 0", "arm 9 0", "run 99"]),
        ("load refused when over", written + ["load 26 0 0"]),
        ("load over a loaded table", [load(writes)] + run_each([SEVEN])),
        ("compile refused, and again", [load(unnamed), "compile", "compile", "arm 1 1"]),
        ("compile refused, then another table", [load(unnamed), "compile"] + run_each([SEVEN])),
        ("load while running", counting + ["run 5", load(SEVEN), "load", "compile", "arm 1 0", "run 7"]),
        ("an arm leaves the other words", counting + ["run 99", load(writes), "compile", "arm 9 0"]),
        ("fewer globals than before", run_each([fails, SEVEN], "arm 9 0")),
    ]:
        cases.job("calls, " + name, "bays 3", 8, *calls)
    cases.job("calls, none and no words", "occupancy 0", 0)


def refusals_of_shape(cases):
    def loads(name, tables):
        cases.job("refused, " + name, "bays 1", 0, *map(load, tables))

    start = [(27, 0, 0)]
    whole = start + [(19, 0, 0), (1, 0, 7)]
    # a beginning after which a record of the sort is wanted
    places = {
        "program": [],
        "variable declaration": [(27, 1, 0)],
        "function": [(27, 1, 0)],
        "statement": start,
        "expression": start + [(19, 0, 0)],
        "local": start + [(20, 1, 0)],
        "parameter": [(27, 1, 0), (25, 3, 1)],
    }
    unknown = [k for k in range(256) if k not in oracle.ROWS and (k < 40 or k > 250 or k % 32 == 1)]
    loads("kinds that are unknown", [start + [(kind, 0, 0)] for kind in unknown])
    loads("kinds that cannot stand there", [
        before + [(kind, 0, 0)] + [(1, 0, 0)] * 3 for before in places.values() for kind in oracle.ROWS])
    fields = []
    for kind, (sort, a_bounds, v_bounds, _) in oracle.ROWS.items():
        most_a, most_v = a_bounds[1], v_bounds[1] if v_bounds else 0
        # the last in bounds, the first out of bounds, and what is far out
        for a in {0, most_a, most_a + 1, 65535}:
            fields.append(places[sort] + [(kind, a, 0)])
        for v in {most_v, most_v + 1, -1, LARGEST, LEAST}:
            fields.append(places[sort] + [(kind, 0, v)])
    loads("fields at their bounds", fields)
    loads("both fields out of bounds", [[(27, 129, 1)], start + [(20, 64, 1024)]])
    loads("the kind before the fields", [[(16, 129, 1)], start + [(99, 64, 1024)]])
    loads("the first of two faults", [
        start + [(16, 0, 1), (99, 0, 0)],
        start + [(19, 0, 0), (3, 0, 0), (1, 5, 0)],
        start + [(19, 0, 0), (1, 1, 0)] + whole,
    ])
    loads("each table cut short", [END_BAY[:count] for count in range(len(END_BAY))])
    loads("records left over", [whole + whole, END_BAY + [(1, 0, 0)], END_BAY + [(255, 9, 9)] * 3])
    loads("the number of records", [
        [], whole + [(1, 0, 0)] * 1021, whole + [(1, 0, 0)] * 1022, [(27, 0, 0)] * 1025])
    for name, table in [
        ("an empty table", []),
        ("an unknown kind", start + [(10, 0, 0)]),
        ("a field", [(27, 0, 1)]),
        ("an early end", END_BAY[:20]),
        ("a record left over", END_BAY + [(1, 0, 0)]),
    ]:
        cases.table("check", f"refused, {name}", table)
        cases.table("walk", f"refused, {name}", table)


def refusals_of_names(cases):
    seven, eight, nine = variable(7), variable(8), variable(9)
    inner = block(locals=[local(7)])
    tables = {
        "global repeated": program(local(7), local(7), IDLE),
        "function repeated": program(function(7, [], IDLE), function(7, [], IDLE), IDLE),
        "variable and function of one name": program(local(7), function(7, [], IDLE), IDLE),
        "global repeated after a name undeclared": program(function(0, [], do(nine)), local(7), local(7), IDLE),
        "local repeats a global": program(local(7), inner),
        "local repeats a local": program(block(locals=[local(7), local(7)])),
        "local repeats one of the block around": program(block(inner, locals=[local(7)])),
        "local repeats one two blocks around": program(block(block(inner), locals=[local(7)])),
        "parameter repeats a later global": program(function(0, [7], IDLE), local(7), IDLE),
        "parameter repeats a parameter": program(function(0, [7, 7], IDLE), IDLE),
        "local repeats a parameter": program(function(0, [7], inner), IDLE),
        "local repeats a later global": program(function(0, [], inner), local(7), IDLE),
        "name again in the block beside": program(block(inner, inner)),
        "parameters of two functions": program(function(0, [7], IDLE), function(1, [7], IDLE), IDLE),
        "local of a function's name": program(function(7, [], IDLE), inner),
        "local used after its block": program(block(inner, do(seven))),
        "local of the block around": program(block(block(do(seven)), locals=[local(7)])),
        "parameter used in main": program(function(0, [7], IDLE), do(seven)),
        "parameter of another function": program(function(0, [7], IDLE), function(1, [], do(seven)), IDLE),
        "call of a later function": program(function(0, [], do(call(1))), function(1, [], IDLE), IDLE),
        "later global": program(function(0, [], do(seven)), local(7), IDLE),
        "undeclared variable": program(do(nine)),
        "undeclared assignment": program(do(assign(9, number(0)))),
        "undeclared function": program(local(9), do(call(9))),
        "variable of a function's name": program(function(9, [], IDLE), do(nine)),
        "argument too many": program(function(0, [], IDLE), do(call(0, nine))),
        "argument too few": program(function(0, [7], IDLE), do(call(0))),
        "fifteen arguments for fourteen": program(function(0, range(14), IDLE), do(call(0, *[number(0)] * 15))),
        "argument undeclared": program(function(0, [7], IDLE), do(call(0, seven))),
        "undeclared before what it is assigned": program(do(assign(9, eight))),
        "frame of 100 words": program(block(block(locals=locals_from(63, 100)), locals=locals_from(0, 63))),
        "frame of 101 words": program(block(block(locals=locals_from(63, 101)), locals=locals_from(0, 63))),
        "function of 101 words": program(
            function(0, range(100, 115), block(block(locals=locals_from(63, 86)), locals=locals_from(0, 63))), IDLE),
        "sums of 100 words": program(do(sums_to_the_right(99, number(1)))),
        "sums of 101 words": program(do(sums_to_the_right(100, number(1)))),
        "a name before the frame": program(do(sums_to_the_right(100, variable(1)))),
    }
    calls = [line for table in tables.values() for line in (load(table), "compile")]
    cases.job("refused, names and frame need", "bays 1", 0, *calls)
    for name in ["global repeated", "undeclared function", "argument too few", "frame of 101 words"]:
        cases.table("walk", f"refused, {name}", tables[name])


def limit_cases(cases):
    calls = [load(SEVEN), "compile"]
    for fuel in (0, 1000000, 1000001, LARGEST_COUNT):
        for depth in (0, 63, 64, LARGEST_COUNT):
            calls += [f"arm {fuel} {depth}", "run 1000"]
    cases.job("limits, fuel and depth of arms", "bays 1", 64, *calls)
    arms = [line for depth in (0, 1, 11, 12, 13, 63, 64) for line in (f"arm 0 {depth}", "stop")]
    cases.job("limits, words wanted by depth", "bays 1", 40, load(END_BAY), "compile", *arms)
    calls_once = program(function(0, [], IDLE), do(call(0)))
    cases.once("limits, no fuel for a while", COUNTING, fuel=0)
    cases.once("limits, no fuel for a call", calls_once, fuel=0)
    cases.once("limits, no fuel and none wanted", SEVEN, fuel=0, depth=0)
    cases.once("limits, no depth and no fuel", calls_once, fuel=0, depth=0)
    endless = program(repeat(number(1), NOTHING))
    cases.once("limits, all of the largest fuel", endless, fuel=1000000, steps=LARGEST_COUNT)

    def triangle(name, top, **limits):
        cases.once(f"limits, {name}", program(TRIANGLE, give(call(0, number(top)))), words=200, **limits)

    triangle("calls nested to 63", 62, depth=63)
    triangle("calls nested to 63 at depth 62", 62, depth=62)
    triangle("calls nested to 64", 63, depth=63)
    for depth in (0, 1, 5, 6):
        triangle(f"a recursive sum at depth {depth}", 5, depth=depth)
    for fuel in range(8):
        triangle(f"a recursive sum at fuel {fuel}", 5, depth=10, fuel=fuel)
    for name, settings in [
        ("fuel", "fuel 1000001"),
        ("depth", "depth 64"),
        ("fuel before words", "fuel 1000001 slices 0"),
        ("words", "slices 192"),
        ("a largest fuel and depth", "fuel 4294967295 depth 4294967295 slices 1"),
    ]:
        cases.table("walk", f"refused, {name}", END_BAY, settings)
    cases.table("walk", "limits, slices that just suffice", END_BAY, "slices 193")
    cases.table("walk", "limits, the fuel unless it is set", COUNTING)
    for top in (62, 63):
        table = program(TRIANGLE, give(call(0, number(top))))
        cases.table("walk", f"limits, calls nested to {top + 1} at the depth unless it is set", table)
    largest = program(*locals_from(0, 128), block(block(locals=locals_from(191, 228)), locals=locals_from(128, 191)))
    cases.table("walk", "limits, the most slices that a table can want", largest)
    cases.table("walk", "limits, one slice less", largest, "slices 6527")


def rack_cases(cases):
    slots = [LEAST, -4096, -1, 0, 1, 2, 3, 254, 255, 256, 4094, 4095, 4096, 4097, 65536, LARGEST]
    for rack in [
        "bays 0", "bays 1", "bays 2", "bays 256", "bays 257", "bays 4294967295", "occupancy 0", "occupancy 1",
        "occupancy 65", "rail", "rail 7.5", "rail 1 2 3",
    ]:
        writes = [program(do(write(number(slot), number(1)))) for slot in slots]
        reads = [program(give(read(number(slot)))) for slot in slots]
        cases.job(f"{rack}, a write at each edge", rack, 2, *run_each(writes))
        cases.job(f"{rack}, a read at each edge", rack, 2, *run_each(reads))
    last = program(do(write(number(4095), number(1))))
    cases.once("occupancy 4096, its last bay", last, rack="occupancy 4096", depth=0)
    cases.once("occupancy 4097, behind its last bay", program(do(read(number(4096)))), rack="occupancy 4097", depth=0)
    moved = program(do(write(number(4095), plus(read(number(4094)), read(number(4095))))))
    for count in (4095, 4096, 4097):
        words = ["0"] * (count - 3) + ["4", "-1.5", "2.5"]
        cases.once(f"rail of {count}, bay 4095", moved, rack="rail " + " ".join(words), depth=0)
    cases.job("rail, words that stay as they are", "rail -0 0 1e6 -1e6 1000001 nan -inf", 3)
    words = [LEAST, -1000001, -1000000, -2, -1, 0, 1, 2, 3, 64, 65, 1000000, 1000001, LARGEST]
    for rack in ["bays 1", "occupancy 1", "rail 0.5"]:
        for slot in (0, 1):
            writes = [program(give(write(number(slot), number(word)))) for word in words]
            cases.job(f"{rack}, each word written into bay {slot}", rack, 2, *run_each(writes))
    refused = program(local(0), give(write(assign(0, number(9)), assign(0, number(5)))))
    cases.once("bays, the parts of a refused write have run", refused)
    cases.once("bays, a write's value", program(give(plus(write(number(0), number(3)), read(number(0))))))
    thirds = repeat(
        greater(number(130), variable(0)), do(write(minus(raised(0, 3), number(3)), number(1))))
    cases.once("occupancy, each third bay", program(local(0), thirds), rack="occupancy 130")
    bits = [do(write(number(slot), number(1))) for slot in (0, 63, 64, 127)]
    bits += [do(write(number(slot), number(0))) for slot in (63, 64)]
    cases.once("occupancy, bits beside each other", program(block(*bits)), rack="occupancy 128")


def number_cases(cases):
    one = number(1)
    bay = [read(number(slot)) for slot in range(3)]
    doubles = [plus(word, word) for word in bay]
    edges = [LEAST, -1, 0, 1, LARGEST]
    for make, name in ((plus, "sums"), (minus, "differences"), (greater, "comparisons")):
        for rack in ["bays 1", "rail 0"]:
            table = shown(*(make(number(a), number(b)) for a in edges for b in edges))
            cases.once(f"{rack}, {name} at the edges", table, rack=rack, words=30)
    for rack, parts in [
        ("rail 1e308 -1e308", [doubles[0], doubles[1], plus(bay[0], bay[1]), minus(doubles[0], doubles[0]),
                               plus(doubles[1], doubles[0])]),
        ("rail inf -inf nan", [minus(bay[0], bay[0]), plus(bay[0], bay[1]), doubles[0], plus(bay[2], one),
                               minus(number(0), bay[1])]),
        ("rail 0.1 0.2", [plus(bay[0], bay[1]), minus(bay[0], bay[1]), plus(doubles[0], bay[0])]),
        ("rail 1e16 9007199254740992 9007199254740994",
         [plus(word, one) for word in bay] + [minus(word, one) for word in bay]),
        ("rail 5e-324 2.2250738585072014e-308", [doubles[0], minus(bay[1], bay[0]), minus(bay[0], bay[0])]),
        ("rail -0 0", [doubles[0], plus(bay[0], bay[1]), minus(bay[1], bay[0]), minus(bay[0], bay[1]),
                       minus(bay[0], bay[0]), minus(number(0), bay[1]), greater(bay[0], bay[1]),
                       greater(bay[1], bay[0])]),
        ("rail 1e21 1e22 123456.75", [plus(bay[0], bay[1]), minus(bay[0], bay[1]), minus(number(0), bay[2])]),
    ]:
        cases.once(f"floats, {rack}", shown(*parts), rack=rack)
    tests = program(branch(bay[0], give(one), give(number(2))))
    as_slot, written = program(give(read(bay[0]))), program(give(write(one, bay[0])))
    waits = program(repeat(bay[0], do(write(one, number(8)))))
    pairs = [pair for n in (-1, 0, 1) for pair in ((bay[0], number(n)), (number(n), bay[0]))]
    compared = shown(*(greater(*pair) for pair in pairs), greater(bay[0], bay[0]), bay[0])
    for word in ["-0", "0", "nan", "inf", "-inf", "5e-324", "-5e-324", "0.5", "-1"]:
        rack = f"rail {word} 7"
        calls = run_each([as_slot, written, waits, compared], "arm 3 0")
        cases.job(f"floats, {word} as a slot, written, in a while and compared", rack, 12, *calls)
        cases.once(f"floats, is {word} zero", tests, rack=rack)
    for word in ["1000000", "1000000.0000000001", "1000000.0000000002", "-1000000", "-1000000.0000000002",
                 "999999.9999999999"]:
        cases.once(f"floats, the bound at {word}", written, rack=f"rail {word} 7")
    for word in ["1", "1.0000000000000002", "0.9999999999999999", "4095", "4095.5", "4096", "65536", "65537", "1e300"]:
        cases.once(f"floats, a slot of {word}", as_slot, rack=f"rail {word} 7")
    twice = plus(variable(0), variable(0))
    doubled = program(local(0, 1), repeat(greater(number(0), minus(variable(0), twice)), do(assign(0, twice))))
    cases.once("floats, doubled until there is no larger one", doubled, rack="rail", fuel=2000)
    cases.once("numbers, doubled until they wrap", doubled, rack="bays 0", fuel=2000)


def branching_tables():
    n, v = number, variable
    return {
        "an if on one": program(branch(n(1), give(n(5)), give(n(6)))),
        "an if on zero": program(branch(n(0), give(n(5)), give(n(6)))),
        "an if on less than zero": program(branch(n(-1), do(n(5)), do(n(6)))),
        "an if's value": program(branch(n(0), do(n(5)), do(n(6)))),
        "ifs in ifs": program(
            branch(n(1), branch(n(0), give(n(1)), branch(n(7), give(n(2)), give(n(3)))), give(n(4)))),
        "an if whose other statement would end the run": program(
            branch(n(1), do(write(n(0), n(5))), do(write(n(99), n(5))))),
        "a while's value": program(repeat(n(0), IDLE)),
        "a while whose test ends the run": program(repeat(read(n(99)), IDLE)),
        "whiles in whiles": program(
            local(0),
            local(1),
            local(2),
            repeat(greater(n(3), v(0)), block(
                do(raised(0)),
                do(assign(1, n(0))),
                repeat(greater(n(4), v(1)), block(do(raised(1)), do(assign(2, plus(v(2), v(1))))))))),
        "an expression's value": program(do(n(5))),
        "a block's value": program(block(do(n(5)))),
        "an empty block": program(NOTHING),
        "blocks in blocks": program(local(9), block(
            block(
                block(do(assign(9, plus(v(1), plus(v(2), v(3))))), locals=[local(3, 400)]),
                locals=[local(2, 30)]),
            block(do(assign(9, plus(v(9), v(2)))), locals=[local(2, 5)]),
            give(v(9)),
            locals=[local(1, 1)])),
        "locals begin anew in each turn": program(local(0), local(1), repeat(greater(n(3), v(0)), block(
            do(raised(2)), do(assign(1, plus(v(1), v(2)))), do(raised(0)), locals=[local(2, 10)]))),
        "fuel spent between statements": program(local(0), block(
            do(write(n(0), n(1))), repeat(greater(n(9), v(0)), do(raised(0))), do(write(n(1), n(1))))),
        "a global returned": program(local(200, -9), give(v(200))),
        "a return out of a while": program(
            local(0), repeat(n(1), branch(greater(raised(0), n(4)), give(v(0)), NOTHING))),
        "a return out of blocks": program(local(0), block(
            block(give(plus(v(1), v(2))), locals=[local(2, 30)]), do(assign(0, n(1))), locals=[local(1, 12)])),
        **{f"division, {first} by 5": program(local(0, first), local(1, 5), local(2), block(
            repeat(greater(v(0), v(1)), block(do(assign(0, minus(v(0), v(1)))), do(raised(2)))), give(v(2))))
           for first in (16, 15)},
    }


def order_tables():
    n, v = number, variable
    steps = function(0, [], block(do(raised(0)), give(n(100))))
    return {
        "an assignment's value": program(local(0), local(1), give(assign(0, plus(assign(1, n(4)), v(1))))),
        "assignments nested": program(
            local(0), local(1), local(2), give(assign(0, assign(1, assign(2, n(8)))))),
        "a variable before and after its assignment": program(
            local(0, 1), give(minus(v(0), minus(assign(0, n(50)), v(0))))),
        "operands left to right": program(local(0), give(minus(assign(0, n(9)), assign(0, n(4))))),
        "a write's parts left to right": program(
            local(0), block(do(write(assign(0, n(2)), raised(0, 5))), give(v(0)))),
        "i + step() and step() + i": program(local(0, 10), local(1), steps, block(
            do(assign(1, plus(v(0), call(0)))), give(minus(plus(call(0), v(0)), v(1))))),
        "a global read before, by and after a call": program(
            local(0), function(0, [], block(do(raised(0)))), give(plus(v(0), plus(call(0), v(0))))),
    }


def calling_tables():
    n, v = number, variable
    return {
        "a call without a return": program(function(0, [], do(n(5))), give(call(0))),
        "a call whose block has a value": program(function(0, [], block(do(n(5)))), give(call(0))),
        "a call whose while comes to its end": program(
            function(0, [], repeat(n(0), IDLE)), give(plus(n(1), call(0)))),
        "a function that returns at times": program(
            function(0, [1], branch(v(1), give(n(5)), do(n(6)))), give(plus(call(0, n(1)), call(0, n(0))))),
        "a return out of a while in a function": program(
            function(0, [1], repeat(n(1), block(
                branch(greater(v(1), n(9)), give(v(2)), NOTHING),
                do(assign(1, plus(v(1), v(2)))),
                locals=[local(2, 4)]))),
            give(plus(n(100), call(0, n(0))))),
        "a return out of blocks in a function": program(
            function(0, [5], block(
                block(give(plus(v(1), plus(v(2), v(5)))), locals=[local(2, 30)]), locals=[local(1, 12)])),
            give(plus(call(0, n(100)), call(0, n(200))))),
        "a return within arguments": program(
            function(0, [1], give(v(1))),
            function(1, [1, 2], block(give(plus(v(1), v(2))))),
            give(call(1, call(0, n(3)), call(0, n(4))))),
        "locals begin anew in each call": program(
            function(0, [], block(do(raised(2)), give(v(2)), locals=[local(2, 10)])),
            give(plus(call(0), plus(call(0), call(0))))),
        "a parameter is the function's own": program(
            local(0, 3), function(0, [1], block(do(raised(1)), give(v(1)))), give(plus(call(0, v(0)), v(0)))),
        "functions that call each other": program(
            function(0, [1], branch(v(1), give(call(1, minus(v(1), n(1)))), give(n(1)))),
            function(1, [1], branch(v(1), give(call(0, minus(v(1), n(1)))), give(n(0)))),
            give(plus(call(0, n(7)), plus(call(0, n(8)), plus(call(1, n(8)), call(1, n(9))))))),
        "a call within the arguments of a call": program(TRIANGLE, give(call(0, call(0, call(0, n(2)))))),
        "a run that ends deep inside": program(
            function(0, [1], branch(
                v(1), block(do(call(0, minus(v(1), n(1)))), locals=[local(2, 77)]), do(read(n(-1))))),
            do(call(0, n(4)))),
        "globals declared after the function": program(
            function(0, [], do(raised(7))), local(7, 41), block(do(call(0)), give(v(7)))),
        "globals between functions": program(
            local(3, 1),
            function(3, [], give(v(5))),
            local(5, 2),
            function(5, [], give(v(3))),
            local(4, 3),
            give(minus(call(3), call(5)))),
        "names 0 and 255": program(
            local(255, 5), function(255, [0], give(plus(v(0), v(255)))), give(call(255, n(2)))),
    }


def control_cases(cases):
    tables = {**branching_tables(), **order_tables(), **calling_tables()}
    for name, table in tables.items():
        cases.once(name, table, words=100, depth=12)
    for rack, fuel in (("rail 1 2 3 4", 100), ("occupancy 2", 5)):
        for name in ["whiles in whiles", "a return out of blocks in a function", "functions that call each other",
                     "fuel spent between statements"]:
            cases.once(f"{name}, {rack}, fuel {fuel}", tables[name], rack=rack, words=100, depth=12, fuel=fuel)
    # twice what there is and one argument more, and so on: which argument is which shows
    total, count = variable(98), variable(99)
    for arguments in range(16):
        gathered = [do(assign(98, plus(plus(total, total), variable(k)))) for k in range(arguments)]
        taken = function(0, range(arguments), block(*gathered, give(total)))
        given = [assign(99, plus(count, number(k + 1))) for k in range(arguments)]
        cases.once(f"{arguments} arguments, in order", program(local(98), local(99), taken, give(call(0, *given))),
                   words=100)


def size_cases(cases):
    flat = program(block(*[IDLE] * 511))
    deep = program(local(0), function(0, [], do([(oracle.ASSIGNMENT, 0, 0)] * 1017 + call(0))), do(call(0)))
    assert len(flat) == len(deep) == 1024
    cases.once("sizes, 1,024 records side by side", flat)
    cases.once("sizes, 1,025 records", program(block(*[IDLE] * 511, NOTHING)))
    cases.once("sizes, 1,017 assignments in one another", deep, words=200, depth=63, fuel=1000)
    ladder = NOTHING
    for n in range(60):
        ladder = repeat(number(n), ladder) if n % 2 else branch(number(1), ladder, NOTHING)
    cases.once("sizes, 60 whiles and ifs in one another", program(ladder))
    first_and_last = give(plus(variable(0), variable(127)))
    cases.once("sizes, 128 globals", program(*(local(n, n - 50) for n in range(128)), first_and_last), words=131)
    functions = [function(n, [], give(number(n))) for n in range(128)]
    cases.once("sizes, 128 functions", program(*functions, give(plus(call(127), call(1)))))
    mixed = [part for n in range(64) for part in (local(n, n), function(n, [], give(variable(63 - n))))]
    cases.once("sizes, 64 globals and 64 functions", program(*mixed, give(minus(call(0), call(63)))), words=80)
    cases.once("sizes, 129 globals", program(*locals_from(0, 129), IDLE))
    sixty_three = [local(n, n + 1) for n in range(63)]
    cases.once("sizes, 63 locals", program(block(give(plus(variable(0), variable(62))), locals=sixty_three)), words=70)
    cases.once("sizes, a frame of 100 words", program(do(sums_to_the_right(99, number(1)))), words=100, depth=0)
    given = [number(k) for k in range(15)]
    cases.table("walk", "sizes, 15 parameters", program(
        function(9, range(15), give(variable(14))), give(call(9, *given))))


def reading_cases(cases):
    start = "rack bays 3\nwords 2\n"
    for at, text in enumerate([
        "", "\n\n", "# nothing\n", "rack bays 3\n# end", "rack bays 3",
        "words 3", "# c\nrack", "rack tub 3", "Rack bays 1", "rack bays 3 4", "rack bays", "rack bays x",
        "\nrack occupancy -1", "rack bays 4294967296", "rack bays 1.5", "rack rail 1 x", "rack rail 1,5",
        "rack rail 1_0", "rack bays 3\nload", "rack bays 3\nrack bays 3", "rack bays 3\nwords 2 3",
        "rack bays 3\nwords", "rack bays 3\nwords -1",
        *(start + line for line in [
            "\njump", "LOAD", "stop now", "compile 1", "arm", "arm 8", "arm 8 1 2", "arm -1 2", "run",
            "run 4294967296", "run 1 2", "load 1 0", "load 256 0 0", "load -1 0 0", "load 1 65536 0",
            "load 1 0 2147483648", "load 1 0 -2147483649", "load 1 0 0 1", "load a", "stop\n\n# c\nrun x",
        ]),
    ]):
        cases.add("job", f"unreadable {at}", text + ("\n" if text else ""))
    for at, text in enumerate([
        "1 0 0\n1 x 0", "1.0 0 0", "9223372036854775808 0 0", "9223372036854775807 0 0", "256 0 0", "-1 0 0",
        "1\n65536 0", "1 -1 0", "1 0 2147483648", "1 0 -2147483649", "fuel -1", "fuel 4294967296", "fuel x",
        "fuel\nfuel", "Fuel 1", "fuel", "27 0 0 fuel\n\n\n", "1 0 0\n1 0\n", "1 0 0\n1",
    ]):
        cases.add("check", f"unreadable {at}", text + "\n")
    cases.add("job", "read, blanks, comments, signs and noughts",
              "  # a job\n\n\track  bays\t+2 # two\n words 3\n\n  load +27 00 -0   19 0 0 1 0 +07#x\n"
              "compile #\n\tarm 1 0\nrun 007\n")
    cases.add("job", "read, carriage returns",
              "rack bays 2\r\nwords 1\r\nload 27 0 0 19 0 0 1 0 -7\r\ncompile\r\narm 1 0\r\nrun 3\r\n")
    cases.add("job", "read, floats in other forms",
              "rack rail +1 -1. .5 1e3 1E-3 2.5e+1 inf -infinity NaN 00.50 1e400 1e-400\nwords 0\n")
    cases.add("walk", "read, over many lines",
              "# return 7\n27 0\n0 fuel 3 19 0 0 1\n\n0 # here\n7 depth\n2 fuel 4\nbays 1\n")
    cases.add("check", "read, settings in between", "bays 1 27 0 0 slices 3\n19 0 0 fuel 0\n1 0 -5 depth 9\n")
    cases.add("walk", "read, no bays", "bays 0\n27 0 0 19 0 0 1 0 7\n")
    cases.add("walk", "read, more bays than there can be",
              "bays 4294967295\n27 0 0 16 0 0 9 0 0 1 0 255 1 0 -3\n")


class Drawing:
    """A random program whose names are in order."""

    def __init__(self, dice):
        self.dice = dice
        self.names = dice.sample(range(256), 40)
        self.globals = [self.names.pop() for _ in range(dice.randint(0, 3))]
        functions = dice.sample(range(256), dice.randint(0, 3))
        self.functions = {name: dice.choice([0, 0, 1, 1, 2, 3]) for name in functions}

    def value(self):
        small = self.dice.randint(-10, 10)
        return self.dice.choice([0, 0, 1, 1, 2, 3, 4, 5, -1, -2, 7, 100, LARGEST, LEAST, small])

    def table(self):
        parts = [local(name, self.value()) for name in self.globals]
        for name, count in self.functions.items():
            parameters = [self.names.pop() for _ in range(count)]
            parts.append(function(name, parameters, self.statement(3, self.globals + parameters)))
        self.dice.shuffle(parts)
        main = [self.statement(2, self.globals) for _ in range(self.dice.randint(1, 4))]
        return program(*parts, block(*main) if len(main) > 1 else main[0])

    def slot(self, size, scope):
        if self.dice.random() < 0.75:
            return number(self.dice.choice([0, 0, 1, 1, 2, 3]))
        return self.expression(size, scope)

    def expression(self, size, scope):
        dice = self.dice
        if size <= 0 or dice.random() < 0.2:
            return variable(dice.choice(scope)) if scope and dice.random() < 0.6 else number(self.value())
        choice = dice.random()
        if choice < 0.45:
            make = dice.choice([plus, plus, minus, greater])
            return make(self.expression(size - 1, scope), self.expression(size - 1, scope))
        if choice < 0.6 and scope:
            return assign(dice.choice(scope), self.expression(size - 1, scope))
        if choice < 0.75 and self.functions:
            name = dice.choice(list(self.functions))
            return call(name, *(self.expression(size - 2, scope) for _ in range(self.functions[name])))
        if choice < 0.88:
            return read(self.slot(size - 2, scope))
        return write(self.slot(size - 2, scope), self.expression(size - 1, scope))

    def statement(self, size, scope):
        dice = self.dice
        choice = dice.random()
        if size <= 0 or choice < 0.3:
            return do(self.expression(3, scope))
        if choice < 0.5:
            return branch(
                self.expression(2, scope), self.statement(size - 1, scope), self.statement(size - 1, scope))
        if choice < 0.68:
            return repeat(self.expression(2, scope), self.statement(size - 1, scope))
        if choice < 0.76:
            return give(self.expression(2, scope))
        own = [self.names.pop() for _ in range(min(dice.choice([0, 1, 1, 2]), len(self.names)))]
        statements = [self.statement(size - 1, scope + own) for _ in range(dice.randint(0, 3))]
        return block(*statements, locals=[local(name, self.value()) for name in own])


def drawn(dice, least, most):
    """A random table of so many records."""
    while True:
        table = Drawing(dice).table()
        if least <= len(table) <= most:
            return table


RACKS = ["bays 1", "bays 4", "bays 5", "occupancy 4", "occupancy 70", "rail 0 0 0 0", "rail 1.5 -2.25 1e6 0.1",
         "rail -0 nan inf 3 4 5"]


def random_cases(cases, dice):
    for at in range(100):
        table = drawn(dice, 12, 50)
        rack = dice.choice(RACKS)
        fuel, depth = dice.choice([0, 1, 3, 5, 9, 20, 50, 200]), dice.choice([0, 1, 2, 3, 5])
        tree, _ = oracle.check_shape([oracle.Record(*record) for record in table])
        words = oracle.Program(tree).words_wanted(depth) + dice.choice([0, 0, 0, 1, 5])
        runs = [f"run {dice.choice([0, 1, 2, 5, 10, 30, 70])}" for _ in range(dice.randint(0, 3))]
        if dice.random() < 0.9:
            runs.append(f"run {LARGEST_COUNT}")
        if dice.random() < 0.15:
            runs += [f"arm {fuel + 3} {depth}", f"run {dice.choice([3, 20, 1000])}"]
        cases.job(f"random {at}", rack, words, load(table), "compile", f"arm {fuel} {depth}", *runs)
    for at in range(8):
        settings = f"bays {dice.choice([0, 2, 4])} fuel {dice.choice([0, 4, 30])} depth {dice.choice([0, 1, 4])}"
        cases.table("walk", f"random {at}", drawn(dice, 8, 30), settings)


NAMED = (oracle.VARIABLE, oracle.ASSIGNMENT, oracle.CALL, oracle.PARAMETER, oracle.VARIABLE_DECLARATION,
         oracle.FUNCTION)


def damaged(table, dice):
    """The table with one change, mostly a fault."""
    table = list(table)
    at, other = dice.randrange(len(table)), dice.randrange(len(table))
    kind, a, v = table[at]
    choice = dice.randrange(8)
    if choice == 0:
        del table[at]
    elif choice == 1:
        table.insert(at, table[other])
    elif choice == 2:
        table[at] = (dice.choice(list(oracle.ROWS) + [0, 10, 21, 255]), a, v)
    elif choice == 3:
        table[at] = (kind, dice.choice([0, 1, 2, 7, 200, 256, 65535]), v)
    elif choice == 4:
        table[at] = (kind, a, dice.choice([0, 1, 2, 3, -1, 15, 16, 2000]))
    elif choice == 5:
        table[at], table[other] = table[other], table[at]
    else:
        named = [i for i, record in enumerate(table) if record[0] in NAMED]
        if named:
            at, other = dice.choice(named), dice.choice(named)
            table[at] = (table[at][0], table[other][1], table[at][2])
    return table


def damaged_cases(cases, dice):
    for at in range(20):
        calls = []
        for _ in range(12):
            calls += run_each([damaged(drawn(dice, 8, 40), dice)], "arm 20 2", "run 1000") + ["stop"]
        # one of no interest last, so that no code is listed
        cases.job(f"damaged {at}", "bays 3", 40, *calls, load(SEVEN))


def main():
    cases = Cases()
    for add in (end_bay_cases, piece_cases, state_cases, cell_cases, refusals_of_shape, refusals_of_names, limit_cases,
                rack_cases, number_cases, control_cases, size_cases, reading_cases):
        add(cases)
    dice = random.Random(20250)
    random_cases(cases, dice)
    damaged_cases(cases, dice)
    folder = os.path.join(os.path.dirname(os.path.abspath(__file__)), "..", "crates", "checks")
    for name, parts in (("stdin", cases.inputs), ("stdout", cases.outputs)):
        with open(os.path.join(folder, name), "w", encoding="utf-8", newline="") as file:
            file.write("".join(parts))
    print(f"{len(cases.inputs)} cases")
    return 0


if __name__ == "__main__":
    sys.exit(oracle.with_room(main))
