#!/usr/bin/env python3
"""Writes the tables of crates/tests_once: what `once` is to answer for the classes of tools/java, and for those of
tools/every.py and tools/every_end.py.

The first it compiles (javac --release 8 -g:none), and takes up to thirty inputs of each static method that can be an
entry; the others are assembled, and have their inputs beside them. It runs the methods through the Java machine, by
reflection, in a class loaded anew, and writes a module for each class with its bytes, the command lines and the
replies. The ends that the Java machine doesn't have (cut, runaway, deep, symlength, heapfull, missing) are those of
tools/machine.py, and so are all ends of a class that it isn't asked of. For every other run both must give the same
answer, and all opcodes and ends must have come, else nothing is written. It needs a JDK and is no part of the gate:

    python3 tools/jvm_answers.py
"""

import collections
import pathlib
import random
import re
import subprocess
import sys
import tempfile
import textwrap
import typing

import assembler
import every
import every_end
import machine

TOOLS = pathlib.Path(__file__).resolve().parent
MODULES = TOOLS.parent / "crates" / "tests_once" / "src"
INPUTS = 30
OWN = ("cut", "runaway", "deep", "symlength", "heapfull", "missing")
ENDS = {*OWN, "returns", "throws", "initfailed"}
KINDS = {"Z": (0, 1), "B": (-128, 127), "C": (0, 65535), "S": (-32768, 32767), "I": (-(2**31), 2**31 - 1)}

# the ranges of the words of a method, where they aren't all words of its kinds
RANGES = {
    "Numbers.isPrime": [(-5, 60_000)],
    "Numbers.power": [(-20, 20), (-3, 127)],
    "Numbers.collatz": [(-2, 900)],
    "Sieve.isPrime": [(-3, 130)],
    "Sieve.count": [(-2, 140)],
    "Sieve.fresh": [(-2, 5)],
    "Recursion.fibonacci": [(-2, 12)],
    "Recursion.callsFor": [(-2, 12)],
    "Recursion.ackermann": [(0, 2), (0, 5)],
    "Recursion.down": [(-2, 262)],
    "Recursion.even": [(-3, 140)],
    "Recursion.odd": [(-3, 140)],
    "Recursion.hanoi": [(0, 8), (1, 3), (1, 3)],
    "Recursion.depth": [(0, 262)],
    "Sorting.smallest": [(-1, 6)] + [(-9, 9)] * 6,
    "Sorting.find": [(-10, 370)],
    "Sorting.same": [(-3, 3)] * 3,
    "Statics.reset": [(-2, 9)],
    "Switches.dense": [(-4, 9)],
    "Switches.calculate": [(-1, 12), None, None],
    "Switches.days": [(-1, 13), (1890, 2110)],
    "Switches.vowel": [(96, 122)],
    "Switches.machine": [(0, 40)],
    "Faults.made": [(-1, 11)],
    "Faults.checked": [(-200, 20)],
    "Faults.wrapped": [(-120, 10)],
    "Faults.nested": [(5, 14), (-2, 3)],
    "Faults.index": [(-1, 5), (-1, 5)],
    "Faults.machine": [(-1, 8)],
    "Faults.over": [(-120, 8)],
    "Kinds.nothing": [(0, 1), (0, 300)],
    "Kinds.toByte": [(-140, 140)],
    "Limits.spins": [(-1, 1)],
    "Limits.choices": [(-2, 300)],
    "Limits.cellsOf": [(0, 3)],
    "Limits.throwables": [(0, 8)],
    "Callers.helped": [(-4, 9)],
    "Callers.read": [(-4, 110)],
    "Callers.absolute": [(-4, 4)],
}


def chosen(source, kind, within):
    """A word of this kind, from the range if there is one."""
    low, high = within or KINDS[kind]
    if within or kind != "I":
        return source.choice([low, high] + [source.randint(low, high) for _ in range(min(9, high - low))])
    edges = [low, low + 1, -1, 0, 1, high - 1, high]
    ranges = [(-9, 40), (-3000, 3000), (low, high)]
    return source.choice([source.choice(edges)] + [source.randint(*both) for both in ranges])


def inputs(owner, name, desc):
    """Up to thirty inputs of a method, each once."""
    source = random.Random(f"{owner}.{name}{desc}")
    kinds = machine.parameters(desc)
    ranges = RANGES.get(f"{owner}.{name}", [None] * len(kinds))
    found = dict.fromkeys(
        tuple(chosen(source, kind, within) for kind, within in zip(kinds, ranges)) for _ in range(400)
    )
    return list(found)[:INPUTS]


def is_entry(name, desc):
    kinds = machine.parameters(desc)
    return name != "<clinit>" and len(kinds) <= 8 and "[I" not in desc and machine.known(desc)


class Class(typing.NamedTuple):
    """A class file, where it comes from, the inputs of each method, and whether the Java machine is asked of it."""

    owner: str
    data: bytes
    source: str
    maker: str
    inputs: dict
    asked: bool = True


def compiled(folder):
    """The classes of tools/java."""
    sources = sorted((TOOLS / "java").glob("*.java"))
    compiler = ["javac", "--release", "8", "-g:none", "-Xlint:-options", "-d", str(folder)]
    subprocess.run([*compiler, *map(str, sources), str(TOOLS / "Answers.java")], check=True)
    for owner in (source.stem for source in sources):
        data = (folder / f"{owner}.class").read_bytes()
        methods = machine.ClassFile(data).methods
        found = {both: inputs(owner, *both) for both, body in methods.items() if body is not None and is_entry(*both)}
        yield Class(owner, data, f"`tools/java/{owner}.java`", "`javac --release 8 -g:none`", found)


def assembled(folder):
    """The classes of tools/every.py and tools/every_end.py."""
    for file in every, every_end:
        for table in (make() for make in file.TABLES):
            data = table.file()
            (folder / f"{table.owner}.class").write_bytes(data)
            source = f"The class `{table.owner}` of `tools/{file.__name__}.py`"
            yield Class(table.owner, data, source, "`tools/assembler.py`", table.inputs, table.asked)


def asked_of_java(folder, runs):
    """The answers of the Java machine."""
    lines = "".join(" ".join([str(folder), *map(str, run)]) + "\n" for run in runs)
    java = ["java", "-cp", str(folder), "Answers"]
    return subprocess.run(java, input=lines, text=True, stdout=subprocess.PIPE, check=True).stdout.splitlines()


def literal(lines):
    """A literal of these lines."""
    text = "".join(line + "\n" for line in lines)
    return '"' + text.replace("\\", "\\\\") + '"'


def module(of, lines, replies):
    """The module of a class, as `rt fmt` leaves it."""
    numbers = ", ".join(map(str, of.data)) + ","
    numbers = textwrap.fill(numbers, 99, initial_indent="    ", subsequent_indent="    ")
    return f"""//! {of.source}: its class file, command lines, and the replies to them.

/// The class file, as {of.maker} makes it.
pub static FILE: [u8; {len(of.data)}] = [
{numbers}
];

/// Command lines.
pub static LINES: &str = {literal(lines)};

/// The replies to them.
pub static REPLIES: &str = {literal(replies)};
"""


def module_name(owner):
    return re.sub(r"(?<=[a-z])(?=[A-Z])", "_", owner).lower()


def check_all_came(counts):
    """Every opcode of the subset was executed, each that may have a wide form also in that form, and every end came."""
    opcodes = {op for op, _ in assembler.opcodes(assembler.SUBSET).values()}
    wanted = opcodes | {(machine.WIDE, op) for op in machine.WIDENED}
    if opcodes != machine.SUBSET or wanted != machine.EXECUTED or ENDS != set(counts):
        sys.exit(f"differ: {wanted ^ machine.EXECUTED} of opcodes, {ENDS ^ set(counts)} of ends")


def main():
    modules, counts, runs, ends = {}, collections.Counter(), [], []
    with tempfile.TemporaryDirectory() as name:
        folder = pathlib.Path(name)
        for of in [*compiled(folder), *assembled(folder)]:
            file, lines, replies = machine.ClassFile(of.data), [], []
            for (method, desc), inputs_of in of.inputs.items():
                for words in inputs_of:
                    end = machine.run(file, method, desc, words)
                    counts[end.split()[0]] += 1
                    lines.append(" ".join(["once", f"{of.owner}.class", method, desc, *map(str, words)]))
                    replies.append("ok " + end)
                    if of.asked and end.split()[0] not in OWN:
                        runs.append((of.owner, method, desc, *words))
                        ends.append(end)
            modules[module_name(of.owner)] = module(of, lines, replies)
        check_all_came(counts)
        for run, end, answer in zip(runs, ends, asked_of_java(folder, runs), strict=True):
            if end != answer:
                sys.exit(f"{run}: {answer} on the Java machine, and {end} by the rules")
    for name, text in modules.items():
        (MODULES / f"{name}.rt").write_text(text)
    print(f"{len(runs)} runs of the Java machine agree;", dict(counts))


if __name__ == "__main__":
    main()
