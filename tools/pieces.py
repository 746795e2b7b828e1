"""What the tables of tools/every.py and tools/every_end.py are written with: classes, and pieces of code."""

from assembler import Method, class_file

MIN, MAX = -(2**31), 2**31 - 1
LANG = "java/lang/"
THROWABLES = """Throwable Exception Error RuntimeException ArithmeticException IndexOutOfBoundsException
    NegativeArraySizeException NullPointerException IllegalArgumentException IllegalStateException
    UnsupportedOperationException ArrayIndexOutOfBoundsException""".split()
KINDS = "ZBCSI"
EDGES = {"Z": [0, 1], "B": [-128, 127], "C": [0, 65535], "S": [-32768, 32767], "I": [MIN, MAX, 5]}


class Table:
    """A class, with the inputs of each of its methods. One that isn't asked of the Java machine has methods that this
    refuses, or runs otherwise."""

    def __init__(self, owner, *fields, longs=0, asked=True):
        self.owner, self.fields, self.longs, self.asked = owner, fields, longs, asked
        self.methods, self.inputs = [], {}

    def add(self, name, desc, runs, *code, table="", **more):
        """A method, whose code comes in pieces. The rows of its exception table have commas between, and name
        throwables of java.lang."""
        rows = [row.split() for row in table.split(", ") if row]
        rows = [" ".join(row[:3] + [LANG + caught for caught in row[3:]]) for row in rows]
        self.methods.append(Method(name, desc, "\n".join(code) or None, rows, **more))
        self.inputs[name, desc] = [run if isinstance(run, tuple) else (run,) for run in runs]

    def file(self):
        return class_file(self.owner, self.fields, self.methods, self.longs)


def fold(count):
    """Makes one int of so many; each place of the stack counts differently."""
    return "\n".join(["bipush 31; imul; iadd"] * (count - 1))


def made(name):
    return f"new {LANG}{name}; dup; invokespecial {LANG}{name}.<init> ()V"


def made_of_text(name):
    return f"new {LANG}{name}; dup; ldc 'text'; invokespecial {LANG}{name}.<init> (Ljava/lang/String;)V"


def truth(branch):
    """1 where the branch is taken, else 0."""
    return f"{branch} yes; iconst_0; ireturn; yes: iconst_1; ireturn"


def either(first, second):
    """The first word where the first parameter is 1, the second where it is 0: a word that no parameter entered."""
    return f"iload_0; ifeq second; sipush {first}; goto both; second: sipush {second}; both:"


def spins(count, label="spin"):
    """So many instructions, without a choice."""
    turns, rest = divmod(count - 2, 3)
    return "\n".join([f"sipush {turns}; istore 9; {label}: iinc 9 -1; iload 9; ifne {label}"] + ["nop"] * rest)


def selected(cases, low=0):
    """One of the cases by the int on the stack, from the low one on, or none; then what stands behind it."""
    labels = " ".join(f"case{i}" for i in range(len(cases)))
    bodies = [f"case{i}: {case}; goto behind" for i, case in enumerate(cases)]
    return "\n".join([f"tableswitch {low} {labels} behind", *bodies, "behind:"])
