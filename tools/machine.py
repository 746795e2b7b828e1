"""The machine of docs/DEFINITIONS.md once more, in Python, for the answers of tools/jvm_answers.py.

It runs a static method of a class file whose methods use the subset that Memoise runs, with that class as
the only one, to a depth of 256 choices, and tells the end as `once` prints it. It was written from the rules
(JVMS SE 8, section 6.5, and the limits of this project), and shares nothing with the program.
"""

CHOICES, INSTRUCTIONS, FRAMES, LENGTH, CELLS, MADE = 256, 20_000, 256, 256, 4_096, 4_096

LANG = "java/lang/"
PARENT = {
    "Throwable": None,
    "Exception": "Throwable",
    "Error": "Throwable",
    "RuntimeException": "Exception",
    "ArithmeticException": "RuntimeException",
    "IndexOutOfBoundsException": "RuntimeException",
    "NegativeArraySizeException": "RuntimeException",
    "NullPointerException": "RuntimeException",
    "IllegalArgumentException": "RuntimeException",
    "IllegalStateException": "RuntimeException",
    "UnsupportedOperationException": "RuntimeException",
    "ArrayIndexOutOfBoundsException": "IndexOutOfBoundsException",
}
TREE = {LANG + name: parent and LANG + parent for name, parent in PARENT.items()}

# the opcodes of the subset by the number of bytes that their instructions take, but for those of switches and `wide`
SIZES = {
    1: [*range(9), *range(26, 30), *range(42, 47), *range(59, 63), *range(75, 80), *range(87, 97), 100, 104, 108, 112]
    + [116, 120, 122, 124, 126, 128, 130, 145, 146, 147, 172, 176, 177, 190, 191],
    2: [16, 18, 21, 25, 54, 58, 188],
    3: [17, 19, 132, *range(153, 168), 178, 179, 183, 184, 187, 198, 199],
    5: [200],
}
SIZE = {op: size for size, ops in SIZES.items() for op in ops}
TABLE, LOOKUP, WIDE, WIDENED = 170, 171, 196, (21, 25, 54, 58, 132)
SUBSET = {*SIZE, TABLE, LOOKUP, WIDE}

# the opcodes that were executed
EXECUTED = set()


class End(Exception):
    """The run has ended, with this text."""


class Raised(Exception):
    """A throwable of this class, with this number, is thrown."""


def word(number):
    """The int that differs from the number by a multiple of 2^32."""
    return (number + 2**31) % 2**32 - 2**31


def printed(name):
    """A name as `once` prints it: a name is its bytes, as letters of Latin-1."""
    return "".join(c if "!" <= c <= "~" and c != "\\" else f"\\x{ord(c):02x}" for c in name)


# CLASS FILES


class ClassFile:
    """What the machine needs of a class file."""

    def __init__(self, data):
        self.data, self.at = data, 8
        self.pool = self.read_pool()
        self.number(2)
        self.name = self.class_name(self.number(2))
        self.number(2)
        self.number(2 * self.number(2))
        self.fields, self.methods = {}, {}
        for _ in range(self.number(2)):
            self.read_field()
        for _ in range(self.number(2)):
            self.read_method()

    def number(self, size):
        self.at += size
        return int.from_bytes(self.data[self.at - size : self.at], "big")

    def read_pool(self):
        pool, count = {}, self.number(2)
        index = 1
        while index < count:
            tag = self.number(1)
            if tag == 1:
                size = self.number(2)
                pool[index] = self.data[self.at : self.at + size].decode("latin-1")
                self.at += size
            elif tag == 3:
                pool[index] = word(self.number(4))
            elif tag in (7, 8):
                pool[index] = self.number(2)
            else:
                pool[index] = (self.number(2), self.number(2))
                self.at += 4 if tag in (5, 6) else 0
            pool[index, "tag"] = tag
            index += 2 if tag in (5, 6) else 1
        return pool

    def class_name(self, index):
        return self.pool[self.pool[index]]

    def member(self, index):
        owner, both = self.pool[index]
        name, desc = self.pool[both]
        return self.class_name(owner), self.pool[name], self.pool[desc]

    def read_field(self):
        access, name, desc = self.number(2), self.pool[self.number(2)], self.pool[self.number(2)]
        first = 0
        for _ in range(self.number(2)):
            kind, size = self.pool[self.number(2)], self.number(4)
            if kind == "ConstantValue" and desc in "ZBCSI":
                first = self.pool[int.from_bytes(self.data[self.at : self.at + 2], "big")]
            self.at += size
        if access & 8:
            self.fields[name, desc] = (first, True) if len(desc) == 1 else None

    def read_method(self):
        access, name, desc = self.number(2), self.pool[self.number(2)], self.pool[self.number(2)]
        method = None
        for _ in range(self.number(2)):
            kind, size = self.pool[self.number(2)], self.number(4)
            end = self.at + size
            if kind == "Code":
                places, slots, size = self.number(2), self.number(2), self.number(4)
                code = self.data[self.at : self.at + size]
                self.at += size
                table = [tuple(self.number(2) for _ in range(4)) for _ in range(self.number(2))]
                if places <= 256 and len(parameters(desc)) <= slots <= 256 and self.in_subset(code, table):
                    method = Method(self, name, desc, code, table)
            self.at = end
        if not access & 8 or access & 0x520 or not known(desc):
            method = None
        self.methods[name, desc] = method

    def in_subset(self, code, table):
        """Whether all instructions, and all classes that are caught, are of the subset."""
        at = 0
        while at < len(code):
            op = code[at]
            if op not in SUBSET or not self.known_operand(op, code[at + 1 :]):
                return False
            if op in (TABLE, LOOKUP):
                at += 4 - at % 4
                low, high = (int.from_bytes(code[at + i : at + i + 4], "big", signed=True) for i in (4, 8))
                at += 12 + 4 * (high - low + 1) if op == TABLE else 8 + 8 * low
            elif op == WIDE:
                at += 6 if code[at + 1] == 132 else 4
            else:
                at += SIZE[op]
        return all(kind == 0 or self.class_name(kind) in TREE for *_, kind in table)

    def known_operand(self, op, behind):
        """Whether what stands behind an opcode is of the subset."""
        number = int.from_bytes(behind[:2], "big")
        if op in (18, 19):
            return self.pool[behind[0] if op == 18 else number, "tag"] in (3, 8)
        if op in (178, 179):
            return self.member(number)[2] in ("Z", "B", "C", "S", "I", "[I")
        if op == 183:
            owner, name, desc = self.member(number)
            return owner in TREE and name == "<init>" and desc in ("()V", "(Ljava/lang/String;)V")
        if op == 184:
            return self.pool[number, "tag"] == 10 and known(self.member(number)[2])
        if op == 187:
            return self.class_name(number) in TREE
        if op == 188:
            return behind[0] == 10
        return op != WIDE or behind[0] in WIDENED


def known(desc):
    """Whether each type of a method descriptor is one that the machine knows."""
    types = desc[1:].replace(")", "").replace("[I", "")
    return all(letter in "ZBCSIV" for letter in types)


def parameters(desc):
    """The types of a descriptor's parameters."""
    found, text = [], desc[1 : desc.index(")")]
    while text:
        size = 2 if text[0] == "[" else 1
        found.append(text[:size])
        text = text[size:]
    return found


class Method:
    def __init__(self, owner, name, desc, code, table):
        self.owner, self.name, self.desc, self.code = owner, name, desc, code
        self.handlers = [
            (start, end, target, owner.class_name(kind) if kind else LANG + "Throwable")
            for start, end, target, kind in table
        ]


# RUNS


class Frame:
    def __init__(self, method, arguments, initialises=False):
        self.method, self.locals, self.stack, self.pc = method, dict(enumerate(arguments)), [], 0
        self.initialises = initialises


def run(file, name, desc, words):
    """How the run of this method ends on these words, as `once` prints it."""
    try:
        Run(file, file.methods[name, desc], [(w, False) for w in words]).go()
    except End as end:
        return str(end)


COMPARES = [
    lambda a, b: a == b,
    lambda a, b: a != b,
    lambda a, b: a < b,
    lambda a, b: a >= b,
    lambda a, b: a > b,
    lambda a, b: a <= b,
]


def quotient(a, b):
    return word(abs(a) // abs(b) * (1 if (a < 0) == (b < 0) else -1))


BINARY = {
    96: lambda a, b: a + b,
    100: lambda a, b: a - b,
    104: lambda a, b: a * b,
    108: quotient,
    112: lambda a, b: a - b * quotient(a, b),
    120: lambda a, b: a << (b & 31),
    122: lambda a, b: a >> (b & 31),
    124: lambda a, b: a % 2**32 >> (b & 31),
    126: lambda a, b: a & b,
    128: lambda a, b: a | b,
    130: lambda a, b: a ^ b,
}

UNARY = {
    116: lambda a: -a,
    145: lambda a: (a + 128) % 256 - 128,
    146: lambda a: a % 65536,
    147: lambda a: (a + 32768) % 65536 - 32768,
}

# what the stack instructions put back of the values that they take, the top first
SHUFFLES = {
    87: (1, []),
    88: (2, []),
    89: (1, [0, 0]),
    90: (2, [0, 1, 0]),
    91: (3, [0, 1, 2, 0]),
    92: (2, [0, 1, 0, 1]),
    93: (3, [0, 1, 2, 0, 1]),
    94: (4, [0, 1, 2, 3, 0, 1]),
    95: (2, [1, 0]),
}


class Run:
    def __init__(self, file, method, arguments):
        self.file, self.statics, self.arrays, self.throwables = file, {}, [], 0
        self.choices, self.executed = 0, 0
        self.frames = [Frame(method, arguments)]
        if ("<clinit>", "()V") in file.methods:
            self.enter(file.methods["<clinit>", "()V"], [], True, ".<clinit>")

    def go(self):
        while True:
            if self.executed == INSTRUCTIONS:
                raise End("runaway")
            self.executed += 1
            try:
                self.step()
            except Raised as raised:
                self.unwind(*raised.args)

    def enter(self, method, arguments, initialises, missing):
        if method is None:
            raise End("missing " + printed(self.file.name + missing))
        if len(self.frames) == FRAMES:
            raise End("deep")
        self.frames.append(Frame(method, arguments, initialises))

    def unwind(self, kind, number):
        while True:
            frame = self.frames[-1]
            for start, end, target, caught in frame.method.handlers:
                if start <= frame.pc < end and is_a(kind, caught):
                    frame.stack, frame.pc = [("X", number, kind)], target
                    return
            if frame.initialises:
                raise End("initfailed " + printed(self.file.name))
            self.frames.pop()
            if not self.frames:
                raise End("throws " + kind)

    def throw(self, kind):
        """The machine itself throws."""
        raise Raised(LANG + kind, self.make())

    def make(self):
        if len(self.arrays) + self.throwables == MADE:
            raise End("heapfull")
        self.throwables += 1
        return self.throwables - 1

    def test(self, *ints):
        """A test of these ints, which is a choice where a parameter entered one."""
        if all(plain for _, plain in ints):
            return
        if self.choices == CHOICES:
            raise End("cut")
        self.choices += 1
        self.executed = 0

    def step(self):
        frame = self.frames[-1]
        stack, pc, code = frame.stack, frame.pc, frame.method.code
        op, start, size = code[pc], pc + 1, 1
        EXECUTED.add(op)
        if op == WIDE:
            op, start, size = code[pc + 1], pc + 2, 2
            EXECUTED.add((WIDE, op))
        index = int.from_bytes(code[start : start + size], "big")
        after = start
        pool = self.file.pool

        def signed(at, n):
            return int.from_bytes(code[at : at + n], "big", signed=True)

        if op == 0:
            pass
        elif op == 1:
            stack.append(None)
        elif op <= 8:
            stack.append((op - 3, True))
        elif op == 16:
            stack.append((signed(pc + 1, 1), True))
            after = pc + 2
        elif op == 17:
            stack.append((signed(pc + 1, 2), True))
            after = pc + 3
        elif op in (18, 19):
            number = code[pc + 1] if op == 18 else signed(pc + 1, 2) % 65536
            stack.append((pool[number], True) if pool[number, "tag"] == 3 else ("T", pool[pool[number]]))
            after = pc + (2 if op == 18 else 3)
        elif op in (21, 25):
            stack.append(frame.locals[index])
            after = start + size
        elif 26 <= op <= 29 or 42 <= op <= 45:
            stack.append(frame.locals[(op - 26) % 16])
        elif op == 46:
            at, array = stack.pop(), stack.pop()
            stack.append(self.cells(array, at)[at[0]])
        elif op in (54, 58):
            frame.locals[index] = stack.pop()
            after = start + size
        elif 59 <= op <= 62 or 75 <= op <= 78:
            frame.locals[(op - 59) % 16] = stack.pop()
        elif op == 79:
            value, at, array = stack.pop(), stack.pop(), stack.pop()
            self.cells(array, at)[at[0]] = value
        elif op in SHUFFLES:
            count, places = SHUFFLES[op]
            taken = [stack.pop() for _ in range(count)]
            stack.extend(taken[place] for place in reversed(places))
        elif op in BINARY:
            b, a = stack.pop(), stack.pop()
            if op in (108, 112):
                self.test(b)
                if b[0] == 0:
                    self.throw("ArithmeticException")
            stack.append((word(BINARY[op](a[0], b[0])), a[1] and b[1]))
        elif op in UNARY:
            a = stack.pop()
            stack.append((word(UNARY[op](a[0])), a[1]))
        elif op == 132:
            by = signed(start + size, size)
            a = frame.locals[index]
            frame.locals[index] = (word(a[0] + by), a[1])
            after = start + 2 * size
        elif 153 <= op <= 158:
            a = stack.pop()
            self.test(a)
            after = pc + signed(pc + 1, 2) if COMPARES[op - 153](a[0], 0) else pc + 3
        elif 159 <= op <= 164:
            b, a = stack.pop(), stack.pop()
            self.test(a, b)
            after = pc + signed(pc + 1, 2) if COMPARES[op - 159](a[0], b[0]) else pc + 3
        elif op in (165, 166):
            b, a = stack.pop(), stack.pop()
            after = pc + signed(pc + 1, 2) if (a == b) == (op == 165) else pc + 3
        elif op in (198, 199):
            a = stack.pop()
            after = pc + signed(pc + 1, 2) if (a is None) == (op == 198) else pc + 3
        elif op == 167:
            after = pc + signed(pc + 1, 2)
        elif op == 200:
            after = pc + signed(pc + 1, 4)
        elif op in (170, 171):
            a = stack.pop()
            self.test(a)
            at = pc + 4 - pc % 4
            far = signed(at, 4)
            if op == 170:
                low, high = signed(at + 4, 4), signed(at + 8, 4)
                if low <= a[0] <= high:
                    far = signed(at + 12 + 4 * (a[0] - low), 4)
            else:
                for i in range(signed(at + 4, 4)):
                    if signed(at + 8 + 8 * i, 4) == a[0]:
                        far = signed(at + 12 + 8 * i, 4)
            after = pc + far
        elif op in (172, 176, 177):
            result = [] if op == 177 else [stack.pop()]
            self.frames.pop()
            if not self.frames:
                raise End("returns " + (str(result[0][0]) if result else "void"))
            if not frame.initialises:
                self.frames[-1].stack.extend(result)
                self.frames[-1].pc += 3
            return
        elif op in (178, 179, 184):
            self.access(op, frame, *self.file.member(signed(pc + 1, 2) % 65536))
            if op == 184:
                return
            after = pc + 3
        elif op == 187:
            stack.append(("X", self.make(), self.file.class_name(signed(pc + 1, 2) % 65536)))
            after = pc + 3
        elif op == 183:
            desc = self.file.member(signed(pc + 1, 2) % 65536)[2]
            del stack[-1 - len(desc.split(";")[:-1]) :]
            after = pc + 3
        elif op == 191:
            thrown = stack.pop()
            if thrown is None:
                self.throw("NullPointerException")
            raise Raised(thrown[2], thrown[1])
        elif op == 188:
            length, plain = stack.pop()
            if not plain:
                raise End("symlength")
            if length < 0:
                self.throw("NegativeArraySizeException")
            if length > LENGTH or sum(map(len, self.arrays)) + length > CELLS:
                raise End("heapfull")
            if len(self.arrays) + self.throwables == MADE:
                raise End("heapfull")
            stack.append(("A", len(self.arrays)))
            self.arrays.append([(0, True)] * length)
            after = pc + 2
        elif op == 190:
            array = stack.pop()
            if array is None:
                self.throw("NullPointerException")
            stack.append((len(self.arrays[array[1]]), True))
        else:
            raise ValueError(f"opcode {op} at {pc} of {frame.method.name}")
        frame.pc = after

    def cells(self, array, at):
        if array is None:
            self.throw("NullPointerException")
        self.test(at)
        cells = self.arrays[array[1]]
        if not 0 <= at[0] < len(cells):
            self.throw("ArrayIndexOutOfBoundsException")
        return cells

    def access(self, op, frame, owner, name, desc):
        """A member: its class is the only one, and it is started."""
        if owner != self.file.name:
            raise End("missing " + printed(owner))
        if op == 184:
            method = self.file.methods.get((name, desc))
            if method is None:
                raise End("missing " + printed(f"{owner}.{name}{desc}"))
            count = len(parameters(desc))
            arguments = frame.stack[len(frame.stack) - count :]
            del frame.stack[len(frame.stack) - count :]
            self.enter(method, arguments, False, "")
        else:
            if (name, desc) not in self.file.fields:
                raise End("missing " + printed(f"{owner}.{name}"))
            if op == 178:
                frame.stack.append(self.statics.get((name, desc), self.file.fields[name, desc]))
            else:
                self.statics[name, desc] = frame.stack.pop()


def is_a(kind, other):
    while kind is not None and kind != other:
        kind = TREE[kind]
    return kind == other
