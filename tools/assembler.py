"""An assembler of class files (JVMS SE 8, chapter 4) whose methods are written as texts.

A code is instructions, each on a line, or with a semicolon and a space between. An instruction is its name and its
operands (section 6.5) with spaces between:

    bipush -5, iload 3, iinc 3 -1                  numbers
    newarray int                                   a type
    ldc 70000, ldc_w 'text'                        an int, or a text without spaces
    ifeq there                                     a label; `there:` stands before the instruction there, or last
    tableswitch -1 a b c                           the low key, the label of each key, the default
    lookupswitch -9=a 70=b c                       each key with its label, the default
    getstatic T.f I, invokestatic .g (I)I          a class, which may be left out where it is the class itself, a
                                                   name, and a descriptor
    new java/lang/Error                            a class
    wide iinc 300 1000                             the wide form
"""

import collections
import dataclasses
import re
import struct

PUBLIC, STATIC, SUPER, SYNCHRONIZED, NATIVE = 0x1, 0x8, 0x20, 0x20, 0x100

# The form of the operands, the first opcode, and the names of the opcodes from there on.
SUBSET = """\
none 0 nop aconst_null iconst_m1 iconst_0 iconst_1 iconst_2 iconst_3 iconst_4 iconst_5
byte 16 bipush
short 17 sipush
constant 18 ldc
long_constant 19 ldc_w
local 21 iload
local 25 aload
none 26 iload_0 iload_1 iload_2 iload_3
none 42 aload_0 aload_1 aload_2 aload_3 iaload
local 54 istore
local 58 astore
none 59 istore_0 istore_1 istore_2 istore_3
none 75 astore_0 astore_1 astore_2 astore_3 iastore
none 87 pop pop2 dup dup_x1 dup_x2 dup2 dup2_x1 dup2_x2 swap iadd
none 100 isub
none 104 imul
none 108 idiv
none 112 irem
none 116 ineg
none 120 ishl
none 122 ishr
none 124 iushr
none 126 iand
none 128 ior
none 130 ixor
increment 132 iinc
none 145 i2b i2c i2s
branch 153 ifeq ifne iflt ifge ifgt ifle if_icmpeq if_icmpne if_icmplt if_icmpge if_icmpgt if_icmple
branch 165 if_acmpeq if_acmpne goto
table 170 tableswitch
lookup 171 lookupswitch
none 172 ireturn
none 176 areturn return
field 178 getstatic putstatic
method 183 invokespecial invokestatic
class 187 new
type 188 newarray
none 190 arraylength athrow
wide 196 wide
branch 198 ifnull ifnonnull
long_branch 200 goto_w
"""
FOREIGN = """\
none 9 lconst_0 lconst_1 fconst_0 fconst_1 fconst_2 dconst_0 dconst_1
none 47 laload faload daload aaload baload caload saload
none 84 bastore castore sastore
none 97 ladd fadd dadd
none 133 i2l i2f i2d l2i l2f l2d f2i
none 148 lcmp fcmpl
branch 168 jsr
local 169 ret
field 180 getfield putfield
method 182 invokevirtual
class 189 anewarray
class 192 checkcast instanceof
none 194 monitorenter monitorexit
"""


def opcodes(text):
    """The opcode and the form of each name."""
    found = {}
    for line in text.splitlines():
        form, first, *names = line.split()
        found.update((name, (int(first) + i, form)) for i, name in enumerate(names))
    return found


OPCODES = opcodes(SUBSET + FOREIGN)
TYPES = {"boolean": 4, "char": 5, "float": 6, "double": 7, "byte": 8, "short": 9, "int": 10, "long": 11}


def u2(number):
    return struct.pack(">H", number)


def u4(number):
    return struct.pack(">I", number)


class Pool:
    """A constant pool (section 4.4), each entry once, in the order in which they are asked for."""

    def __init__(self):
        self.numbers, self.count = {}, 1

    def number(self, tag, content, takes=1):
        entry = bytes([tag]) + content
        if entry not in self.numbers:
            self.numbers[entry] = self.count
            self.count += takes
        return self.numbers[entry]

    def utf8(self, text):
        data = text.encode()
        return self.number(1, u2(len(data)) + data)

    def constant(self, text):
        """An int, or a text in quotes, or a float with a point."""
        if text[0] == "'":
            return self.number(8, u2(self.utf8(text[1:-1])))
        if "." in text:
            return self.number(4, struct.pack(">f", float(text)))
        return self.number(3, struct.pack(">i", int(text)))

    def long(self, value):
        return self.number(5, struct.pack(">q", value), 2)

    def class_(self, name):
        return self.number(7, u2(self.utf8(name)))

    def member(self, tag, owner, name, desc):
        both = self.number(12, u2(self.utf8(name)) + u2(self.utf8(desc)))
        return self.number(tag, u2(self.class_(owner)) + u2(both))

    def data(self):
        return u2(self.count) + b"".join(self.numbers)


@dataclasses.dataclass
class Method:
    """A method. A row of its exception table is `START END HANDLER CLASS`, the first three labels; without a class it
    catches all. The fill is what stands in the gap of a switch."""

    name: str
    desc: str
    code: str | None
    table: tuple = ()
    stack: int = 8
    locals: int = 10
    flags: int = PUBLIC | STATIC
    fill: int = 0


@dataclasses.dataclass
class Field:
    """A field, with the int of its ConstantValue, if it has one."""

    name: str
    desc: str
    constant: int | None = None
    flags: int = PUBLIC | STATIC


class Code:
    """The code of a method."""

    def __init__(self, pool, owner, method):
        self.pool, self.owner, self.fill = pool, owner, method.fill
        self.lines = re.split(r";?\s*\n\s*|;\s+", method.code.strip())
        self.labels = collections.defaultdict(int)
        # the labels have their places after the first time
        self.assemble()
        self.labels = dict(self.labels)
        self.data = self.assemble()

    def assemble(self):
        data = b""
        for line in self.lines:
            *labels, line = re.split(r":(?:\s+|$)", line)
            self.labels.update((label, len(data)) for label in labels)
            if line:
                data += self.instruction(len(data), *line.split())
        return data

    def instruction(self, at, name, *words):
        op, form = OPCODES[name]
        if form == "wide":
            op, form = OPCODES[words[0]]
            sizes = ">H" if form == "local" else ">Hh"
            return bytes([OPCODES[name][0], op]) + struct.pack(sizes, *map(int, words[1:]))
        return bytes([op]) + self.operands(at, form, words)

    def operands(self, at, form, words):
        pool = self.pool
        if form == "none":
            return b""
        if form in ("byte", "short", "local"):
            return struct.pack({"byte": ">b", "short": ">h", "local": ">B"}[form], int(words[0]))
        if form == "type":
            return bytes([TYPES[words[0]]])
        if form == "increment":
            return struct.pack(">Bb", *map(int, words))
        if form in ("constant", "long_constant"):
            return struct.pack(">B" if form == "constant" else ">H", pool.constant(words[0]))
        if form in ("branch", "long_branch"):
            return struct.pack(">h" if form == "branch" else ">i", self.labels[words[0]] - at)
        if form == "class":
            return u2(pool.class_(words[0]))
        if form in ("field", "method"):
            owner, name = words[0].rsplit(".", 1)
            return u2(pool.member(9 if form == "field" else 10, owner or self.owner, name, words[1]))
        gap = bytes([self.fill] * (3 - at % 4))
        *cases, default = words
        far = self.labels[default] - at
        if form == "table":
            low, *cases = cases
            data = struct.pack(">3i", far, int(low), int(low) + len(cases) - 1)
            return gap + data + b"".join(struct.pack(">i", self.labels[case] - at) for case in cases)
        cases = [case.split("=") for case in cases]
        data = b"".join(struct.pack(">2i", int(key), self.labels[case] - at) for key, case in cases)
        return gap + struct.pack(">2i", far, len(cases)) + data

    def row(self, text):
        """A row of the exception table (section 4.7.3)."""
        *labels, caught = text.split() if len(text.split()) == 4 else [*text.split(), None]
        return b"".join(u2(self.labels[label]) for label in labels) + u2(self.pool.class_(caught) if caught else 0)


def attribute(pool, name, content):
    return u2(pool.utf8(name)) + u4(len(content)) + content


def member_data(pool, member, attributes):
    head = u2(member.flags) + u2(pool.utf8(member.name)) + u2(pool.utf8(member.desc))
    return head + u2(len(attributes)) + b"".join(attributes)


def field_data(pool, field):
    attributes = []
    if field.constant is not None:
        attributes.append(attribute(pool, "ConstantValue", u2(pool.constant(str(field.constant)))))
    return member_data(pool, field, attributes)


def method_data(pool, owner, method):
    attributes = []
    if method.code is not None:
        code = Code(pool, owner, method)
        content = u2(method.stack) + u2(method.locals) + u4(len(code.data)) + code.data
        content += u2(len(method.table)) + b"".join(map(code.row, method.table)) + u2(0)
        attributes.append(attribute(pool, "Code", content))
    return member_data(pool, method, attributes)


def class_file(name, fields, methods, longs=0):
    """The bytes of a class of major version 49. In the pool stand the constants of each `ldc`, which has one byte for
    their number; then so many longs; and then what is needed, in the order of the file."""
    pool = Pool()
    for method in methods:
        for constant in re.findall(r"\bldc (\S+?)(?:;|\s|$)", method.code or ""):
            pool.constant(constant)
    for value in range(longs):
        pool.long(value)
    names = u2(pool.class_(name)) + u2(pool.class_("java/lang/Object"))
    body = u2(len(fields)) + b"".join(field_data(pool, field) for field in fields)
    body += u2(len(methods)) + b"".join(method_data(pool, name, method) for method in methods)
    head = u4(0xCAFEBABE) + u2(0) + u2(49) + pool.data() + u2(PUBLIC | SUPER)
    return head + names + u2(0) + body + u2(0)
