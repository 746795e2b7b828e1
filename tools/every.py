"""Classes with a method for each opcode of the subset, and the inputs of their methods.

`javac` writes few of the opcodes, and in few ways; these are written for tools/assembler.py. A method is named after
what it shows, and returns an int that tells what was done. What `once` is to answer is asked by tools/jvm_answers.py.
"""

from assembler import PUBLIC, Field
from pieces import EDGES, KINDS, LANG, MAX, MIN, Table, either, fold, made, selected, truth


# CONSTANTS, LOADS AND STORES


def loads():
    t = Table("EveryLoad", longs=130)
    t.add("nop", "(I)I", [0, -1, MIN], "nop; iload_0; nop; nop; ireturn")
    null = "aconst_null; astore_1; iload_0; ifeq here; iconst_2; newarray int; astore_1; here: aload_1"
    t.add("aconst_null", "(Z)I", [0, 1], null, truth("ifnull"))
    for name in "iconst_m1 iconst_0 iconst_1 iconst_2 iconst_3 iconst_4 iconst_5".split():
        t.add(name, "(I)I", [0, MAX, MIN], f"{name}; iload_0; iadd; ireturn")
    for name, words in ("bipush", (-128, -1, 127)), ("sipush", (-32768, -1, 128, 32767)):
        for i, word in enumerate(words):
            t.add(f"{name}_{i}", "(I)I", [0, MIN], f"{name} {word}; iload_0; iadd; ireturn")
    # the longs of the pool stand behind what `ldc` names, and before what `ldc_w` alone names: that is above 255
    for name, words in ("ldc", (70000, MIN, MAX)), ("ldc_w", (70000, 1234567, -7654321)):
        for i, word in enumerate(words):
            t.add(f"{name}_{i}", "(I)I", [0, -1], f"{name} {word}; iload_0; ixor; ireturn")
    for name in "ldc", "ldc_w":
        texts = f"iload_0; ifeq other; {name} 'one'; goto both; other: {name} 'two'; both: aload_1"
        t.add(f"{name}_text", "(Z)I", [0, 1], "ldc 'one'; astore_1", texts, truth("if_acmpeq"))
    far = "ldc_w 'far'; iload_0; ifeq other; ldc_w 'far'; goto both; other: ldc_w ''; both:"
    t.add("ldc_w_far", "(Z)I", [0, 1], far, truth("if_acmpne"))

    four = [(1, 2, 3, 4), (-1, MIN, MAX, 0)]
    eight = [(1, 2, 3, 4, 5, 6, 7, 8), (0, -1, MIN, MAX, 9, -9, 70000, -70000)]
    for i in range(4):
        t.add(f"iload_{i}", "(IIII)I", four, f"iload_{i}; ireturn")
    t.add("iload", "(IIIIIIII)I", eight, "iload 7; iload 4", fold(2), "ireturn")
    t.add("wide_iload_0", "(II)I", [(5, 7), (MIN, 1)], "wide iload 0; wide iload 1; isub; ireturn")
    for wide in "", "wide ":
        name = wide.replace(" ", "_")
        last = f"iload_0; {wide}istore 255; iconst_0; istore_0; {wide}iload 255; iload_0; iload 255"
        t.add(f"{name}iload_255", "(I)I", [5, MIN], last, fold(3), "ireturn", locals=256)
        last = f"iconst_3; newarray int; dup; iconst_1; iload_0; iastore; {wide}astore 255; {wide}aload 255"
        t.add(f"{name}aload_255", "(I)I", [0, MIN], last, "iconst_1; iaload; ireturn", locals=256)

    # arrays of 10 to 13 cells in the first locals, and the parameter in local 4
    arrays = "\n".join(["iload_0; istore 4", *[f"bipush 1{i}; newarray int; astore {i}" for i in range(4)]])
    lengths = "\n".join([*[f"aload {i}; arraylength" for i in range(4)], "iload 4", fold(5), "ireturn"])
    for i in range(4):
        t.add(f"aload_{i}", "(I)I", [0, MAX], arrays, f"aload_{i}; arraylength; iload 4; iadd; ireturn")
        t.add(f"astore_{i}", "(I)I", [0, -1], arrays, f"bipush 77; newarray int; astore_{i}", lengths)
    t.add("aload", "(I)I", [0, MIN], arrays, "aload 2; arraylength; iload 4; isub; ireturn")
    t.add("astore", "(I)I", [0, -1], arrays, "aload_3; astore 1", lengths)
    t.add("wide_astore", "(I)I", [0, -1], arrays, "aload_3; wide astore 0", lengths)
    all_four = f"iload_0; iload_1; iload_2; iload_3; {fold(4)}; ireturn"
    for i in range(4):
        t.add(f"istore_{i}", "(IIII)I", four, f"bipush 77; istore_{i}", all_four)
    t.add("istore", "(IIII)I", four, "iload_3; istore 1", all_four)
    t.add("wide_istore", "(IIII)I", four, "iload_3; wide istore 2", all_four)
    stores = "iload_0; istore_1; aconst_null; astore_1; ldc 'text'; astore_0; iconst_5; istore_1; iload_1; ireturn"
    t.add("stored_anew", "(I)I", [3], stores)

    for i, by in enumerate(("iinc 1 127", "iinc 1 -128", "iinc 1 0", "wide iinc 1 32767", "wide iinc 1 -32768")):
        name = f"{by.split(' 1 ')[0]}_{i}".replace(" ", "_")
        t.add(name, "(II)I", [(1, 0), (0, MAX), (-1, MIN)], f"{by}; iload_0; iload_1", fold(2), "ireturn")
    last = "iload_0; istore 255; iinc 255 1; wide iinc 255 1; iload 255; ireturn"
    t.add("iinc_255", "(I)I", [0, MAX - 1], last, locals=256)
    return t


# INTS


PAIRS = [(0, 0), (7, 3), (-7, 3), (7, -3), (-7, -3), (3, 7), (MAX, 1), (MIN, -1), (MIN, MIN), (MAX, MAX), (MIN, MAX)]
PAIRS += [(65535, 65537), (0x12345678, 0x0F0F0F0F)]
DIVISIONS = PAIRS + [(MIN, 0), (5, MIN)]
SHIFTS = [(word, by) for word in (-123456789, MAX) for by in (0, 1, 31, 32, 33, -1, -32, MIN)]
NARROWED = [0, 127, 128, 255, 256, -128, -129, 32767, 32768, 65535, 65536, -32769, MIN, MAX]
BINARY = dict.fromkeys("iadd isub imul iand ior ixor".split(), PAIRS)
BINARY |= dict.fromkeys("idiv irem".split(), DIVISIONS) | dict.fromkeys("ishl ishr iushr".split(), SHIFTS)
UNARY = {"ineg": [0, 1, -1, 5, MIN, MAX], "i2b": NARROWED, "i2c": NARROWED, "i2s": NARROWED}


def ints():
    t = Table("EveryInt")
    for name, runs in BINARY.items():
        t.add(name, "(II)I", runs, f"iload_0; iload_1; {name}; ireturn")
    for name, runs in UNARY.items():
        t.add(name, "(I)I", runs, f"iload_0; {name}; ireturn")
    # the same of words that no parameter entered
    for name in BINARY:
        t.add(f"known_{name}", "()I", [()], f"ldc -123456789; bipush 33; {name}; ireturn")
    for name in UNARY:
        t.add(f"known_{name}", "()I", [()], f"ldc -123456789; {name}; ireturn")
    for name in "idiv", "irem":
        t.add(f"known_{name}_least", "()I", [()], f"ldc {MIN}; iconst_m1; {name}; ireturn")
        t.add(f"known_{name}_0", "()I", [()], f"iconst_5; iconst_0; {name}; ireturn")
        t.add(f"{name}_by_known", "(I)I", [0, 1], f"iload_0; iconst_0; {name}; ireturn")
    return t


# THE OPERAND STACK


def stack():
    t = Table("EveryStack")
    four = [(1, 2, 3, 4), (0, -1, MIN, MAX), (50, 60, 70, 80)]
    left = dict(pop=3, pop2=2, dup=5, dup_x1=5, dup_x2=5, dup2=6, dup2_x1=6, dup2_x2=6, swap=4)
    for name, count in left.items():
        t.add(name, "(IIII)I", four, "iload_0; iload_1; iload_2; iload_3", name, fold(count), "ireturn")
    # as few values and places as can be
    t.add("pop_last", "(I)V", [0, MIN], "iload_0; pop; return", stack=1)
    t.add("pop2_last", "(I)V", [0, MIN], "iload_0; iload_0; pop2; return", stack=2)
    t.add("dup_alone", "(I)I", [5, MIN], "iload_0; dup; iadd; ireturn", stack=2)
    last = "iload_0; iload_1; iload_2; iload_3; dup2_x2; pop2; imul; isub; iadd; ireturn"
    t.add("dup2_x2_alone", "(IIII)I", four, last, stack=6)
    full = ["iload_0", *["iconst_2"] * 255, *["iadd"] * 255, "ireturn"]
    t.add("full", "(I)I", [0, MAX], *full, stack=256)

    # an array among ints, with 10, 20 and 0 in its cells
    begin = "iconst_3; newarray int; dup; iconst_0; bipush 10; iastore; dup; iconst_1; bipush 20; iastore; astore_1"
    cells = ["\n".join(f"aload_1; iconst_{i}; iaload" for i in range(3)), fold(3), "ireturn"]
    mixed = {
        "pop_array": ["aload_1; iload_0; aload_1; pop; ireturn"],
        "pop2_mixed": ["iload_0; iconst_1; aload_1; pop2; ireturn"],
        "dup_array": ["aload_1; dup; iconst_2; iload_0; iastore; pop", *cells],
        "dup_x1_array": ["iconst_2; aload_1; dup_x1; swap; iload_0; iastore; iconst_2; iaload; ireturn"],
        "dup_x2_array": ["aload_1; iconst_0; iload_0; dup_x2; iastore; aload_1; iconst_0; iaload; isub; ireturn"],
        "dup2_array": ["aload_1; iconst_1; dup2; iaload; iload_0; iadd; iastore", *cells],
        "dup2_x1_array": [
            "iload_0; aload_1; iconst_1; dup2_x1; iaload; iadd; istore_0",
            "iaload; iload_0; isub; ireturn",
        ],
        "dup2_x2_array": ["aload_1; iconst_2; iload_0; iconst_4; dup2_x2; imul; iastore; iadd; istore_0", *cells],
        "swap_array": ["aload_1; iload_0; swap; arraylength; isub; ireturn"],
        "swap_null": ["aconst_null; iload_0; swap; ifnull yes; iconst_0; ireturn; yes: ireturn"],
    }
    for name, code in mixed.items():
        t.add(name, "(I)I", [0, 9, MIN], begin, *code)

    # throwables that aren't initialised yet: once one is, each copy of it is
    error, exception = f"new {LANG}Error", f"new {LANG}Exception"
    start, start_other = f"invokespecial {LANG}Error.<init> ()V", f"invokespecial {LANG}Exception.<init> ()V"
    t.add("copies", "()I", [()], error, "dup; dup", start, truth("if_acmpeq"))
    swapped = "iload_0; ifeq here; swap; here: athrow"
    t.add("copies_of_two", "(Z)I", [0, 1], error, exception, "dup2", start_other, start, swapped)
    t.add("copy_in_local", "(I)I", [0], error, "dup; astore_1", start, "aload_1; athrow")
    t.add("copy_below", "(I)I", [0], "iload_0", error, "dup_x1; swap; pop", start, "athrow")
    t.add("never_initialised", "(I)I", [7], error, exception, "pop2; iload_0; ireturn")
    return t


# BRANCHES


ZERO = "ifeq ifne iflt ifge ifgt ifle".split()
TWO = "if_icmpeq if_icmpne if_icmplt if_icmpge if_icmpgt if_icmple".split()
# arrays in locals 1 and 2, throwables in 3 and 4, and the parameter on the stack
OBJECTS = f"""iconst_1; newarray int; astore_1; iconst_1; newarray int; astore_2
    {made("Error")}; astore_3; {made("Error")}; astore 4; iload_0"""
REFERENCES = """aconst_null; aconst_null
    aconst_null; aload_1
    aload_1; aload_1
    aload_1; aload_2
    ldc 'one'; ldc_w 'one'
    ldc 'one'; ldc 'two'
    aload_3; aload_3
    aload_3; aload 4
    aload_1; aload_3
    ldc 'one'; aload_1
    aload_3; ldc 'one'
    aload 4; aconst_null"""


def branches():
    t = Table("EveryBranch")
    pairs = [(0, 0), (1, 0), (0, 1), (-1, 1), (MIN, MAX), (MAX, MIN), (MIN, MIN), (-1, MAX)]
    for name in ZERO:
        t.add(name, "(I)I", [0, 1, -1, MIN, MAX], "iload_0", truth(name))
    for name in TWO:
        t.add(name, "(II)I", pairs, "iload_0; iload_1", truth(name))
    # of words that no parameter entered: each adds a bit
    ones = [f"bipush {word}; {name}" for name in ZERO for word in (-1, 0, 1)]
    words = "iconst_m1; iconst_1", "iconst_1; iconst_1", "iconst_1; iconst_m1", f"ldc {MIN}; ldc {MAX}"
    twos = [f"{both}; {name}" for name in TWO for both in words]
    for name, tests in ("known_zero", ones), ("known_two", twos):
        bits = [f"iload_0; iconst_1; ishl; istore_0; {test} no{i}; iinc 0 1; no{i}:" for i, test in enumerate(tests)]
        t.add(name, "(I)I", [0, -1], *bits, "iload_0; ireturn")
    for name in "ifne", "ifgt":
        loop = f"back: iinc 1 1; iload_0; iconst_1; iushr; dup; istore_0; {name} back; iload_1; ireturn"
        t.add(f"{name}_back", "(I)I", [0, 1, 5, -1], "iconst_0; istore_1", loop)
    loop = "back: iinc 0 3; iload_0; iload_1; if_icmplt back; iload_0; ireturn"
    t.add("if_icmplt_back", "(BB)I", [(1, 20), (20, 1), (-128, 127)], loop)
    code = "iload_0; ifeq next; next: iload_0; iload_0; if_icmpne last; last: iload_0; ireturn"
    t.add("to_next", "(I)I", [0, 5], code)
    t.add("not_reached", "(I)I", [5], "iload_0; ireturn; aload_0; iadd; nop")

    cases = [pair.strip() for pair in REFERENCES.splitlines()]
    for name in "if_acmpeq", "if_acmpne":
        code = selected([f"{pair}; {name} yes" for pair in cases])
        t.add(name, "(B)I", range(len(cases)), OBJECTS, code, "iconst_0; ireturn; yes: iconst_1; ireturn")
    cases = "aconst_null", "aload_1", "aload_3", "ldc 'one'"
    for name in "ifnull", "ifnonnull":
        code = selected([f"{one}; {name} yes" for one in cases])
        t.add(name, "(B)I", range(len(cases)), OBJECTS, code, "iconst_0; ireturn; yes: iconst_1; ireturn")
    code = selected([f"{one}; goto both" for one in cases])
    t.add("ifnull_of_all_kinds", "(B)I", range(5), OBJECTS, code, "aload_2; both:", truth("ifnull"))

    for name in "goto", "goto_w":
        code = f"{name} there; iinc 0 1; there: iinc 0 2; {name} behind; iinc 0 4; behind: iload_0; ireturn"
        t.add(name, "(I)I", [0, MAX], code)
        t.add(f"{name}_back", "(I)I", [0, MIN], f"{name} first; last: iload_0; ireturn; first: iinc 0 5; {name} last")
        t.add(f"{name}_next", "(I)I", [0], f"{name} next; next: iload_0; ireturn")
        loop = f"iload_1; iload_0; iadd; istore_1; iinc 0 -1; {name} loop; over: iload_1; ireturn"
        t.add(f"{name}_loop", "(B)I", [0, 4, 100], "iconst_0; istore_1; loop: iload_0; ifle over", loop)
    return t


# SWITCHES


def switches():
    t = Table("EverySwitch")
    results = "a: bipush 10; ireturn; b: bipush 20; ireturn; c: bipush 30; ireturn; other: bipush 40; ireturn"

    def add(name, desc, runs, *code):
        t.add(name, desc, runs, *code, results)

    for gap in range(4):
        nops = ["nop"] * gap
        add(f"tableswitch_{gap}", "(I)I", [-2, -1, 0, 1, 2, MIN, MAX], *nops, "iload_0; tableswitch -1 a b c other")
        runs = [-9, 0, 70000, -1, 1, 69999, MIN, MAX]
        add(f"lookupswitch_{gap}", "(I)I", runs, *nops, "iload_0; lookupswitch -9=a 0=b 70000=c other")
    add("tableswitch_one", "(I)I", [4, 5, 6], "iload_0; tableswitch 5 c other")
    add("tableswitch_least", "(I)I", [MIN, MIN + 1, MIN + 2, MAX], f"iload_0; tableswitch {MIN} a b other")
    add("tableswitch_most", "(I)I", [MIN, MAX - 2, MAX - 1, MAX], f"iload_0; tableswitch {MAX - 1} a b other")
    add("tableswitch_shared", "(I)I", range(-1, 7), "iload_0; tableswitch 0 a b a other b b other")
    add("tableswitch_boolean", "(Z)I", [0, 1], "iload_0; tableswitch 0 a b other")
    add("tableswitch_char", "(C)I", [0, 65533, 65534, 65535], "iload_0; tableswitch 65534 a b other")
    add("tableswitch_all_other", "(I)I", [0, 1, 2, 3], "iload_0; tableswitch 1 other other other")
    add("lookupswitch_none", "(I)I", [0, MIN], "iload_0; lookupswitch other")
    add("lookupswitch_one", "(I)I", [6, 7, 8], "iload_0; lookupswitch 7=a other")
    code = f"iload_0; lookupswitch {MIN}=a -1=b {MAX}=c other"
    add("lookupswitch_edges", "(I)I", [MIN, -1, MAX, 0, MIN + 1, MAX - 1], code)
    add("lookupswitch_shared", "(I)I", [1, 10, 100, 1000, 5], "iload_0; lookupswitch 1=a 10=b 100=a 1000=other other")
    # of words that no parameter entered
    for word in -2, -1, 1, 2:
        add(f"known_table_{word + 2}", "()I", [()], f"bipush {word}; tableswitch -1 a b c other")
        add(f"known_lookup_{word + 2}", "()I", [()], f"bipush {word}; lookupswitch -2=a 1=b 3=c other")
    code = "iload_0; iload_1; imul; iconst_3; irem; tableswitch -2 a b other c c"
    add("of_computed", "(BB)I", [(5, 4), (-5, 4), (1, 1), (-1, 1), (3, 7)], code)

    t.add("tableswitch_back", "(I)I", [-1, 0, 1, 2, 3], """
        goto start; twice: iinc 0 100; start: iload_0; tableswitch 0 twice add twice over
        add: iinc 0 -1; goto start; over: iload_0; ireturn""")
    t.add("lookupswitch_back", "(I)I", [10, 15, 20, 25, 30], """
        goto start; less: iinc 0 -5; start: iload_0; lookupswitch 10=less 15=less 20=over 25=less over
        over: iload_0; ireturn""")
    t.add("stack_below", "(I)I", [0, 1, 2, 3], """
        bipush 50; iload_0; tableswitch 1 add take neither
        add: iload_0; iadd; ireturn; take: iload_0; isub; ireturn; neither: ireturn""")
    return t


# ARRAYS


def arrays():
    t = Table("EveryArray")
    at = [-1, 0, 1, 2, 3, MIN, MAX]
    # an array with 7, 17 and 27 in local 2
    words = [f"aload_2; iconst_{i}; bipush {7 + 10 * i}; iastore" for i in range(3)]
    three = ["iconst_3; newarray int; astore_2", *words]
    cells = [*[f"aload_2; iconst_{i}; iaload" for i in range(3)], fold(3), "ireturn"]
    for length in 0, 1, 255, 256:
        code = f"sipush {length}; newarray int; arraylength; iload_0; iadd; ireturn"
        t.add(f"newarray_{length}", "(I)I", [0, MAX], code)
    for i, length in enumerate((-1, -256, MIN)):
        t.add(f"newarray_negative_{i}", "()I", [()], f"ldc {length}; newarray int; arraylength; ireturn")
    t.add("newarray_chosen", "(B)I", [0, 1, 2, 3], """
        iload_0; tableswitch 0 none some less less
        none: iconst_0; goto make; some: bipush 9; goto make; less: iconst_m1
        make: newarray int; arraylength; ireturn""")
    t.add("cells_are_0", "(I)I", [-1, 0, 8, 9], "bipush 9; newarray int; iload_0; iaload; ireturn")
    t.add("iaload", "(I)I", at, *three, "aload_2; iload_0; iaload; ireturn")
    t.add("iastore", "(II)I", [(i, 5) for i in at] + [(1, MIN)], *three, "aload_2; iload_0; iload_1; iastore", *cells)
    indexes = "iconst_m1", "iconst_0", "iconst_1", "iconst_2", "iconst_3"
    code = selected([f"aload_2; {i}; iaload; ireturn" for i in indexes], -1)
    t.add("iaload_known", "(B)I", range(-1, 5), *three, "iload_0", code, "iconst_0; ireturn")
    code = selected([f"aload_2; {i}; iload_0; iastore" for i in indexes], -1)
    t.add("iastore_known", "(B)I", range(-1, 5), *three, "iload_0", code, *cells)
    t.add("iaload_none", "(I)I", [0, -1, 1], "iconst_0; newarray int; iload_0; iaload; ireturn")
    t.add("iastore_none", "(I)V", [0, -1, 1], "iconst_0; newarray int; iload_0; iload_0; iastore; return")
    full = "sipush 256; newarray int; dup; sipush 255; iconst_4; iastore; iload_0; iaload; ireturn"
    t.add("iaload_last", "(I)I", [254, 255, 256, -256], full)
    t.add("iaload_byte", "(B)I", [-128, 0, 2, 127], *three, "aload_2; iload_0; iaload; ireturn")
    sums = [(-5, 5), (1, 1), (2, 1), (-1, 0)]
    t.add("iaload_computed", "(BB)I", sums, *three, "aload_2; iload_0; iload_1; iadd; iaload; ireturn")
    code = "iconst_3; newarray int; astore_1; aload_1; iload_0; iconst_2; iastore"
    t.add("iaload_twice", "(I)I", at[:5], code, "aload_1; aload_1; iload_0; iaload; iaload; ireturn")
    codes = {"iaload": "iload_0; iaload", "iastore": "iload_0; iload_0; iastore; iconst_0"}
    codes["arraylength"] = "arraylength"
    for name, code in codes.items():
        t.add(f"{name}_null", "(I)I", [0, -1], f"aconst_null; {code}; ireturn")
        perhaps = "iload_0; ifne there; aconst_null; astore_2; there: aload_2"
        t.add(f"{name}_perhaps_null", "(I)I", [0, 1, 5], *three, perhaps, code, "ireturn")
    t.add("arraylength", "(I)I", [0, MAX], *three, "aload_2; arraylength; iload_0; iadd; ireturn")
    code = "aload_2; astore_3; aload_3; iload_0; iload_1; iastore"
    t.add("one_array_twice", "(II)I", [(0, 1), (2, -1), (3, 0)], *three, code, *cells)
    code = "iconst_3; newarray int; astore_3; aload_3; iload_0; iload_1; iastore"
    difference = "aload_2; iload_0; iaload; aload_3; iload_0; iaload; isub; ireturn"
    t.add("two_arrays", "(II)I", [(0, 1), (2, -1), (-1, 0)], *three, code, difference)
    t.add("sum", "(IIII)I", [(1, 2, 3, 4), (MAX, 1, MIN, 0)], """
        iconst_4; newarray int; astore 4; iconst_0; istore 5
        aload 4; iconst_0; iload_0; iastore; aload 4; iconst_1; iload_1; iastore
        aload 4; iconst_2; iload_2; iastore; aload 4; iconst_3; iload_3; iastore
        iconst_0; istore 6
        loop: iload 6; aload 4; arraylength; if_icmpge over
        iload 5; aload 4; iload 6; iaload; iadd; istore 5; iinc 6 1; goto loop
        over: iload 5; ireturn""")
    for kind in "ArrayIndexOutOfBoundsException", "IndexOutOfBoundsException", "NullPointerException":
        code = "iload_0; iconst_5; if_icmpne start; aconst_null; astore_2; start: aload_2; iload_0; iaload; ireturn"
        caught = "end: pop; bipush -50; ireturn"
        t.add(f"caught_{kind}", "(I)I", [-1, 0, 3, 5], *three, code, caught, table=f"start end end {kind}")
    code = "start: newarray int; end: arraylength; ireturn; less: pop; bipush -50; ireturn"
    rows = "start end less NegativeArraySizeException"
    t.add("caught_length", "(Z)I", [0, 1], either(2, -1), code, table=rows)
    return t


# STATIC FIELDS AND METHODS


FIRST = {"Z": 1, "B": -128, "C": 65535, "S": -32768, "I": 70000}
# what isn't there: a class, a field, a method
MISSING = [
    "getstatic Absent.f I; pop",
    "iload_0; putstatic Absent.f I",
    "invokestatic Absent.f ()V",
    "iload_0; invokestatic java/lang/Math.abs (I)I; pop",
    "getstatic .absent I; pop",
    "iload_0; putstatic .absent I",
    "getstatic .ownI B; pop",
    "aconst_null; putstatic .ownI [I",
    "getstatic .instance I; pop",
    "invokestatic .absent ()V",
    "iload_0; invokestatic .store (I)I; pop",
    "invokestatic .ownI ()V",
    "invokestatic Kl\u00e4sse.f ()V",
    "getstatic .f\\g I; pop",
    "invokestatic .\u03c0~!\x7f ()V",
]


def members():
    fields = [Field(f"first{kind}", kind, word) for kind, word in FIRST.items()]
    fields += [Field(f"own{kind}", kind) for kind in KINDS]
    fields += [Field("list", "[I"), Field("filled", "[I"), Field("started", "I", 5), Field("long", "J")]
    fields += [Field("same", "I", 3), Field("same", "Z"), Field("same", "[I"), Field("instance", "I", flags=PUBLIC)]
    t = Table("EveryMember", *fields)
    # the initialiser: what it throws and catches itself is no failure
    t.add("<clinit>", "()V", [], """
        getstatic .started I; iconst_2; imul; putstatic .started I
        iconst_2; newarray int; dup; iconst_1; bipush 7; iastore; putstatic .filled [I
        start: iconst_1; iconst_0; idiv; end: pop; return
        caught: pop; getstatic .started I; iconst_1; iadd; putstatic .started I; return""",
        table="start end caught ArithmeticException")
    for kind in KINDS:
        both = f"getstatic .first{kind} {kind}; getstatic .own{kind} {kind}; iadd; iload_0; iadd; ireturn"
        t.add(f"getstatic_{kind}", "(I)I", [0, MAX], both)
        for name, runs in ("own", EDGES[kind]), ("first", EDGES[kind][:1]):
            field = f"static .{name}{kind} {kind}"
            code = f"iload_0; put{field}; iconst_0; istore_0; get{field}; ireturn"
            t.add(f"putstatic_{name}_{kind}", f"({kind}){kind}", runs, code)
    code = "getstatic .started I; getstatic .filled [I; iconst_1; iaload; getstatic .filled [I; arraylength; iload_0"
    t.add("started", "(I)I", [0, 100], code, fold(4), "ireturn")
    t.add("getstatic_array", "()I", [()], "getstatic .list [I", truth("ifnull"))
    t.add("putstatic_array", "(I)I", [0, 1, 3], """
        iconst_3; newarray int; dup; putstatic .list [I; iload_0; bipush 9; iastore
        getstatic .list [I; iconst_1; iaload
        aconst_null; putstatic .list [I; getstatic .list [I; ifnull none; iconst_m1; ireturn; none: ireturn""")
    t.add("fields_of_one_name", "(I)I", [5, -5], """
        iload_0; putstatic .same I; getstatic .same Z; bipush 10; imul; getstatic .same I; iadd
        getstatic .same [I; ifnull none; iconst_m1; ireturn; none: ireturn""")
    t.add("putstatic_twice", "(II)I", [(2, 3), (MAX, 1)], """
        iload_0; putstatic .ownI I; getstatic .ownI I; iload_1; iadd; putstatic .ownI I
        getstatic .ownI I; putstatic .same I; getstatic .same I; getstatic .ownI I; imul; ireturn""")

    t.add("difference", "(II)I", [], "iload_0; iload_1; isub; iconst_0; istore_0; iconst_0; istore_1; ireturn")
    t.add("five", "(ZBCSI)I", [], "iload_0; iload_1; iload_2; iload_3; iload 4", fold(5), "ireturn")
    t.add("ten", "(IIIIIIIIII)I", [], *[f"iload {i}" for i in range(10)], fold(10), "ireturn", stack=11)
    t.add("store", "(I)V", [5], "iload_0; putstatic .ownI I; return")
    t.add("same", "(I)I", [5], "iload_0; iconst_1; iadd; ireturn")
    t.add("same", "()I", [()], "bipush 100; ireturn")
    t.add("same", "(II)I", [(3, 5)], "iload_0; iload_1; imul; ireturn")
    t.add("one", "([III)[I", [], """
        iload_1; ifeq second; iconst_1; newarray int; astore_0
        second: iload_2; ifeq third; aconst_null; astore_0; third: aload_0; areturn""")
    t.add("stored", "([III)V", [], "aload_0; iload_1; iload_2; iastore; aconst_null; astore_0; return")
    code = "iload_0; iload_1; invokestatic .difference (II)I; iload_0; iload_1; imul; iadd; ireturn"
    t.add("invokestatic", "(II)I", [(7, 3), (3, 7), (MIN, 1)], code)
    code = "iload_0; bipush 100; iload_0; iconst_5; invokestatic .difference (II)I; isub; iadd; ireturn"
    t.add("stack_below", "(I)I", [0, 9], code)
    code = "iload_0; iload_1; iload_2; iload_3; iload 4; invokestatic .five (ZBCSI)I; ireturn"
    t.add("invokestatic_kinds", "(ZBCSI)I", [(1, -128, 65535, -32768, MIN), (0, 127, 0, 32767, MAX)], code)
    code = ["iload_0", *[f"bipush {i}" for i in range(1, 9)], "iload_1; invokestatic .ten (IIIIIIIIII)I; ireturn"]
    t.add("invokestatic_ten", "(II)I", [(1, 2), (-1, MIN)], *code, stack=10)
    code = "bipush 50; iload_0; invokestatic .store (I)V; getstatic .ownI I; isub; ireturn"
    t.add("invokestatic_void", "(I)I", [5, MIN], code)
    code = "iload_0; invokestatic .same (I)I; invokestatic .same ()I; invokestatic .same (II)I; ireturn"
    t.add("methods_of_one_name", "(I)I", [5, -1], code)
    code = "iconst_3; newarray int; iload_0; iload_1; invokestatic .one ([III)[I; arraylength; ireturn"
    t.add("areturn", "(ZZ)I", [(0, 0), (1, 0), (0, 1), (1, 1)], code)
    t.add("array_passed", "(II)I", [(1, 5), (0, 5), (3, 5)], """
        iconst_3; newarray int; dup; astore_2; iload_0; iload_1; invokestatic .stored ([III)V
        aload_2; iconst_1; iaload; ireturn""")
    t.add("factorial", "(I)I", [0, 1, 5, 12, 13, -1], """
        iload_0; ifgt more; iconst_1; ireturn
        more: iload_0; iload_0; iconst_1; isub; invokestatic .factorial (I)I; imul; ireturn""")
    for name, other, last in ("even", "odd", 1), ("odd", "even", 0):
        code = f"iload_0; ifne more; iconst_{last}; ireturn; more: iload_0; iconst_1; isub"
        t.add(name, "(I)Z", [0, 7, 8], code, f"invokestatic .{other} (I)Z; ireturn")

    t.add("missing", "(B)I", range(-1, len(MISSING)), "iload_0", selected(MISSING), "iload_0; ireturn")
    code = "start: invokestatic Absent.f ()V; end: iload_0; ireturn; caught: pop; iconst_m1; ireturn"
    t.add("missing_caught", "(I)I", [0], code, table="start end caught Throwable")
    return t


TABLES = [loads, ints, stack, branches, switches, arrays, members]
