"""Classes with methods for each end of a run, and the inputs of their methods, beside those of tools/every.py."""

from assembler import NATIVE, PUBLIC, STATIC, SYNCHRONIZED, Field
from pieces import EDGES, KINDS, LANG, MAX, MIN, THROWABLES, Table, either, made, made_of_text, selected, spins, truth


# FOREIGN METHODS


FOREIGN = {
    "long": "lconst_0; pop2; return",
    "float": "fconst_1; pop; return",
    "ldc_float": "ldc 1.5; pop; return",
    "ldc_w_float": "ldc_w 2.5; pop; return",
    "to_long": "iconst_1; i2l; l2i; pop; return",
    "jsr": "jsr there; return; there: astore_0; ret 0",
    "bytes": "iconst_1; newarray byte; pop; return",
    "objects": "iconst_1; anewarray java/lang/Object; pop; return",
    "new_object": "new java/lang/Object; pop; return",
    "new_other": "new java/lang/LinkageError; pop; return",
    "cause": "new java/lang/Error; aconst_null; invokespecial java/lang/Error.<init> (Ljava/lang/Throwable;)V; return",
    "virtual": f"{made('Error')}; invokevirtual java/lang/Throwable.getMessage ()Ljava/lang/String;; pop; return",
    "monitor": "ldc 'text'; dup; monitorenter; monitorexit; return",
    "checkcast": "aconst_null; checkcast java/lang/Error; pop; return",
    "instanceof": "aconst_null; instanceof java/lang/Error; pop; return",
    "field_of_text": "getstatic .text Ljava/lang/String;; pop; return",
    "field_of_long": "getstatic .long J; pop2; return",
    "gives_text": "iconst_1; invokestatic java/lang/String.valueOf (I)Ljava/lang/String;; pop; return",
    "not_reached": "return; lconst_0; pop2; return",
}


def foreign():
    t = Table("EveryForeign", Field("text", "Ljava/lang/String;"), Field("long", "J"))
    t.add("instance", "()V", [], "return", flags=PUBLIC)
    t.add("synchronized", "()V", [], "return", flags=STATIC | SYNCHRONIZED)
    t.add("native", "()V", [], flags=STATIC | NATIVE)
    t.add("stack_257", "()V", [], "return", stack=257)
    t.add("locals_257", "()V", [], "return", locals=257)
    caught = "start: nop; end: return; caught: pop; return"
    t.add("caught", "()V", [], caught, table="start end caught LinkageError")
    for name, code in FOREIGN.items():
        t.add(name, "()V", [], code)
    # what is just not foreign
    t.add("stack_256", "()V", [], "return", stack=256)
    t.add("locals_256", "()V", [], "return", locals=256)
    t.add("no_places", "()V", [], "return", stack=0, locals=0)
    t.add("caught_all", "()V", [], caught, table="start end caught")
    cases = [f"invokestatic .{method.name} ()V" for method in t.methods]
    t.add("invokestatic", "(B)I", range(-1, len(cases)), "iload_0", selected(cases), "iload_0; ireturn")
    return t


# THROWABLES


def raising(t):
    """A method that throws the throwable of a number, or the machine does; by other numbers it returns."""
    cases = [f"{made(name)}; athrow" for name in THROWABLES]
    cases += ["iconst_1; iconst_0; idiv; pop", "aconst_null; iconst_0; iaload; pop", "iconst_m1; newarray int; pop"]
    cases += ["iconst_1; newarray int; iconst_1; iaload; pop", "aconst_null; athrow"]
    t.add("raise", "(B)V", range(-1, len(cases) + 1), "iload_0", selected(cases), "return")
    return range(len(cases))


def throws():
    t = Table("EveryThrow", Field("count", "I"))
    raising(t)
    cases = [f"{made_of_text(name)}; athrow" for name in THROWABLES]
    t.add("invokespecial_text", "(B)V", range(len(cases)), "iload_0", selected(cases), "return")
    t.add("invokespecial", "(I)I", [5], "iload_0", made("Error"), "pop", made_of_text("Error"), "pop; ireturn")
    null = f"new {LANG}Error; dup; aconst_null; invokespecial {LANG}Error.<init> (Ljava/lang/String;)V"
    t.add("invokespecial_null", "(I)I", [5], null, truth("ifnonnull"))
    t.add("new", "(I)I", [5], f"new {LANG}Error; pop; iload_0; ireturn")
    t.add("new_twice", "()I", [()], made("Error"), made("Error"), truth("if_acmpeq"))
    loop = "astore_1; iinc 0 -1; iload_0; ifgt loop; aload_1; athrow"
    t.add("new_in_loop", "(B)I", [1, 3], "loop:", made("Exception"), loop)
    code = f"new {LANG}Error; astore_1; start: iconst_1; iload_0; idiv; end: ireturn; caught: pop; iconst_5; ireturn"
    t.add("uninitialised_local", "(I)I", [0, 1], code, table="start end caught")
    t.add("athrow_null", "(I)I", [0], "aconst_null; athrow")
    code = "iload_0; ifeq other", made("Error"), "goto both; other:", made("RuntimeException"), "both: athrow"
    t.add("athrow_chosen", "(Z)I", [0, 1], *code)
    code = "astore_1; iload_0; ifeq here; aconst_null; astore_1; here: aload_1; athrow"
    t.add("athrow_perhaps_null", "(Z)I", [0, 1], made("Error"), code)

    # a handler covers the first instruction of its range, and not the one at the end
    caught = "caught: pop; bipush -99; ireturn"
    row = "start end caught ArithmeticException"
    code = "iload_0; iconst_1; iload_1; start: idiv; end: idiv; ireturn"
    t.add("range", "(II)I", [(10, 1), (10, 0), (10, 2), (10, -1)], code, caught, table=row)
    code = "iload_0; iconst_1; iload_1; idiv; start: idiv; end: ireturn"
    t.add("before_range", "(II)I", [(10, 1), (10, 0), (10, 2)], code, caught, table=row)
    code = "start: iconst_5; iload_0; irem; ireturn; end:"
    t.add("to_the_end", "(I)I", [3, 0], "goto start", caught, code, table=row)
    t.add("from_0", "(I)I", [3, 0], "start: iconst_5; iload_0; irem; end: ireturn", caught, table=row)
    row = "start end caught Throwable"
    code = "iload_0; start: invokestatic .raise (B)V; end: iload_0; ireturn"
    t.add("call_covered", "(B)I", [-1, 2, 4], code, caught, table=row)
    code = "start: iload_0; end: invokestatic .raise (B)V; iload_0; ireturn"
    t.add("call_at_the_end", "(B)I", [-1, 2], code, caught, table=row)
    code = "iload_0; invokestatic .raise (B)V; start: iload_0; end: ireturn"
    t.add("call_before", "(B)I", [-1, 2], code, caught, table=row)

    # the first handler of several
    raised = "start: iload_0; invokestatic .raise (B)V; end:"
    three = "iconst_0; ireturn; one: pop; iconst_1; ireturn; two: pop; iconst_2; ireturn; three: pop; iconst_3; ireturn"
    some = [-1, 0, 1, 2, 3, 4, 5, 11, 12, 16]
    orders = {
        "child_first": "start end one ArithmeticException, start end two RuntimeException, start end three Exception",
        "parent_first": "start end one RuntimeException, start end two ArithmeticException, start end three",
        "all_first": "start end one, start end two ArithmeticException",
        "same_twice": "start end two ArithmeticException, start end one ArithmeticException",
    }
    for name, rows in orders.items():
        t.add(name, "(B)I", some, raised, three, table=rows)
    code = "start: iconst_1; iload_0; inner: idiv; end: iload_1; idiv; behind: ireturn"
    rows = "inner end one ArithmeticException, start behind two ArithmeticException"
    handlers = "one: pop; bipush -1; ireturn; two: pop; bipush -2; ireturn"
    t.add("range_in_range", "(II)I", [(1, 1), (0, 1), (1, 0)], code, handlers, table=rows)

    # a handler throws
    begin = "aconst_null; astore_1", raised, "iconst_0; ireturn"
    rows = "start end inner RuntimeException, start behind outer Throwable"
    code = "inner: astore_1; aload_1; athrow; behind: nop; outer: aload_1", truth("if_acmpeq")
    t.add("thrown_again", "(B)I", some, *begin, *code, table=rows)
    rows = "start end inner RuntimeException, start behind outer Error"
    code = "inner: pop", made("Error"), "athrow; behind: nop; outer: pop; iconst_3; ireturn"
    t.add("thrown_instead", "(B)I", some[:5], *begin, *code, table=rows)
    t.add("thrown_out", "(B)I", some, raised, "iload_0; ireturn; caught: athrow", table="start end caught")
    code = "iload_0; ireturn; caught: pop; aconst_null; athrow"
    t.add("thrown_by_the_machine", "(B)I", some[:4], raised, code, table="start end caught Exception")
    code = "iload_0; ireturn; caught: astore_1; getstatic .count I; iconst_1; iadd; putstatic .count I; aload_1; athrow"
    t.add("finally", "(B)I", some[:3], raised, code, table="start end caught")
    code = "start: iload_0; invokestatic .finally (B)I; pop; end: bipush 50; ireturn"
    told = "caught: pop; getstatic .count I; ireturn"
    t.add("after_finally", "(B)I", some[:4], code, told, table="start end caught")
    t.add("handler_of_itself", "(I)I", [5, 0, 7], """
        iconst_3; istore_1; start: bipush 100; iload_0; idiv; ireturn
        caught: pop; iinc 1 -1; iload_1; ifeq over; bipush 100; iload_0; idiv; ireturn
        end: nop; over: bipush -7; ireturn""", table="start end caught ArithmeticException")
    t.add("nested", "(B)I", [-1, 2, 3, 4, 5, 12], """
        start: iload_0; invokestatic .raise (B)V; end: bipush 10; ireturn
        inner: pop; iload_0; iconst_4; isub; istore_1; iconst_5; iload_1; idiv; ireturn
        behind: nop; outer: pop; bipush 20; ireturn""",
        table="start end inner RuntimeException, start behind outer RuntimeException")

    # what a frame keeps
    row = "start end caught ArithmeticException"
    code = "iload_0; iload_0; bipush 9; bipush 8; iconst_1; iload_0; start: idiv; end: pop; pop; isub; imul; ireturn"
    t.add("stack_emptied", "(I)I", [0, 3], code, caught, table=row)
    t.add("locals_kept", "(I)I", [0, 1, 2], """
        iconst_0; istore_1; start: iinc 1 5; iconst_1; iload_0; idiv; pop; iinc 1 7
        iconst_1; iload_0; iconst_1; isub; idiv; pop; iinc 1 50; end: iload_1; ireturn
        caught: pop; iload_1; ireturn""", table=row)
    code = "astore_1; start: aload_1; iload_0; ifeq here; pop", made("Error"), "here: athrow; end: aload_1"
    t.add("caught_is_thrown", "(Z)I", [0, 1], made("Error"), *code, truth("if_acmpeq"), table="start end end Error")
    t.add("in_loop", "(B)I", [3, 0, -2], """
        iconst_0; istore_1; start: bipush 12; iload_0; idiv; iload_1; iadd; istore_1
        end: iinc 0 -1; iload_0; bipush -4; if_icmpgt start; iload_1; ireturn
        caught: pop; iinc 1 100; goto end""", table=row)

    # frames that are left
    t.add("dig", "(BB)V", [], """
        iload_1; ifgt start; iload_0; invokestatic .raise (B)V; return
        start: iload_0; iload_1; iconst_1; isub; invokestatic .dig (BB)V; end: return; caught: athrow""",
        table="start end caught Error")
    code = "start: iload_0; iload_1; invokestatic .dig (BB)V; end: iload_0; ireturn"
    rows = "start end caught RuntimeException, start end caught Error"
    t.add("frames_left", "(BB)I", [(-1, 3), (4, 0), (4, 5), (2, 5), (1, 2)], code, caught, table=rows)
    code = "start: iload_0; invokestatic .child_first (B)I; bipush 10; iadd; end: ireturn"
    t.add("caught_below", "(B)I", [-1, 0, 2, 3, 4], code, caught, table="start end caught Throwable")
    return t


def catches():
    """Each throwable, and each class that catches it or doesn't."""
    t = Table("EveryCatch")
    numbers = raising(t)
    code = "start: iload_0; invokestatic .raise (B)V; end: iload_0; ireturn; caught: pop; bipush 50; ireturn"
    for name in THROWABLES:
        t.add(name, "(B)I", numbers, code, table=f"start end caught {name}")
    t.add("all", "(B)I", numbers, code, table="start end caught")
    return t


# LIMITS


def limits(t):
    """Methods that use up what a run may have: so many choices by the first parameter, frames, arrays."""
    t.add("spend", "(II)V", [], "loop: iload_0; ifeq next; next: iinc 1 -1; iload_1; ifgt loop; return")
    t.add("down", "(I)V", [], "iload_0; ifeq over; iload_0; iconst_1; isub; invokestatic .down (I)V; over: return")
    t.add("arrays", "(II)V", [], "loop: iload_0; newarray int; pop; iinc 1 -1; iload_1; ifgt loop; return")


def ends():
    t = Table("EveryEnd")
    limits(t)
    t.add("ireturn", "(I)I", [0, MIN], "iload_0; ireturn")
    t.add("return", "(I)V", [0, MIN], "return")
    for kind in "ZBCS":
        t.add(f"ireturn_{kind}", f"({kind}){kind}", EDGES[kind], "iload_0; ireturn")

    # 256 frames, with that of the entry: `down` of 254 needs 255
    deep = either(255, 254)
    t.add("deep", "(Z)I", [0, 1], deep, "invokestatic .down (I)V; iload_0; ireturn")
    code = "sipush 200; invokestatic .down (I)V; sipush 250; invokestatic .down (I)V; iload_0; ireturn"
    t.add("deep_again", "(I)I", [5], code)
    code = "start: sipush 255; invokestatic .down (I)V; end: iload_0; ireturn; caught: pop; iconst_m1; ireturn"
    t.add("deep_caught", "(I)I", [5], code, table="start end caught")
    for name, last in ("missing", "invokestatic .absent ()V"), ("throw", "iconst_1; iload_0; idiv; pop"):
        code = f"iload_0; ifeq last; iload_0; iconst_1; isub; invokestatic .to_{name} (I)V; return"
        t.add(f"to_{name}", "(I)V", [], code, f"last: {last}; return")
        code = f"start: invokestatic .to_{name} (I)V; end: iload_0; ireturn; caught: pop; iconst_m1; ireturn"
        t.add(f"deep_or_{name}", "(Z)I", [0, 1], deep, code, table="start end caught")
    code = "iload_0; ifgt more; iconst_0; ireturn; more: iload_0; iconst_1; isub; invokestatic .deep_by_choice (I)I"
    t.add("deep_by_choice", "(I)I", [0, 254, 255, 256], code, "iconst_1; iadd; ireturn")

    # 20,000 instructions: behind the first choice so many come to the end by 0, and one more by 1
    begin = "iload_0; ifeq short; nop; short:"
    last_ones = {
        "return": [spins(19_998), "iconst_5; ireturn"],
        "choice": [spins(19_998), "iload_0; ifeq over; over: iconst_5; ireturn"],
        "throw": [spins(19_997), "iconst_1; iconst_0; idiv; ireturn"],
        "null": [spins(19_998), "aconst_null; athrow"],
        "caught": [spins(19_997), "iconst_1; iconst_0; start: idiv; end: ireturn; caught: pop; iconst_5; ireturn"],
        "call": [spins(19_993), "iconst_0; invokestatic .down (I)V; iconst_5; ireturn"],
        "missing": [spins(19_999), "invokestatic .absent ()V; iconst_5; ireturn"],
        "symlength": [spins(19_998), "iload_0; newarray int; arraylength; ireturn"],
        "heapfull": [spins(19_998), "sipush 257; newarray int; arraylength; ireturn"],
    }
    for name, code in last_ones.items():
        rows = "start end caught" if name == "caught" else ""
        t.add(f"runaway_or_{name}", "(Z)I", [0, 1], begin, *code, table=rows)
    code = "iconst_1; iload_0; start: idiv; end: ireturn; caught:", spins(19_998, "again"), "iconst_5; ireturn"
    t.add("runaway_or_caught_choice", "(Z)I", [0, 1], begin, spins(19_997), *code, table="start end caught")
    code = "iload_0; sipush 255; invokestatic .spend (II)V", begin, spins(19_998), "iload_0; ifeq over; over: return"
    t.add("runaway_or_cut", "(Z)V", [0, 1], *code)
    for name, test in ("by_choice", "iload_0; ifeq over; over:"), ("without_choice", "iconst_0; ifeq over; over:"):
        t.add(f"twice_{name}", "(I)I", [0, 5], spins(12_000), test, spins(12_000, "again"), "iload_0; ireturn")
    t.add("spin", "(I)I", [0], "spin: goto spin")
    t.add("spin_wide", "(I)I", [0], "spin: nop; goto_w spin")
    code = "aconst_null; start: athrow; end: nop; caught: goto start"
    t.add("spin_caught", "(I)V", [0], code, table="start end caught")
    t.add("spin_by_choice", "(I)I", [0, 1], "spin: iload_0; ifne spin; iload_0; ireturn")

    # 256 choices: by 0 the test is the last one, and by 1 one more
    loop = "iconst_0; istore_1; loop: iload_1; iload_0; if_icmpge over; iinc 1 1; goto loop; over: iload_1; ireturn"
    t.add("cut", "(I)I", [0, 254, 255, 256, MAX], loop)
    three = "iconst_3; newarray int; dup; iconst_1; bipush 7; iastore; astore_3"
    tests = {
        "ifle": "iload_1; ifle over; over:",
        "if_icmpne": "iload_1; iconst_5; if_icmpne over; over:",
        "idiv": "iconst_5; iload_1; idiv; pop",
        "irem": "iconst_5; iload_1; irem; pop",
        "tableswitch": "iload_1; tableswitch 0 over over; over:",
        "lookupswitch": "iload_1; lookupswitch 5=over over; over:",
        "iaload": "aload_3; iload_1; iaload; pop",
        "iastore": "aload_3; iload_1; iload_1; iastore",
    }
    for name, test in tests.items():
        spent = either(255, 254), "istore_2; iload_1; iload_2; invokestatic .spend (II)V"
        t.add(f"cut_{name}", "(ZI)I", [(0, 1), (0, 0), (1, 0)], three, *spent, test, "iload_1; ireturn")
    spent = "iload_0; sipush 256; invokestatic .spend (II)V"
    t.add("cut_by_no_known", "(I)I", [5], three, spent, """
        iconst_5; iconst_2; idiv; ifgt there; there: aload_3; iconst_1; iaload; tableswitch 7 over over
        over: aload_3; ifnull last; last: iload_0; ireturn""")
    t.add("cut_by_no_null", "(I)I", [5], spent, "aconst_null; iload_0; iaload; ireturn")

    # 256 cells of an array, and 4,096 of all
    t.add("heapfull_length", "(Z)I", [0, 1], either(257, 256), "newarray int; arraylength; ireturn")
    lengths = "iconst_0", "iconst_1", "sipush 257", "iconst_m1", "iload_0"
    cases = [f"{length}; newarray int; pop" for length in lengths] + [f"{made('Error')}; pop"]
    begin = "sipush 256; bipush 16; invokestatic .arrays (II)V; iload_0"
    t.add("heapfull_cells", "(B)I", range(-1, len(cases)), begin, selected(cases), "iload_0; ireturn")
    begin = "sipush 255; bipush 16; invokestatic .arrays (II)V"
    t.add("heapfull_cells_left", "(Z)I", [0, 1], begin, either(17, 16), "newarray int; arraylength; ireturn")
    # 4,096 arrays and throwables: one is left, or none
    loop = f"loop: new {LANG}Error; pop; iconst_0; newarray int; pop; iinc 1 -1; iload_1; ifgt loop"
    begin = ["sipush 2046; istore_1", loop, made("Error"), "astore_2; iconst_1; newarray int; astore_3; start:"]
    cases = [f"new {LANG}Exception; pop", "iconst_0; newarray int; pop", "iconst_1; iconst_0; idiv; pop"]
    cases += ["iconst_1; iload_0; iconst_3; isub; idiv; pop", "aconst_null; athrow", "aload_3; iload_0; iaload; pop"]
    cases += ["aload_3; iconst_1; iconst_1; iastore", "aconst_null; arraylength; pop", "iconst_m1; newarray int; pop"]
    cases += ["iload_0; newarray int; pop", "aload_2; athrow", "aload_3; arraylength; pop"]
    last = "end: iload_0; ireturn; caught: pop; bipush 50; ireturn"
    for name, more in ("heapfull_made", 2), ("heapfull_made_left", 1):
        code = [*begin, *["iconst_0; newarray int; pop"] * more, "iload_0", selected(cases), last]
        t.add(name, "(B)I", range(-1, len(cases)), *code, table="start end caught")
    return t


# LENGTHS THAT DEPEND ON A PARAMETER


LENGTHS = dict(iadd=(3, 4), isub=(9, 4), imul=(3, 4), idiv=(9, 2), irem=(9, 5), ishl=(3, 2), ishr=(9, 1), iushr=(9, 1))
LENGTHS |= dict(iand=(7, 12), ior=(5, 8), ixor=(5, 6))
# what is a length then, by the parameter in local 0; local 1 is an array with 0, 6 and the parameter
MARKED = {
    "minus_itself": "iload_0; iload_0; isub",
    "times_0": "iload_0; iconst_0; imul",
    "and_0": "iload_0; iconst_0; iand",
    "xor_itself": "iload_0; iload_0; ixor",
    "shifted_out": "iload_0; bipush 31; iushr; iconst_1; ishr",
    "quotient_of_0": "iconst_0; iload_0; iconst_1; iadd; idiv",
    "cell_of_parameter": "aload_1; iconst_2; iaload",
    "field_of_parameter": "iload_0; putstatic .kept I; getstatic .kept I",
    "returned_parameter": "bipush 6; iload_0; invokestatic .second (II)I",
    "swap_parameter": "iconst_5; iload_0; swap; pop",
    "dup_x2_parameter": "iload_0; iconst_5; iload_0; dup_x2; pop; pop; pop",
    "chosen": "iload_0; ifgt more; iconst_3; goto both; more: iconst_4; both:",
    "known": "bipush 9; iconst_5; irem; iload_0; ifeq over; over:",
    "cell_never_stored": "aload_1; iconst_0; iaload",
    "cell_of_known": "aload_1; iconst_1; iaload",
    "cell_by_parameter": "iload_0; istore_2; aload_1; iconst_2; iconst_4; iastore; aload_1; iload_2; iaload",
    "cell_stored_by_parameter": "aload_1; iload_0; iconst_4; iastore; aload_1; iconst_2; iaload",
    "cell_stored_again": "aload_1; iconst_2; iconst_4; iastore; aload_1; iconst_2; iaload",
    "arraylength": "aload_1; arraylength",
    "field_first": "getstatic .first I",
    "field_never_stored": "getstatic .kept I",
    "field_stored_again": "iload_0; putstatic .kept I; iconst_4; putstatic .kept I; getstatic .kept I",
    "returned_known": "iload_0; bipush 6; invokestatic .second (II)I",
    "local_stored_again": "bipush 6; istore_0; iload_0",
    "swap": "iload_0; iconst_5; swap; pop",
    "dup_x1": "iload_0; iconst_5; dup_x1; pop; pop",
    "dup2_x1": "iconst_4; iload_0; iconst_5; dup2_x1; pop; pop; pop",
}


def marks():
    t = Table("EveryMark", Field("kept", "I"), Field("first", "I", 5))
    make = "newarray int; arraylength; ireturn"
    for name, (a, b) in LENGTHS.items():
        # of a parameter and a known word, of a known word and a parameter, and of known words
        cases = [f"iload_1; bipush {b}", f"bipush {a}; iload_1", f"bipush {a}; bipush {b}"]
        cases = [f"{label}: {case}; {name}; goto make" for label, case in zip("abc", cases)]
        t.add(name, "(BI)I", [(0, a), (1, b), (2, b)], "iload_0; tableswitch 0 a b c", *cases, f"make: {make}")
    for name in "ineg", "i2b", "i2c", "i2s":
        word = -7 if name == "ineg" else 7
        code = f"iload_0; ifeq known; iload_1; goto both; known: bipush {word}; both: {name}; {make}"
        t.add(name, "(ZI)I", [(0, 9), (1, 9), (1, -9)], code)
    code = f"iload_0; ifne both; bipush 5; istore_1; both: iinc 1 2; iload_1; {make}"
    t.add("iinc", "(ZI)I", [(0, 9), (1, 9)], code)
    for kind in KINDS:
        t.add(f"parameter_{kind}", f"({kind})I", EDGES[kind][:2], "iload_0", make)
    t.add("second", "(II)I", [], "iload_1; ireturn")
    array = "iconst_3; newarray int; astore_1; aload_1; iconst_1; bipush 6; iastore"
    for name, code in MARKED.items():
        t.add(name, "(I)I", [1, 2], array, "aload_1; iconst_2; iload_0; iastore", code, make)
    code = "iconst_1; iload_0; start: idiv; end: istore_1; goto over; caught: pop; over: iload_1"
    t.add("caught", "(I)I", [0, 1], "bipush 6; istore_1", code, make, table="start end caught")
    return t


# INITIALISERS


def started():
    """The initialiser uses up some of what a run may have, before the entry does."""
    t = Table("EveryStarted", Field("sum", "I", 7), Field("list", "[I"))
    limits(t)
    # 12,000 instructions, of which 105 make 16 arrays with 3,841 cells
    t.add("<clinit>", "()V", [], """
        getstatic .sum I; bipush 6; imul; putstatic .sum I; sipush 256; bipush 15; invokestatic .arrays (II)V
        iconst_1; newarray int; putstatic .list [I""", spins(12_000 - 102), "return")
    t.add("first", "(I)I", [0, MAX], "getstatic .sum I; iload_0; iadd; ireturn")
    t.add("last", "()I", [()], spins(7_998), "iconst_5; ireturn")
    t.add("one_more", "()I", [()], spins(7_999), "iconst_5; ireturn")
    code = spins(7_998), "iload_0; ifeq over; over:", spins(19_998, "again"), "iconst_5; ireturn"
    t.add("by_choice", "(I)I", [0, 1], *code)
    for name, length in ("cells", 255), ("cells_more", 256):
        t.add(name, "(I)I", [0], f"sipush {length}; newarray int; arraylength; iload_0; iadd; ireturn")
    t.add("cell", "(I)I", [0, 1], "getstatic .list [I; iload_0; iaload; ireturn")
    t.add("frames", "(I)I", [5], "sipush 254; invokestatic .down (I)V; iload_0; ireturn")
    t.add("choices", "(I)I", [5], "iload_0; sipush 256; invokestatic .spend (II)V; iload_0; ireturn")
    return t


def fails():
    """The machine throws in a method that the initialiser calls, and no handler there catches it."""
    t = Table("EveryFails", Field("limit", "I", 3))
    code = "start: iconst_2; invokestatic .inner (I)I; end: putstatic .limit I; return; caught: pop; return"
    t.add("<clinit>", "()V", [], code, table="start end caught Error")
    t.add("inner", "(I)I", [5], """
        iload_0; ifgt start; iconst_1; iload_0; idiv; ireturn
        start: iload_0; iconst_1; isub; invokestatic .inner (I)I; end: ireturn; caught: athrow""",
        table="start end caught NullPointerException")
    t.add("limit", "(Z)I", [0, 1], "getstatic .limit I; ireturn")
    code = "start: getstatic .limit I; end: ireturn; caught: pop; iconst_m1; ireturn"
    t.add("caught", "(B)I", [0], code, table="start end caught")
    t.add("nothing", "()V", [()], "return")
    return t


def fails_itself():
    """The initialiser throws an Error itself."""
    t = Table("EveryFailsItself")
    code = "start:", made("Error"), "athrow; end: return; caught: pop; return"
    t.add("<clinit>", "()V", [], *code, table="start end caught Exception")
    t.add("word", "(I)I", [5], "iload_0; ireturn")
    return t


def foreign_start():
    """The initialiser is foreign."""
    t = Table("EveryForeignStart", Field("count", "I"))
    t.add("<clinit>", "()V", [], "lconst_0; pop2; return")
    t.add("word", "(I)I", [5], "iload_0; ireturn")
    t.add("counted", "(I)I", [5], "getstatic .count I; ireturn")
    return t


# WHAT THE JAVA MACHINE DOES OTHERWISE


# words outside the kinds; a word is passed, stored and returned as it is
OUTSIDE = {"Z": 2, "B": 300, "C": -1, "S": 70000}


def own():
    """What the Java machine refuses, or does otherwise."""
    fields = [Field(f"first{kind}", kind, word) for kind, word in OUTSIDE.items()]
    fields += [Field(f"own{kind}", kind) for kind in OUTSIDE] + [Field("starts", "I")]
    t = Table("EveryOwn", *fields, asked=False)
    # an initialiser that is called is a method like any other, and so is what it throws at the fourth time
    t.add("<clinit>", "()V", [], """
        getstatic .starts I; iconst_1; iadd; dup; putstatic .starts I; iconst_4; if_icmplt over""",
        made("Error"), "athrow; over: return")
    t.add("starts", "(B)I", range(-1, 4), """
        loop: iload_0; ifle over; invokestatic .<clinit> ()V; iinc 0 -1; goto loop
        over: getstatic .starts I; ireturn""")
    code = "start: iload_0; invokestatic .starts (B)I; end: ireturn; caught: pop; iconst_m1; ireturn"
    t.add("starts_caught", "(B)I", [2, 3], code, table="start end caught Error")
    t.add("<clinit>", "(I)I", [], "iload_0; bipush 10; imul; ireturn")
    t.add("<init>", "(I)I", [5], "iload_0; iconst_1; iadd; ireturn")
    code = "iload_0; invokestatic .<clinit> (I)I; invokestatic .<init> (I)I; ireturn"
    t.add("named_as_others", "(I)I", [5], code)
    for kind, word in OUTSIDE.items():
        t.add(f"first{kind}", "()I", [()], f"getstatic .first{kind} {kind}; ireturn")
        code = f"iload_0; putstatic .own{kind} {kind}; getstatic .own{kind} {kind}; ireturn"
        t.add(f"stored{kind}", "(I)I", [word, MIN], code)
        t.add(f"returned{kind}", f"(I){kind}", [word, MIN], "iload_0; ireturn")
        t.add(f"taken{kind}", f"({kind})I", [], "iload_0; ireturn")
        t.add(f"passed{kind}", "(I)I", [word, MIN], f"iload_0; invokestatic .taken{kind} ({kind})I; ireturn")
    # any bytes in the gap of a switch
    results = "a: bipush 10; ireturn; other: bipush 40; ireturn"
    t.add("tableswitch", "(I)I", [0, 1], "iload_0; tableswitch 0 a other", results, fill=255)
    t.add("lookupswitch", "(I)I", [0, 1], "iload_0; lookupswitch 0=a other", results, fill=90)
    # an int or null on the stack, which nothing but a stack instruction takes
    begin = "iconst_5; iload_0; ifeq null; iconst_1; goto both; null: aconst_null; both:"
    for name, code in ("pop", "pop"), ("dup", "dup; pop2"), ("swap", "swap; istore_1; pop; iload_1"):
        t.add(f"{name}_int_or_null", "(Z)I", [0, 1], begin, code, "ireturn")
    return t


TABLES = [foreign, throws, catches, ends, marks, started, fails, fails_itself, foreign_start, own]
