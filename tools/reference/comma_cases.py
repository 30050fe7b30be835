"""Sources for change 5 of document 02: one E with a trailing comma in each place of a t, and what is like it.

"One E with a trailing comma in return, assignment or expression is now a Tuple of one whose span includes the comma." Counted by hand, in bytes: the nodes N of the
script, and the tree of its statements, each node as KIND START-END with its parts in parentheses; a chain's middle stands twice. Nothing here is taken from a reader.
"""

# An expression alone: here the tree is the t's, and its statement has the same span.
EXPRESSIONS = [
    ("1,", 4, "Tuple 0-2(Int 0-1)"), ("a,", 4, "Tuple 0-2(Variable 0-1)"), ("a ,", 4, "Tuple 0-3(Variable 0-1)"), ("a\t\r ,", 4, "Tuple 0-5(Variable 0-1)"),
    ("a, ", 4, "Tuple 0-2(Variable 0-1)"), ("a, # c", 4, "Tuple 0-2(Variable 0-1)"), ("t,", 4, "Tuple 0-2(Variable 0-1)"), ("'s',", 4, "Tuple 0-4(String 0-3)"),
    ("True,", 4, "Tuple 0-5(Bool 0-4)"), ("1.5,", 4, "Tuple 0-4(Float 0-3)"), ("-1,", 4, "Tuple 0-3(Int 0-2)"), ("- 1,", 5, "Tuple 0-4(Unary 0-3(Int 2-3))"),
    ("-a,", 5, "Tuple 0-3(Unary 0-2(Variable 1-2))"), ("not a,", 5, "Tuple 0-6(Unary 0-5(Variable 4-5))"), ("not - a,", 6, "Tuple 0-8(Unary 0-7(Unary 4-7(Variable 6-7)))"),
    ("a + b,", 6, "Tuple 0-6(Binary 0-5(Variable 0-1 Variable 4-5))"), ("a or b and c,", 8, "Tuple 0-13(Binary 0-12(Variable 0-1 Binary 5-12(Variable 5-6 Variable 11-12)))"),
    ("a<b,", 6, "Tuple 0-4(Binary 0-3(Variable 0-1 Variable 2-3))"),
    ("a<b<c,", 9, "Tuple 0-6(Binary 0-5(Binary 0-3(Variable 0-1 Variable 2-3) Binary 2-5(Variable 2-3 Variable 4-5)))"),
    ("f(),", 5, "Tuple 0-4(Call 0-3(Variable 0-1))"), ("f(a,),", 6, "Tuple 0-6(Call 0-5(Variable 0-1 Variable 2-3))"), ("a.b,", 5, "Tuple 0-4(Attribute 0-3(Variable 0-1))"),
    ("a[b],", 6, "Tuple 0-5(Index 0-4(Variable 0-1 Variable 2-3))"), ("[a,],", 5, "Tuple 0-5(List 0-4(Variable 1-2))"), ("[],", 4, "Tuple 0-3(List 0-2)"),
    ("{a,},", 5, "Tuple 0-5(Set 0-4(Variable 1-2))"), ("{},", 4, "Tuple 0-3(Dict 0-2)"), ("{a: b,},", 7, "Tuple 0-8(Dict 0-7(Pair 1-5(Variable 1-2 Variable 4-5)))"),
    ("t{a,},", 5, "Tuple 0-6(TreeSet 0-5(Variable 2-3))"), ("()),", 4, "Tuple 0-4(Tuple 0-3)"), ("lambda: 1,", 5, "Tuple 0-10(Lambda 0-9(Int 8-9))"),
    ("lambda a,: a,", 6, "Tuple 0-13(Lambda 0-12(Name 7-8 Variable 11-12))"), ("lambda: lambda: a,", 6, "Tuple 0-18(Lambda 0-17(Lambda 8-17(Variable 16-17)))"),
    # beside parentheses: these have their own Tuples, and widen what they hold
    ("(a),", 4, "Tuple 0-4(Variable 0-3)"), ("((a)),", 4, "Tuple 0-6(Variable 0-5)"), ("( a ) ,", 4, "Tuple 0-7(Variable 0-5)"), ("(a,),", 5, "Tuple 0-5(Tuple 0-4(Variable 1-2))"),
    ("((a,),)", 5, "Tuple 0-7(Tuple 1-5(Variable 2-3))"), ("((a,)),", 5, "Tuple 0-7(Tuple 0-6(Variable 2-3))"), ("((a,),),", 6, "Tuple 0-8(Tuple 0-7(Tuple 1-5(Variable 2-3)))"),
    ("((a),)", 4, "Tuple 0-6(Variable 1-4)"), ("((a),),", 5, "Tuple 0-7(Tuple 0-6(Variable 1-4))"), ("(a, b),", 6, "Tuple 0-7(Tuple 0-6(Variable 1-2 Variable 4-5))"),
    ("(a, b,),", 6, "Tuple 0-8(Tuple 0-7(Variable 1-2 Variable 4-5))"), ("(lambda: a),", 5, "Tuple 0-12(Lambda 0-11(Variable 9-10))"),
    ("(lambda: a,),", 6, "Tuple 0-13(Tuple 0-12(Lambda 1-10(Variable 9-10)))"), ("(1.5),", 4, "Tuple 0-6(Float 0-5)"),
    ("(a,) + b,", 7, "Tuple 0-9(Binary 0-8(Tuple 0-4(Variable 1-2) Variable 7-8))"), ("(" * 63 + "a" + ")" * 63 + ",", 4, "Tuple 0-128(Variable 0-127)"),
    ("(" * 62 + "a," + ")" * 62 + ",", 5, "Tuple 0-127(Tuple 0-126(Variable 62-63))"),
    # bytes, not characters
    ("é,", 4, "Tuple 0-3(Variable 0-2)"), ("'한',", 4, "Tuple 0-6(String 0-5)"), ("(é), # é", 4, "Tuple 0-5(Variable 0-4)"),
    # as before: no comma, more than one E, a comma within brackets or behind a name
    ("a", 3, "Variable 0-1"), ("(a)", 3, "Variable 0-3"), ("(a,)", 4, "Tuple 0-4(Variable 1-2)"), ("a, b", 5, "Tuple 0-4(Variable 0-1 Variable 3-4)"),
    ("a, b,", 5, "Tuple 0-5(Variable 0-1 Variable 3-4)"), ("a, (b,)", 6, "Tuple 0-7(Variable 0-1 Tuple 3-7(Variable 4-5))"), ("a, (b,),", 6, "Tuple 0-8(Variable 0-1 Tuple 3-7(Variable 4-5))"),
    ("a, + b", 6, "Tuple 0-6(Variable 0-1 Unary 3-6(Variable 5-6))"), ("lambda: a, b", 6, "Tuple 0-12(Lambda 0-9(Variable 8-9) Variable 11-12)"),
    ("lambda: a, b,", 6, "Tuple 0-13(Lambda 0-9(Variable 8-9) Variable 11-12)"), ("[a,]", 4, "List 0-4(Variable 1-2)"), ("f(a,)", 5, "Call 0-5(Variable 0-1 Variable 2-3)"),
    ("{a,}", 4, "Set 0-4(Variable 1-2)"), ("t{a,}", 4, "TreeSet 0-5(Variable 2-3)"), ("lambda a,: a", 5, "Lambda 0-12(Name 7-8 Variable 11-12)"),
    ("x[(a,)]", 6, "Index 0-7(Variable 0-1 Tuple 2-6(Variable 3-4))"),
]

STATEMENTS = [
    ("1,\n", 4, "Expr 0-2(Tuple 0-2(Int 0-1))"), ("\ra,", 4, "Expr 1-3(Tuple 1-3(Variable 1-2))"), ("# é\na,", 4, "Expr 5-7(Tuple 5-7(Variable 5-6))"),
    # return t
    ("return 1,", 4, "Return 0-9(Tuple 7-9(Int 7-8))"), ("return 1 ,\n", 4, "Return 0-10(Tuple 7-10(Int 7-8))"), ("return (a),", 4, "Return 0-11(Tuple 7-11(Variable 7-10))"),
    ("return (a,),", 5, "Return 0-12(Tuple 7-12(Tuple 7-11(Variable 8-9)))"), ("return ((a,),)", 5, "Return 0-14(Tuple 7-14(Tuple 8-12(Variable 9-10)))"),
    ("return lambda: a,", 5, "Return 0-17(Tuple 7-17(Lambda 7-16(Variable 15-16)))"), ("return not a,", 5, "Return 0-13(Tuple 7-13(Unary 7-12(Variable 11-12)))"),
    ("return a, b,", 5, "Return 0-12(Tuple 7-12(Variable 7-8 Variable 10-11))"), ("return a", 3, "Return 0-8(Variable 7-8)"),
    # t = t: "An Assign target takes the statement's span."
    ("a, = b", 5, "Assign 0-6(Tuple 0-6(Variable 0-1) Variable 5-6)"), ("a, = b,", 6, "Assign 0-7(Tuple 0-7(Variable 0-1) Tuple 5-7(Variable 5-6))"),
    ("a = b,", 5, "Assign 0-6(Variable 0-6 Tuple 4-6(Variable 4-5))"), ("a,=b,", 6, "Assign 0-5(Tuple 0-5(Variable 0-1) Tuple 3-5(Variable 3-4))"),
    ("a , = b ,", 6, "Assign 0-9(Tuple 0-9(Variable 0-1) Tuple 6-9(Variable 6-7))"), ("a, b, = c,", 7, "Assign 0-10(Tuple 0-10(Variable 0-1 Variable 3-4) Tuple 8-10(Variable 8-9))"),
    ("a, b = c,", 7, "Assign 0-9(Tuple 0-9(Variable 0-1 Variable 3-4) Tuple 7-9(Variable 7-8))"), ("a, = b, c", 7, "Assign 0-9(Tuple 0-9(Variable 0-1) Tuple 5-9(Variable 5-6 Variable 8-9))"),
    ("(a,) = b", 5, "Assign 0-8(Tuple 0-8(Variable 1-2) Variable 7-8)"), ("(a,), = b", 6, "Assign 0-9(Tuple 0-9(Tuple 0-4(Variable 1-2)) Variable 8-9)"),
    ("((a,),) = b", 6, "Assign 0-11(Tuple 0-11(Tuple 1-5(Variable 2-3)) Variable 10-11)"), ("(a), = b", 5, "Assign 0-8(Tuple 0-8(Variable 0-3) Variable 7-8)"),
    ("(a) = b", 4, "Assign 0-7(Variable 0-7 Variable 6-7)"), ("a = (b,),", 6, "Assign 0-9(Variable 0-9 Tuple 4-9(Tuple 4-8(Variable 5-6)))"),
    ("a = (b),", 5, "Assign 0-8(Variable 0-8 Tuple 4-8(Variable 4-7))"), ("a = ((b,),)", 6, "Assign 0-11(Variable 0-11 Tuple 4-11(Tuple 5-9(Variable 6-7)))"),
    ("a = lambda: b,", 6, "Assign 0-14(Variable 0-14 Tuple 4-14(Lambda 4-13(Variable 12-13)))"), ("a = -1,", 5, "Assign 0-7(Variable 0-7 Tuple 4-7(Int 4-6))"),
    ("a.b, = c", 6, "Assign 0-8(Tuple 0-8(Attribute 0-3(Variable 0-1)) Variable 7-8)"), ("a[b], = c", 7, "Assign 0-9(Tuple 0-9(Index 0-4(Variable 0-1 Variable 2-3)) Variable 8-9)"),
    ("[a,], = b", 6, "Assign 0-9(Tuple 0-9(List 0-4(Variable 1-2)) Variable 8-9)"), ("f(), = a", 6, "Assign 0-8(Tuple 0-8(Call 0-3(Variable 0-1)) Variable 7-8)"),
    ("1.5, = a", 5, "Assign 0-8(Tuple 0-8(Float 0-3) Variable 7-8)"), ("(1.5), = a", 5, "Assign 0-10(Tuple 0-10(Float 0-5) Variable 9-10)"),
    ("lambda: a, = b", 6, "Assign 0-14(Tuple 0-14(Lambda 0-9(Variable 8-9)) Variable 13-14)"), ("()), = a", 5, "Assign 0-8(Tuple 0-8(Tuple 0-3) Variable 7-8)"),
    ("not a, = - b,", 8, "Assign 0-13(Tuple 0-13(Unary 0-5(Variable 4-5)) Tuple 9-13(Unary 9-12(Variable 11-12)))"),
    ("a < b < c, = d", 10, "Assign 0-14(Tuple 0-14(Binary 0-9(Binary 0-5(Variable 0-1 Variable 4-5) Binary 4-9(Variable 4-5 Variable 8-9))) Variable 13-14)"),
    ("é, = 한,", 6, "Assign 0-10(Tuple 0-10(Variable 0-2) Tuple 6-10(Variable 6-9))"), ("'x', = 'y',\n", 6, "Assign 0-11(Tuple 0-11(String 0-3) Tuple 7-11(String 7-10))"),
    # several in a line, several lines, blank and comment lines, carriage returns
    ("a,; b,", 7, "Expr 0-2(Tuple 0-2(Variable 0-1)) Expr 4-6(Tuple 4-6(Variable 4-5))"), ("a,;", 4, "Expr 0-2(Tuple 0-2(Variable 0-1))"),
    ("pass; a, = b,; return c,;", 10, "Pass 0-4 Assign 6-13(Tuple 6-13(Variable 6-7) Tuple 11-13(Variable 11-12)) Return 15-24(Tuple 22-24(Variable 22-23))"),
    ("a,\nb,\n", 7, "Expr 0-2(Tuple 0-2(Variable 0-1)) Expr 3-5(Tuple 3-5(Variable 3-4))"), ("\n#c\na , # d\n\n", 4, "Expr 4-7(Tuple 4-7(Variable 4-5))"),
    ("a,\r\nb, = c,\r\n", 9, "Expr 0-2(Tuple 0-2(Variable 0-1)) Assign 4-11(Tuple 4-11(Variable 4-5) Tuple 9-11(Variable 9-10))"),
    # in bodies, behind the colon and on lines of their own
    ("if a: b,", 6, "If 0-8(Variable 3-4 Expr 6-8(Tuple 6-8(Variable 6-7)))"), ("if a:\n  b,\n", 6, "If 0-11(Variable 3-4 Expr 8-10(Tuple 8-10(Variable 8-9)))"),
    ("if a: b,\nelif c: d, = e,\nelse: return f,\n", 17,
     "If 0-41(Variable 3-4 Expr 6-8(Tuple 6-8(Variable 6-7)) Elif 9-25(Variable 14-15 Assign 17-24(Tuple 17-24(Variable 17-18) Tuple 22-24(Variable 22-23)))"
     " Else 25-41(Return 31-40(Tuple 38-40(Variable 38-39))))"),
    ("while a:\n  b, = c,\n  d,\ne,", 14,
     "While 0-24(Variable 6-7 Assign 11-18(Tuple 11-18(Variable 11-12) Tuple 16-18(Variable 16-17)) Expr 21-23(Tuple 21-23(Variable 21-22))) Expr 24-26(Tuple 24-26(Variable 24-25))"),
    ("for a in b: c,", 6, "For 0-14(Variable 9-10 Expr 12-14(Tuple 12-14(Variable 12-13)))"), ("def f(a,): return a,", 6, "Def 0-20(Name 6-7 Return 11-20(Tuple 18-20(Variable 18-19)))"),
    ("class A:\n  def f(): a,\n", 6, "Class 0-23(Method 11-23(Expr 20-22(Tuple 20-22(Variable 20-21))))"),
]

# Number and place.
REFUSED = [
    # a second trailing comma, and a comma with nothing before it
    ("1,,", 14, 2), ("a, ,", 14, 3), (",", 14, 0), (", a", 14, 0), ("(a,),,", 14, 5), ("a, b,,", 14, 5), ("return ,", 14, 7), ("return a,,", 14, 9), ("a = ,", 14, 4), ("a = b,,", 14, 6),
    ("a,, = b", 14, 2), ("a, b,, = c", 14, 5), ("a,;,", 14, 3), ("a,\n,", 14, 3), ("if a: b,,", 14, 8), ("if a:\n  b,,\n", 14, 10), ("pass,", 14, 4), ("not,", 14, 3), ("a +,", 14, 3),
    ("lambda:,", 14, 7), ("lambda,", 14, 6), ("a.,", 14, 2),
    # behind the comma
    ("a, =", 15, 4), ("a, = ", 15, 5), ("a, =\n", 16, 4), ("a, = b, = c", 14, 8), ("a, == b", 14, 3), ("a, or b", 14, 3), ("a, .b", 14, 3), ("a,)", 14, 2), ("a,:", 14, 2), ("a, (b", 15, 5),
    ("a, b c", 14, 5), ("a, = if", 14, 5), ("a,\n  b", 14, 3), ("if a:\n  b,", 14, 10), ("\ra  ,", 14, 2), ("\ra ,", 7, 2), ("a, $", 9, 3), ("a, 1.0e24", 11, 3),
    # where an E stands, and not a t: as before
    ("x[a,]", 14, 3), ("for a, in b: c", 14, 5), ("for a in b,: c", 14, 10), ("if a,: b", 14, 4), ("if a: b\nelif c,: d", 14, 14), ("while a,: b", 14, 7), ("(a = b,)", 14, 3),
    # lists: "one trailing, none alone"
    ("f(a,,)", 14, 4), ("f(,)", 14, 2), ("[a,,]", 14, 3), ("{a,,}", 14, 3), ("{a: b,,}", 14, 6), ("(a,,)", 14, 3), ("(,)", 14, 1), ("lambda a,,: a", 14, 9), ("def f(a,,): b", 14, 8),
    # the E before the comma is the 65th
    ("(" * 64 + "a" + ")" * 64 + ",", 13, 64),
]

# Of 65,536 bytes, as rows of pieces; T and N. The most nodes that a long script has for its tokens are a chain's, 3 for 2, as in the first; a comma brings one for one.
LONGEST = [
    ([(b"a<", 32767), (b"a,", 1)], 65536, 98304), ([(b"a<b<c,;", 9362), (b"\n\n", 1)], 65536, 74897), ([(b"a,;", 21845), (b"\n", 1)], 65536, 65536),
    ([(b"a,\n", 21845), (b"\n", 1)], 65536, 65536), ([(b"a,=a,;", 10922), (b"a,;\n", 1)], 65536, 54614), ([(b"a", 1), (b" ", 65534), (b",", 1)], 2, 4),
]

# The most nodes of an accepted list of so many tokens, from 1 on, without such a comma (`a`, `-a`, `a<b`, `- - -a`, `a<b<c`, `-a<b<c`), and with one (none of one token, `a,`,
# `-a,`, `- -a,`, `-a<b,`, `a<b<c,`). 2T + 1 is 3, 5, 7, 9, 11, 13.
MOST_NODES = {False: [3, 4, 5, 6, 8, 9], True: [0, 4, 5, 6, 7, 9]}


def sources(listed):
    return [case[0].encode() for case in listed]
