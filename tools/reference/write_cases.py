r"""Scripts for change 6 of document 02: a source and its standard text.

Each text is by hand from 02's sentences, quoted above the lists; nothing here is taken from a writer. Of the EXPRESSIONS the text is the one line that the source
stands for, without its line feed; each is tried as an expression, behind return and as a target and a value, which all take it alike.
"""

# "parentheses only where the tree needs them"
PARENTHESES = [
    ("(a)", "a"), ("((a))", "a"), ("(1)", "1"), ("(1.50)", "1.50"), ("('s')", '"s"'), ("(None)", "None"), ("([a])", "[a]"), ("(f)(a)", "f(a)"), ("(a).b", "a.b"), ("(a)[b]", "a[b]"),
    # "All group left": none around a left operand of the same rule, some around a right one
    ("(a+b)+c", "a + b + c"), ("a+(b+c)", "a + (b + c)"), ("(a-b)-c", "a - b - c"), ("a-(b-c)", "a - (b - c)"), ("a-(b+c)", "a - (b + c)"), ("(a+b)-c", "a + b - c"),
    ("(a*b)*c", "a * b * c"), ("a*(b*c)", "a * (b * c)"), ("a/(b//c)", "a / (b // c)"), ("(a/b)%c", "a / b % c"), ("a%(b)", "a % b"),
    ("(a and b) and c", "a and b and c"), ("a and (b and c)", "a and (b and c)"), ("(a or b) or c", "a or b or c"), ("a or (b or c)", "a or (b or c)"),
    # a tighter rule within a looser one, and the other way about
    ("(a*b)+(c*d)", "a * b + c * d"), ("(a+b)*(c+d)", "(a + b) * (c + d)"), ("a*(b+c)", "a * (b + c)"), ("(a+b)<(c-d)", "a + b < c - d"), ("a+(b<c)", "a + (b < c)"), ("(a<b)+c", "(a < b) + c"),
    ("(a<b)and(c<d)", "a < b and c < d"), ("(a and b)<c", "(a and b) < c"), ("a<(b or c)", "a < (b or c)"), ("(a and b)or(c and d)", "a and b or c and d"), ("(a or b)and(c or d)", "(a or b) and (c or d)"),
    ("a or(b and c)", "a or b and c"), ("(a or b)and c", "(a or b) and c"), ("a*(b and c)", "a * (b and c)"),
    # signs: "U: any of not - +, then F"
    ("-(a)", "- a"), ("(-a)+b", "- a + b"), ("-(a+b)", "- (a + b)"), ("-(a*b)", "- (a * b)"), ("(-a)*b", "- a * b"), ("a*(-b)", "a * - b"), ("a+(-b)", "a + - b"), ("-(-a)", "- - a"), ("+-+a", "+ - + a"),
    ("not(a)", "not a"), ("not a == b", "not a == b"), ("(not a)==b", "not a == b"), ("not(a==b)", "not (a == b)"), ("a == not b", "a == not b"), ("a==(not b)", "a == not b"), ("not(not a)", "not not a"),
    ("-(not a)", "- not a"), ("not-a", "not - a"), ("(not a)and b", "not a and b"), ("not(a and b)", "not (a and b)"), ("(not a)*b", "not a * b"), ("a*(not b)", "a * not b"),
    ("(-a).b", "(- a).b"), ("-(a.b)", "- a.b"), ("(not a)()", "(not a)()"), ("(-a)[b]", "(- a)[b]"), ("-a[b]", "- a[b]"), ("not f(a)", "not f(a)"),
    # what a postfix part follows is an F
    ("(a+b).c", "(a + b).c"), ("(a<b)()", "(a < b)()"), ("(a or b)[c]", "(a or b)[c]"), ("a.b().c[d](e)", "a.b().c[d](e)"), ("((a.b)())[c]", "a.b()[c]"), ("[a][0]", "[a][0]"), ("{}.a", "{}.a"),
    ("'s'.a", '"s".a'), ("None()", "None()"), ("(a, b)[0]", "(a, b)[0]"), ("t{a}.b", "t{a}.b"),
    # "E: lambda names : E, or O": bare where an E stands, else not
    ("lambda:1", "lambda: 1"), ("(lambda:1)", "lambda: 1"), ("(lambda: 1)()", "(lambda: 1)()"), ("(lambda:a)+b", "(lambda: a) + b"), ("a+(lambda:b)", "a + (lambda: b)"), ("a or(lambda:b)", "a or (lambda: b)"),
    ("-(lambda:a)", "- (lambda: a)"), ("not(lambda:a)", "not (lambda: a)"), ("a<(lambda:b)<c", "a < (lambda: b) < c"), ("(lambda:a).b", "(lambda: a).b"), ("lambda:(lambda:a)", "lambda: lambda: a"),
    ("lambda:(a or b)", "lambda: a or b"), ("[(lambda:a)]", "[lambda: a]"), ("f((lambda:a),b)", "f(lambda: a, b)"), ("x[(lambda:a)]", "x[lambda: a]"), ("{(lambda:a):(lambda:b)}", "{lambda: a: lambda: b}"),
    ("{(lambda:a)}", "{lambda: a}"), ("t{(lambda: a)}", "t{lambda: a}"), ("lambda:(a,b)", "lambda: (a, b)"),
]

# "a shared middle as a chain"
CHAINS = [
    ("a<b", "a < b"), ("a<b<c", "a < b < c"), ("a<b<=c>d", "a < b <= c > d"), ("a==b!=c>=d<e", "a == b != c >= d < e"), ("(a<b<c)", "a < b < c"),
    # the same words with no middle shared
    ("a<b and b<c", "a < b and b < c"), ("(a<b)and(b<c)", "a < b and b < c"), ("(a<b)<c", "(a < b) < c"), ("a<(b<c)", "a < (b < c)"), ("(a<b)<(c<d)", "(a < b) < (c < d)"),
    ("(a<b)<c<d", "(a < b) < c < d"), ("a<(b<c)<d", "a < (b < c) < d"), ("a<b<(c<d)", "a < b < (c < d)"), ("(a<b<c)<d", "(a < b < c) < d"), ("a<(b<c<d)<e", "a < (b < c < d) < e"),
    ("(a<b<c)<d<e", "(a < b < c) < d < e"),
    # a chain is read by C, as one comparison is
    ("a<b<c and d", "a < b < c and d"), ("(a<b<c)and d", "a < b < c and d"), ("a and(b<c<d)", "a and b < c < d"), ("a<b<c and d<e<f", "a < b < c and d < e < f"), ("a<b<c or d", "a < b < c or d"),
    ("a<b and c<d<e", "a < b and c < d < e"), ("a<b<c and c<d", "a < b < c and c < d"), ("a and b<c and c<d", "a and b < c and c < d"), ("(a<b and c)<d", "(a < b and c) < d"),
    ("a and(b and c<d<e)", "a and (b and c < d < e)"), ("not(a<b<c)", "not (a < b < c)"), ("-(a<b<c)", "- (a < b < c)"), ("(a<b<c)+d", "(a < b < c) + d"), ("(a<b<c).d", "(a < b < c).d"), ("(a<b<c)()", "(a < b < c)()"),
    # "each term S"
    ("a+b<c*d<-e", "a + b < c * d < - e"), ("(a and b)<(c or d)<(not e)", "(a and b) < (c or d) < not e"), ("not a<not b<not c", "not a < not b < not c"), ("a<f(b)<c.d", "a < f(b) < c.d"), ("a<())<c", "a < ()) < c"),
    ("a<(b,)<c", "a < (b,) < c"), ("a<(b)<c", "a < b < c"), ("1<2.50<3", "1 < 2.50 < 3"), ("'a'<'b'<'c'", '"a" < "b" < "c"'), ("a<-1<b", "a < -1 < b"),
]

# "a space around binary operators and after unary ones", "Floats use their kept spelling, Ints the shortest digits with a minus where negative"
NUMBERS = [
    ("a+b", "a + b"), ("a\t-\tb", "a - b"), ("a*b//c/d%e", "a * b // c / d % e"), ("a==b", "a == b"), ("a!=b", "a != b"), ("a<=b", "a <= b"), ("a>b", "a > b"), ("a>=b", "a >= b"),
    ("a  and   b", "a and b"), ("(a)or(b)", "a or b"), ("-a", "- a"), ("+a", "+ a"), ("not  a", "not a"), ("--a", "- - a"), ("not not-+a", "not not - + a"),
    ("1", "1"), ("007", "7"), ("+5", "5"), ("-5", "-5"), ("-007", "-7"), ("0", "0"), ("000", "0"), ("-0", "0"), ("+00", "0"), ("- 1", "- 1"), ("+ 1", "+ 1"), ("- -1", "- -1"), ("--1", "- -1"), ("+ +1", "+ 1"),
    ("not 1", "not 1"), ("not-1", "not -1"), ("9223372036854775807", "9223372036854775807"), ("-9223372036854775808", "-9223372036854775808"), ("-4294967296", "-4294967296"), ("4294967295", "4294967295"),
    ("2147483648", "2147483648"), ("a - -1", "a - -1"), ("a - +1", "a - 1"), ("a + -1", "a + -1"), ("a - - 1", "a - - 1"), ("-1 - 1", "-1 - 1"), ("a*-1", "a * -1"), ("(-1)*a", "-1 * a"),
    ("-1 .x", "-1.x"), ("-1.x", "-1.x"), ("(-1).x", "-1.x"), ("- 1 .x", "- 1.x"), ("(- 1).x", "(- 1).x"), ("1.e5", "1.e5"), ("1 . e5", "1.e5"), ("(1).e5", "1.e5"), ("1 ()", "1()"), ("-1[0]", "-1[0]"), ("+1 [a]", "1[a]"),
    ("1.5", "1.5"), ("0.10", "0.10"), ("00.100", "00.100"), ("1.0E+05", "1.0E+05"), ("2.5e-3", "2.5e-3"), ("(0.0)", "0.0"), ("( ( 1.50 ) )", "1.50"), ("- 1.5", "- 1.5"), ("1.5 .e5", "1.5.e5"), ("(1.5).x", "1.5.x"),
    ("[1.50,(1.5)]", "[1.50, 1.5]"), ("1.50<(2.0)<3.00", "1.50 < 2.0 < 3.00"), ("True", "True"), ("False", "False"), ("None", "None"), ("e5", "e5"),
]

# "list members parted by comma and space", "a space .. after the colon of a pair or lambda", "a trailing comma only in a tuple of one", "the empty tuple as `())`", "no other blank"
LISTS = [
    ("[]", "[]"), ("[ ]", "[]"), ("[a]", "[a]"), ("[a,]", "[a]"), ("[a,b]", "[a, b]"), ("[ a , b , ]", "[a, b]"), ("[[a],[]]", "[[a], []]"), ("[(a)]", "[a]"), ("[(a),(b)]", "[a, b]"),
    ("f()", "f()"), ("f ( )", "f()"), ("f(a,)", "f(a)"), ("f(a,b)", "f(a, b)"), ("f (a)(b)", "f(a)(b)"), ("a . b", "a.b"), ("a [ b ]", "a[b]"), ("a[(b)]", "a[b]"),
    ("{}", "{}"), ("{ }", "{}"), ("{a}", "{a}"), ("{a,}", "{a}"), ("{a,b}", "{a, b}"), ("{a:b}", "{a: b}"), ("{a:b,}", "{a: b}"), ("{a : b , c : d}", "{a: b, c: d}"), ("{(a):(b)}", "{a: b}"), ("{a or b:c<d}", "{a or b: c < d}"),
    ("{{}:{}}", "{{}: {}}"), ("{{a}}", "{{a}}"), ("t{}", "t{}"), ("t { }", "t{}"), ("t{a,}", "t{a}"), ("t {a,b}", "t{a, b}"), ("t", "t"), ("t()", "t()"), ("t[{}]", "t[{}]"),
    ("lambda a:a", "lambda a: a"), ("lambda a,:a", "lambda a: a"), ("lambda a,b:a", "lambda a, b: a"), ("lambda :a", "lambda: a"), ("lambda  a , b : - a", "lambda a, b: - a"), ("lambda:lambda a:a", "lambda: lambda a: a"),
    ("lambda a:{a:a}", "lambda a: {a: a}"), ("lambda:[]", "lambda: []"), ("lambda:())", "lambda: ())"),
    # tuples, none of which is a whole statement's
    ("())", "())"), ("( ) )", "())"), ("(()))", "())"), ("[())]", "[())]"), ("[()),())]", "[()), ())]"), ("f(()))", "f(()))"), ("x[())]", "x[())]"), ("()).a", "()).a"), ("())()", "())()"), ("- ())", "- ())"), ("())+())", "()) + ())"),
    ("{())}", "{())}"), ("{()):())}", "{()): ())}"), ("[(a,)]", "[(a,)]"), ("[(a,b)]", "[(a, b)]"), ("[(a,b,)]", "[(a, b)]"), ("f((a,))", "f((a,))"), ("f((a,b),c)", "f((a, b), c)"), ("x[(a,)]", "x[(a,)]"), ("x[(a,b)]", "x[(a, b)]"),
    ("{(a,)}", "{(a,)}"), ("{(a,b):(c,)}", "{(a, b): (c,)}"), ("t{(a,)}", "t{(a,)}"), ("(a,)+b", "(a,) + b"), ("a+(b,)", "a + (b,)"), ("-(a,)", "- (a,)"), ("not(a,b)", "not (a, b)"), ("(a,).b", "(a,).b"), ("(a,b)()", "(a, b)()"),
    ("[((a,),)]", "[((a,),)]"), ("[((a,b),)]", "[((a, b),)]"), ("[((a),)]", "[(a,)]"), ("[(()),)]", "[(()),)]"), ("[(()),a)]", "[(()), a)]"), ("lambda:(a,)", "lambda: (a,)"), ("[(lambda:a,b)]", "[(lambda: a, b)]"),
]

# "non-empty tuples of a whole statement bare"
TUPLES = [
    ("a,", "a,"), ("(a,)", "a,"), ("((a,))", "a,"), ("a,b", "a, b"), ("a,b,", "a, b"), ("(a,b)", "a, b"), ("(a,b,)", "a, b"), ("((a,b))", "a, b"), ("1,", "1,"), ("(a),", "a,"), ("((a),)", "a,"), ("(a),(b)", "a, b"),
    ("((a,),)", "(a,),"), ("(a,),", "(a,),"), ("((a,),),", "((a,),),"), ("(a,b),", "(a, b),"), ("(a,),b", "(a,), b"), ("a,(b,)", "a, (b,)"), ("((a,b),(c,d))", "(a, b), (c, d)"), ("()),", "()),"), ("()),())", "()), ())"),
    ("(()),)", "()),"), ("a,())", "a, ())"), ("lambda:1,2", "lambda: 1, 2"), ("(lambda:1,2)", "lambda: 1, 2"), ("(lambda:1),", "lambda: 1,"), ("lambda:(1,2)", "lambda: (1, 2)"), ("lambda:(1,2),3", "lambda: (1, 2), 3"),
    ("a or b,not c", "a or b, not c"), ("a<b<c,d", "a < b < c, d"), ("-1,- 1,+1", "-1, - 1, 1"), ("[a,],", "[a],"), ("'a','b'", '"a", "b"'),
]

# "Strings stand in double quotes, with backslash, double quote, line feed, tab and carriage return escaped.": all else as it is.
STRINGS = [
    (r"''", r'""'), (r'""', r'""'), (r"'a'", r'"a"'), (r'"a"', r'"a"'), (r"'it\'s'", r'''"it's"'''), (r'"it' + "'" + 's"', r'''"it's"'''), (r"'a" + '"' + "b'", r'"a\"b"'), (r'"a\"b"', r'"a\"b"'),
    (r"'\\'", r'"\\"'), (r"'\q'", r'"\\q"'), (r"'\0'", r'"\\0"'), (r"'\x41'", r'"\\x41"'), (r"'\n\t\r'", r'"\n\t\r"'), ("'\n'", r'"\n"'), ("'\t'", r'"\t"'), ("'\r'", r'"\r"'), ("'a\n  b'", r'"a\n  b"'), ("'\r\n'", r'"\r\n"'),
    (r"'\\n'", r'"\\n"'), (r"'\\\n'", r'"\\\n"'), (r"'\\\\'", r'"\\\\"'), (r"'\\\''", r'''"\\'"'''), (r"'a\'b" + '"' + r"\n\q'", r'''"a'b\"\n\\q"'''), ("'#'", '"#"'), ("'  '", '"  "'), ("'\x00\x01\x7f'", '"\x00\x01\x7f"'), ("'\x0b\x0c'", '"\x0b\x0c"'),
    ("'é'", '"é"'), ("'한국'", '"한국"'), ("'\\é'", '"\\\\é"'), ("'\U0001f642\u2028\ufeff'", '"\U0001f642\u2028\ufeff"'), ("'a'<'b'", '"a" < "b"'), ("['','x',\"\"]", '["", "x", ""]'), ("f('a')['b'].c", 'f("a")["b"].c'),
    ("é", "é"), ("한국.α(ℊ,x·1)", "한국.α(ℊ, x·1)"), ("e\u0301+\ufb01", "e\u0301 + \ufb01"),
]

# The whole of a script, statement by statement.
STATEMENTS = [
    # "one statement a line, each line ended by a line feed"; nothing of blank lines, comments and blanks stays
    ("", ""), ("\n", ""), ("\n\n\r\n", ""), ("# c", ""), ("  # c\n \n#", ""), ("a", "a\n"), ("a\n", "a\n"), ("a\n\n\n", "a\n"), ("\n\na # c\n#d\n", "a\n"), ("a;b", "a\nb\n"), ("a;b;", "a\nb\n"), ("a ; b ;c\nd", "a\nb\nc\nd\n"),
    ("\ra", "a\n"), ("a\r\nb\r\n", "a\nb\n"), ("a\n\n# x\n\nb", "a\nb\n"), ("pass", "pass\n"), ("break;continue;pass;", "break\ncontinue\npass\n"),
    # "a space around =", "one space after .. return"
    ("a=b", "a = b\n"), ("a  =  b", "a = b\n"), ("a=b;c=d", "a = b\nc = d\n"), ("x=1,", "x = 1,\n"), ("x=(1,)", "x = 1,\n"), ("(x)=(1)", "x = 1\n"), ("(a,b)=(c,d)", "a, b = c, d\n"), ("a,=b,", "a, = b,\n"), ("(a,)=b", "a, = b\n"),
    ("x=())", "x = ())\n"), ("())=x", "()) = x\n"), ("(x,()))=1", "x, ()) = 1\n"), ("[a,b]=c", "[a, b] = c\n"), ("a.b=c[d]", "a.b = c[d]\n"), ("f()=1", "f() = 1\n"), ("lambda:a=b", "lambda: a = b\n"), ("a<b<c=d", "a < b < c = d\n"),
    ("-1=- 1", "-1 = - 1\n"), ("(a==b)=(c==d)", "a == b = c == d\n"), ("return a", "return a\n"), ("return(a)", "return a\n"), ("return(a,)", "return a,\n"), ("return(a,b)", "return a, b\n"), ("return())", "return ())\n"),
    ("return[a]", "return [a]\n"), ("return-1", "return -1\n"), ("return - 1", "return - 1\n"), ("return lambda:a", "return lambda: a\n"), ("return'a'", 'return "a"\n'), ("return((a,),)", "return (a,),\n"), ("return not a", "return not a\n"),
    ("x = 'a\\'b\"\\n\\q'", 'x = "a\'b\\"\\n\\\\q"\n'),
    # "two-space blocks", "one space after if, elif, while, for, in, .. def, class .. unless a colon follows, one before in"
    ("if a:b", "if a:\n  b\n"), ("if a:b;c", "if a:\n  b\n  c\n"), ("if a:\n  b\n", "if a:\n  b\n"), ("if a:\n\n#c\n  b\n\n\n  c\n", "if a:\n  b\n  c\n"), ("if(a):b", "if a:\n  b\n"), ("if  a  :  b", "if a:\n  b\n"), ("if(a,b):c", "if (a, b):\n  c\n"),
    ("if(a,):b", "if (a,):\n  b\n"), ("if()):a", "if ()):\n  a\n"), ("if[a]:b", "if [a]:\n  b\n"), ("if lambda:a:b", "if lambda: a:\n  b\n"), ("if(lambda:a):b", "if lambda: a:\n  b\n"), ("if not a:b", "if not a:\n  b\n"), ("if-1:b", "if -1:\n  b\n"),
    ("if{a:b}:c", "if {a: b}:\n  c\n"), ("if a:b\nelif c:d\nelif e:f\nelse:g\n", "if a:\n  b\nelif c:\n  d\nelif e:\n  f\nelse:\n  g\n"), ("if a:b\nelse  :  c", "if a:\n  b\nelse:\n  c\n"), ("if a:b\nelif(c):d", "if a:\n  b\nelif c:\n  d\n"),
    ("if a:\n  b\n\nelse:\n  c\n", "if a:\n  b\nelse:\n  c\n"), ("if a:b\nelif(c,):d", "if a:\n  b\nelif (c,):\n  d\n"), ("if a:\n  if b:c\n  else:d\nelse:e\n", "if a:\n  if b:\n    c\n  else:\n    d\nelse:\n  e\n"),
    ("if a:\n  if b:c\nelse:d\n", "if a:\n  if b:\n    c\nelse:\n  d\n"), ("if a:b\nif c:d", "if a:\n  b\nif c:\n  d\n"), ("if a: x=1,;return(b,c)", "if a:\n  x = 1,\n  return b, c\n"),
    ("while a:b", "while a:\n  b\n"), ("while(a):\n  b;c\n", "while a:\n  b\n  c\n"), ("while a<b<c:pass", "while a < b < c:\n  pass\n"), ("while(a,b):break", "while (a, b):\n  break\n"),
    ("for a in b:c", "for a in b:\n  c\n"), ("for a in(b):c", "for a in b:\n  c\n"), ("for  a  in  b : c", "for a in b:\n  c\n"), ("for a in(b,c):d", "for a in (b, c):\n  d\n"), ("for a in[b]:c", "for a in [b]:\n  c\n"),
    ("for t in{a}:b", "for t in {a}:\n  b\n"), ("for a in lambda:b:c", "for a in lambda: b:\n  c\n"), ("for a in-1:b", "for a in -1:\n  b\n"), ("for é in 한:a", "for é in 한:\n  a\n"),
    ("def f():a", "def f():\n  a\n"), ("def f ( ) : a", "def f():\n  a\n"), ("def f(a,b,):return a", "def f(a, b):\n  return a\n"), ("def f(a):\n  b\n  def g():c\n  d\n", "def f(a):\n  b\n  def g():\n    c\n  d\n"),
    ("def é(한,x·1):α", "def é(한, x·1):\n  α\n"), ("class A:\n  def f():a\n", "class A:\n  def f():\n    a\n"), ("class  A :\n\n  def f(a,):a;b\n  def g():\n    c\n", "class A:\n  def f(a):\n    a\n    b\n  def g():\n    c\n"),
    ("class A:\n  def f():\n    a\nb\n", "class A:\n  def f():\n    a\nb\n"), ("if a:\n  class B:\n    def f():c\n", "if a:\n  class B:\n    def f():\n      c\n"),
    ("class A:\n  def f():\n    class B:\n      def g():a\n", "class A:\n  def f():\n    class B:\n      def g():\n        a\n"),
    ("if a:\n  while b:\n    for c in d:\n      def e():f\ng\n", "if a:\n  while b:\n    for c in d:\n      def e():\n        f\ng\n"), ("\rif(a):b", "if a:\n  b\n"), ("if a:\r\n  b\r\nelse:\r\n  c\r\n", "if a:\n  b\nelse:\n  c\n"),
    ("def f():\n  'd'\n  x=0.10\n", 'def f():\n  "d"\n  x = 0.10\n'),
]

# "17 where some block has no statement": "Block, opened at its colon: one or more Newlines, Indent, Lines as in Program, Dedent" (01) with no Line. The scanner gives a Dedent right behind
# an Indent only where the source ends with the spaces, so one block at most, the last, has none.
EMPTY = [
    "if a:\n  ", "if a:\n\n\n  ", "if a: # c\n  ", "if a:\r\n  ", "if a:\n\r\n  ", "if a:\n#c\n   \n  ", "b\nif a:\n  ", "if a:b\nelif c:\n  ", "if a:b\nelif c:d\nelif e:\n  ", "if a:b\nelse:\n  ", "while a:\n  ", "for a in b:\n  ",
    "def f():\n  ", "class A:\n  def f():\n    ", "class A:\n  def f():a\n  def g():\n    ", "if a:\n  if b:\n    ", "if a:\n  b\n  while c:\n    ", "if a:\n  b\nelse:\n  for c in d:\n    ", "def f():\n  def g():\n    def h():\n      ",
    "\rif(a):\n  ", "class A:\n  def f():\n    if a:b\n    else:\n      ",
]
# Such sources by one byte otherwise, which have a statement or are refused by the reader, which leaves the writer's slice: the reader's number.
LIKE_EMPTY = [
    ("if a:\n", 15), ("if a:\n ", 7), ("if a:\n   ", 7), ("if a:\n  #", 15), ("if a:\n  \r", 15), ("if a:\n  \n", 15), ("if a:\n  b\n  ", 0), ("if a:\n  b\n", 0), ("if a:", 15), ("class A:\n  ", 14), ("if a:\n  b\n    ", 14), ("  ", 14), ("a\n  ", 14),
    ("if a:\n  pass\nelse:\n", 15), ("if a:\n\t", 6),
]


def expressions():
    """Those that every place of a t takes alike."""
    return [*PARENTHESES, *CHAINS, *NUMBERS, *LISTS, *TUPLES, *STRINGS]


def scripts():
    """Source and text of each, as bytes."""
    for source, text in expressions():
        yield source.encode(), (text + "\n").encode()
        yield f"return {source}".encode(), f"return {text}\n".encode()
        yield f"{source} = {source};".encode(), f"{text} = {text}\n".encode()
        yield f"if a:\n  pass;{source}\n".encode(), f"if a:\n  pass\n  {text}\n".encode()
    for source, text in STATEMENTS:
        yield source.encode(), text.encode()
