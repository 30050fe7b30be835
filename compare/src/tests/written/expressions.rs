//! Operators, chains, postfix parts, lists, literals, in each place where they stand.

use super::becomes;

/// An expression or a t with this text on its line, and alike in an assignment, a return and a body.
fn line(src: &str, text: &str) {
    becomes(src, &format!("{text}\n"));
    becomes(&format!("x={src}"), &format!("x = {text}\n"));
    becomes(&format!("{src} =x;"), &format!("{text} = x\n"));
    becomes(&format!("return({src})"), &format!("return {text}\n"));
    becomes(&format!("if a: b; {src}"), &format!("if a:\n  b\n  {text}\n"));
}

/// An expression in each place where E stands.
fn e(src: &str, text: &str) {
    line(src, text);
    let members = format!("{text}, a, {text}");
    becomes(&format!("[({src}),a,{src},]"), &format!("[{members}]\n"));
    becomes(&format!("{{({src}),a,({src})}}"), &format!("{{{members}}}\n"));
    becomes(&format!("t{{{src},a,{src}}}"), &format!("t{{{members}}}\n"));
    becomes(&format!("f({src} ,a, {src},)"), &format!("f({members})\n"));
    becomes(&format!("((({src}),a,{src}))"), &format!("{members}\n"));
    becomes(&format!("{{({src}):{src}}}"), &format!("{{{text}: {text}}}\n"));
    becomes(&format!("f[{src}]"), &format!("f[{text}]\n"));
    becomes(&format!("lambda:{src}"), &format!("lambda: {text}\n"));
    becomes(&format!("if {src}:a\nelif({src}):b"), &format!("if {text}:\n  a\nelif {text}:\n  b\n"));
    becomes(&format!("while({src}):a"), &format!("while {text}:\n  a\n"));
    becomes(&format!("for a in({src}):a"), &format!("for a in {text}:\n  a\n"));
}

#[test]
fn operators() {
    let cases = [
        ("a- -1", "a - -1"),
        ("- 1", "- 1"),
        ("-1", "-1"),
        ("- -1", "- -1"),
        ("-(-1)", "- -1"),
        ("-  -a", "- - a"),
        ("+a", "+ a"),
        ("+ 5", "+ 5"),
        ("not a==b", "not a == b"),
        ("not(a==b)", "not (a == b)"),
        ("(not a)==b", "not a == b"),
        ("a==not b", "a == not b"),
        ("a==(not b)", "a == not b"),
        ("not(not a)", "not not a"),
        ("not-+a", "not - + a"),
        ("-(a+b)", "- (a + b)"),
        ("-(a*b)", "- (a * b)"),
        ("(-a)*b", "- a * b"),
        ("a*(-b)", "a * - b"),
        ("(a+b)+c", "a + b + c"),
        ("a+(b+c)", "a + (b + c)"),
        ("a-(b-c)-d", "a - (b - c) - d"),
        ("a+(b*c)", "a + b * c"),
        ("(a+b)*c", "(a + b) * c"),
        ("a*(b+c)", "a * (b + c)"),
        ("(a*b)//c/d%e", "a * b // c / d % e"),
        ("a*(b//c)", "a * (b // c)"),
        ("a%(b%c)", "a % (b % c)"),
        ("(a or b)or c", "a or b or c"),
        ("a or(b or c)", "a or (b or c)"),
        ("a and(b and c)", "a and (b and c)"),
        ("(a and b)or c", "a and b or c"),
        ("a and(b or c)", "a and (b or c)"),
        ("(a or b)and c", "(a or b) and c"),
        ("a or(b and c)", "a or b and c"),
        ("not(a or b)", "not (a or b)"),
        ("(a+b)<(c-d)", "a + b < c - d"),
        ("(a<b)+c", "(a < b) + c"),
        ("a and(b==c)", "a and b == c"),
        ("1- 1", "1 - 1"),
        ("1+ +1", "1 + 1"),
        ("1+ + 1", "1 + + 1"),
    ];
    cases.iter().for_each(|(src, text)| e(src, text));
}

#[test]
fn chains() {
    let cases = [
        ("a<b<c", "a < b < c"),
        ("a==b!=c<d<=f>g>=h", "a == b != c < d <= f > g >= h"),
        ("(a<b)<c", "(a < b) < c"),
        ("a<(b<c)", "a < (b < c)"),
        ("(a<b<c)<d", "(a < b < c) < d"),
        ("a<(b<c<d)", "a < (b < c < d)"),
        ("a<(b<c)<d", "a < (b < c) < d"),
        ("(a<b)<c<d", "(a < b) < c < d"),
        ("a<b<c and d", "a < b < c and d"),
        ("(a<b<c)and d", "a < b < c and d"),
        ("d and(a<b<c)", "d and a < b < c"),
        ("(a<b)and(b<c)", "a < b and b < c"),
        ("a<b and b<c and c<d", "a < b and b < c and c < d"),
        ("a<b<c and c<d", "a < b < c and c < d"),
        ("(a<b<c)and(c<d<f)", "a < b < c and c < d < f"),
        ("a and(b<c<d and d<f)", "a and (b < c < d and d < f)"),
        ("a<b<c or d<f<g", "a < b < c or d < f < g"),
        ("not(a<b<c)", "not (a < b < c)"),
        ("(a<b<c).d", "(a < b < c).d"),
        ("(a<b<c)+d", "(a < b < c) + d"),
        ("a<(b+c)<(d and f)", "a < b + c < (d and f)"),
        ("a<b.c(d)[f]<g", "a < b.c(d)[f] < g"),
        ("a<(b,)<c", "a < (b,) < c"),
    ];
    cases.iter().for_each(|(src, text)| e(src, text));
}

#[test]
fn postfix_parts_and_lambdas() {
    let cases = [
        ("-1 .x", "-1.x"),
        ("1 .e5", "1.e5"),
        ("1.5.e5", "1.5.e5"),
        ("-1()", "-1()"),
        ("(- 1).x", "(- 1).x"),
        ("-a.b", "- a.b"),
        ("(-a).b", "(- a).b"),
        ("(a+b)[c]", "(a + b)[c]"),
        ("(a or b)()", "(a or b)()"),
        ("a .b (c) [d] .f", "a.b(c)[d].f"),
        ("((a).b)(c)", "a.b(c)"),
        ("f(a)(b)()", "f(a)(b)()"),
        ("f((a,b))", "f((a, b))"),
        ("f((a,))", "f((a,))"),
        ("f[(a,b)]", "f[(a, b)]"),
        ("(a,b)[c]", "(a, b)[c]"),
        ("(a,).b", "(a,).b"),
        ("()).b", "()).b"),
        ("())(a)", "())(a)"),
        ("[a][b]", "[a][b]"),
        ("{a:b}[c]", "{a: b}[c]"),
        ("\"s\".a", "\"s\".a"),
        ("(lambda:1)()", "(lambda: 1)()"),
        ("lambda:1()", "lambda: 1()"),
        ("lambda a,b,:c", "lambda a, b: c"),
        ("lambda a:lambda:b", "lambda a: lambda: b"),
        ("lambda:(a,b)", "lambda: (a, b)"),
        ("lambda:(a,)", "lambda: (a,)"),
        ("(lambda:a)or b", "(lambda: a) or b"),
        ("a or(lambda:b)", "a or (lambda: b)"),
        ("not(lambda:a)", "not (lambda: a)"),
        ("a<(lambda:b)<c", "a < (lambda: b) < c"),
        ("lambda:a or b", "lambda: a or b"),
        ("{(lambda:a):lambda:b}", "{lambda: a: lambda: b}"),
        ("[lambda:a,(lambda:b)]", "[lambda: a, lambda: b]"),
    ];
    cases.iter().for_each(|(src, text)| e(src, text));
}

#[test]
fn lists_and_tuples() {
    let cases = [
        ("[]", "[]"),
        ("[a,]", "[a]"),
        ("[ a,b ,c, ]", "[a, b, c]"),
        ("[())]", "[())]"),
        ("[(a,)]", "[(a,)]"),
        ("[(a,b,),c]", "[(a, b), c]"),
        ("{}", "{}"),
        ("{ a:b , c:d , }", "{a: b, c: d}"),
        ("{a,}", "{a}"),
        ("{(a,)}", "{(a,)}"),
        ("{(a,b):(c,)}", "{(a, b): (c,)}"),
        ("t{}", "t{}"),
        ("t {a,b,}", "t{a, b}"),
        ("t", "t"),
        ("())", "())"),
        ("( ) )", "())"),
        ("(()))", "())"),
    ];
    cases.iter().for_each(|(src, text)| e(src, text));
    let bare = [
        ("(a,b)", "a, b"),
        ("(((a,b)))", "a, b"),
        ("(a,)", "a,"),
        ("((a,),)", "(a,),"),
        ("((a,b),)", "(a, b),"),
        ("((a,b),c)", "(a, b), c"),
        ("(()),)", "()),"),
        ("(lambda:1,2)", "lambda: 1, 2"),
        ("(lambda:(1,2),)", "lambda: (1, 2),"),
    ];
    bare.iter().for_each(|(src, text)| line(src, text));
    becomes("1,", "1,\n");
    becomes("a,b,", "a, b\n");
    becomes("lambda:1,2", "lambda: 1, 2\n");
    becomes("x=1,", "x = 1,\n");
    becomes("a,=b,c,", "a, = b, c\n");
    becomes("()),=())", "()), = ())\n");
    becomes("()),()),", "()), ())\n");
    becomes("return a,", "return a,\n");
    becomes("if(a,):b", "if (a,):\n  b\n");
    becomes("while (a,b):c", "while (a, b):\n  c\n");
    becomes("for a in(b,):c", "for a in (b,):\n  c\n");
    becomes("for a in(b,c):d", "for a in (b, c):\n  d\n");
}

#[test]
fn literals() {
    let cases = [
        ("007", "7"),
        ("+5", "5"),
        ("-0", "0"),
        ("+0", "0"),
        ("-007", "-7"),
        ("9223372036854775807", "9223372036854775807"),
        ("-9223372036854775808", "-9223372036854775808"),
        ("4294967296", "4294967296"),
        ("-4294967297", "-4294967297"),
        ("0.10", "0.10"),
        ("00.10E+02", "00.10E+02"),
        ("(1.50)", "1.50"),
        ("- 1.5", "- 1.5"),
        ("None", "None"),
        ("(True)", "True"),
        ("False", "False"),
        ("''", "\"\""),
        ("'a b'", "\"a b\""),
        ("'a\\'b\"\\n\\q'", "\"a'b\\\"\\n\\\\q\""),
        ("'a\nb'", "\"a\\nb\""),
        ("'\t\r'", "\"\\t\\r\""),
        ("'\\t\\r\\\\'", "\"\\t\\r\\\\\""),
        ("'\\\\n'", "\"\\\\n\""),
        ("'\\x41\\0'", "\"\\\\x41\\\\0\""),
        ("\"'\"", "\"'\""),
        ("'#\u{0}\u{7f}'", "\"#\u{0}\u{7f}\""),
        ("'\u{e9}\u{20ac}\u{1f600}'", "\"\u{e9}\u{20ac}\u{1f600}\""),
        ("\u{ac00}.\u{e9}(\u{3b1})", "\u{ac00}.\u{e9}(\u{3b1})"),
    ];
    cases.iter().for_each(|(src, text)| e(src, text));
}
