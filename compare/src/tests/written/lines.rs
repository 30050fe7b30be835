//! Statements, blocks and their lines.

use super::becomes;

#[test]
fn simples() {
    let cases = [
        ("", ""),
        ("\n\n # c\n\r", ""),
        ("a", "a\n"),
        ("a;b;", "a\nb\n"),
        ("\n\na # c\n\n\nb", "a\nb\n"),
        ("a=b", "a = b\n"),
        ("a.b=c[d]", "a.b = c[d]\n"),
        ("(a)=(b)", "a = b\n"),
        ("0.10=1.50", "0.10 = 1.50\n"),
        ("a=b==c", "a = b == c\n"),
        ("a==b=c", "a == b = c\n"),
        ("lambda:a=b", "lambda: a = b\n"),
        ("a=lambda:b", "a = lambda: b\n"),
        ("a=(lambda:b,c)", "a = lambda: b, c\n"),
        ("return(a)", "return a\n"),
        ("return-1", "return -1\n"),
        ("return ())", "return ())\n"),
        ("return lambda:a", "return lambda: a\n"),
        ("break;continue;pass", "break\ncontinue\npass\n"),
        ("\r\na\r\n", "a\n"),
    ];
    cases.iter().for_each(|(src, text)| becomes(src, text));
}

#[test]
fn blocks() {
    let cases = [
        ("if a:b;c", "if a:\n  b\n  c\n"),
        ("if a:\n\n  b\n\n  c;d\n\ne", "if a:\n  b\n  c\n  d\ne\n"),
        ("if a:b\nelse:c", "if a:\n  b\nelse:\n  c\n"),
        ("if a:b\nelif c:d\nelif e:f;g\nelse:h;i\nj", "if a:\n  b\nelif c:\n  d\nelif e:\n  f\n  g\nelse:\n  h\n  i\nj\n"),
        ("if a:\n  if b:c\nelse:d", "if a:\n  if b:\n    c\nelse:\n  d\n"),
        ("if a:\n  if b:c\n  else:d\n", "if a:\n  if b:\n    c\n  else:\n    d\n"),
        ("if a:\n  if b:\n    if c:d\n  else:\n    e\nf", "if a:\n  if b:\n    if c:\n      d\n  else:\n    e\nf\n"),
        ("if(a):pass", "if a:\n  pass\n"),
        ("if(a or b)and c:d", "if (a or b) and c:\n  d\n"),
        ("if-1:a", "if -1:\n  a\n"),
        ("while a :b=c", "while a:\n  b = c\n"),
        ("while not a:\n  while b:break\n  continue\n", "while not a:\n  while b:\n    break\n  continue\n"),
        ("for a in b:c", "for a in b:\n  c\n"),
        ("for a in[b]:\n  for c in-d:e\n", "for a in [b]:\n  for c in - d:\n    e\n"),
        ("for a in lambda:b:c", "for a in lambda: b:\n  c\n"),
        ("def f( ):return a", "def f():\n  return a\n"),
        ("def f(a):pass", "def f(a):\n  pass\n"),
        ("def f (a ,b,c,) :\n  a;b,c\n", "def f(a, b, c):\n  a\n  b, c\n"),
        ("def f():\n  def g():a\n  b\n", "def f():\n  def g():\n    a\n  b\n"),
        ("def \u{ac00}(\u{e9}):\u{e9}", "def \u{ac00}(\u{e9}):\n  \u{e9}\n"),
        ("class A :\n  def f(a):b\n", "class A:\n  def f(a):\n    b\n"),
        ("class A:\n  def f():a\n  def g(b,):\n    c\nd", "class A:\n  def f():\n    a\n  def g(b):\n    c\nd\n"),
        ("if a:\n  class B:\n    def c():d\n  e\n", "if a:\n  class B:\n    def c():\n      d\n  e\n"),
        ("if a:\n  if b:\n    if c:\n      d\ne", "if a:\n  if b:\n    if c:\n      d\ne\n"),
        ("if a: b # c\n# d\ne", "if a:\n  b\ne\n"),
    ];
    cases.iter().for_each(|(src, text)| becomes(src, text));
}

/// As many E and Block inside one another as the reader takes: the text has no more, so it is read as well.
#[test]
fn at_the_depth() {
    // What opens one more, what closes it, and how these are written around an `a`.
    let nests = [
        ("[", "]", "[", "]"),
        ("{", "}", "{", "}"),
        ("t{", "}", "t{", "}"),
        ("f(", ")", "f(", ")"),
        ("f[", "]", "f[", "]"),
        ("{a:", "}", "{a: ", "}"),
        ("[a,", ",]", "[a, ", "]"),
        ("lambda:", "", "lambda: ", ""),
        ("not(a or ", ")", "not (a or ", ")"),
        ("-(a+", ").b", "- (a + ", ").b"),
        ("(", ")", "", ""),
    ];
    for (opener, closer, before, behind) in nests {
        let nested = |times: usize| opener.repeat(times) + "a" + &closer.repeat(times);
        assert!(crate::parse(nested(64).as_bytes()).is_err_and(|answer| answer.number == 13));
        becomes(&nested(63), &(before.repeat(63) + "a" + &behind.repeat(63) + "\n"));
    }
    let tuples = "(".repeat(63) + "a" + &",)".repeat(63);
    becomes(&tuples, &("(".repeat(62) + "a" + &",)".repeat(62) + ",\n"));
    let blocks: String = (0..63).map(|level| " ".repeat(2 * level) + "if a:\n").collect();
    becomes(&(blocks.clone() + &" ".repeat(126) + "a\n"), &(blocks + &" ".repeat(126) + "a\n"));
}
