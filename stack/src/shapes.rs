//! The shapes, by sort; the last of a sort is the deepest. `pass` before a statement makes it a further line.

pub type Sort = (&'static str, &'static [&'static str]);

/// Statements with a Block. A Class is no level of its own, the Block of its Method is.
pub const BLOCKS: [Sort; 7] = [
    ("if", &["if |a:\n  $", "if |a:\n  $\nelif a:pass\nelse:\n  pass", "pass\nif |a:\n  $"]),
    (
        "elif",
        &[
            "if |a:pass\nelif a:\n  $",
            "if |a:pass\nelif a:pass\nelif a:\n  $",
            "pass\nif |a:pass\nelif a:pass\nelif a:\n  $\nelse:pass",
        ],
    ),
    (
        "else",
        &[
            "if |a:pass\nelse:\n  $",
            "if |a:pass\nelif a:pass\nelse:\n  $",
            "pass\nif |a:pass\nelif a:pass\nelif a:pass\nelse:\n  $",
        ],
    ),
    ("while", &["while |a:\n  $", "pass\nwhile |a:\n  $"]),
    ("for", &["for a in |a:\n  $", "pass\nfor a in |a:\n  $"]),
    ("def", &["def a()|:\n  $", "def a(a,a)|:\n  $", "pass\ndef a(a)|:\n  $"]),
    (
        "class and method",
        &[
            "class A:\n  def a()|:\n    $",
            "class A:\n  def a()|:\n    $\n  def a():pass",
            "class A:\n  def a()|:pass\n  def a():\n    $",
            "pass\nclass A:\n  def a()|:\n    $",
            "pass\nclass A:\n  def a()|:pass\n  def a():pass\n  def a(a,a):\n    $",
        ],
    ),
];

/// E within E.
pub const BRACKETS: [Sort; 13] = [
    ("parentheses", &["($)"]),
    ("tuples", &["($,)", "($,a)", "(|a,$)", "(|a,a,$)"]),
    ("lists", &["[$]", "[$,]", "[|a,$]", "[|a,a,$]"]),
    ("sets", &["{$}", "{|a,$}", "{|a,a,$}"]),
    ("tree sets", &["t{$}", "t{|a,$}", "t{|a,a,$}"]),
    ("dicts by key", &["{$:a}", "{|a:a,$:a}", "{|a:a,a:a,$:a}"]),
    ("dicts by value", &["{|a:$}", "{|a:a,a:$}", "{|a:a,a:a,a:$,}"]),
    ("arguments", &["a($)", "a.a($)", "a()($)", "a(|a,$)", "a.a[|a](a,a,$)"]),
    ("indices", &["a[$]", "a.a[$]", "a()[$]", "a[|a][$]"]),
    ("lambdas", &["lambda:$", "lambda a:$", "lambda a,a:$"]),
    ("signs", &["-($)", "+ ($)", "not ($)", "-[$]", "not - + not a[$]", "not - + not {|a:a,a:$}"]),
    (
        "operands",
        &[
            "a+($)",
            "a-($)",
            "a*($)",
            "a//($)",
            "a/($)",
            "a%($)",
            "a and ($)",
            "a or ($)",
            "($)+a",
            "a or a and a<a<a+a*-(|a,a,$)",
        ],
    ),
    (
        "comparands",
        &["a==($)", "a!=($)", "a<($)", "a<=($)", "a>($)", "a>=($)", "($)<a", "a<a<($)", "a<a<a<($)", "a<a<a<(|a,a,$)"],
    ),
];

/// Statements with an E, the deepest last.
pub const HOSTS: [&str; 13] = [
    "$",
    "return $",
    "|a=$",
    "$=a",
    "|a,$",
    "|a,a,$",
    "pass;$",
    "if $:pass",
    "if |a:pass\nelif $:pass",
    "if |a:pass\nelif a:pass\nelif $:pass",
    "while $:pass",
    "for a in $:pass",
    "pass\npass;|a=a,a,$",
];

/// Expressions that open no E within.
pub const LEAVES: [&str; 27] = [
    "a",
    "t",
    "역_4.𐐀·",
    "1",
    "-9223372036854775808",
    "1.5",
    "900719925474099.2e-1",
    "''",
    "'a\\n\\t\\r\\\\\\\"\\'\\x'",
    "\"é\n\"",
    "True",
    "None",
    "{}",
    "t{}",
    "[]",
    "())",
    "a()",
    "a.a",
    "a.a()().a",
    "-a",
    "not - + a",
    "a+a*a",
    "a<a",
    "a<a<a<a",
    "a or a",
    "a and a",
    "a or a and a<a<a+a*-'\\n'.a()",
];

/// Statements that open no level.
pub const STATEMENTS: [&str; 5] = ["pass", "break", "continue", "pass;pass;pass;", "pass\npass"];

/// Statements that open one.
pub const STATEMENTS_WITH_ONE: [&str; 10] = [
    "a",
    "return a",
    "return 1.5,a",
    "a=a",
    "a,a=a,a,",
    "a,a,a",
    "a;a=a;a,",
    "def a(a,a):pass",
    "if a:pass\nelif a:break\nelse:pass",
    "class A:\n  def a():pass\n  def a():pass",
];
