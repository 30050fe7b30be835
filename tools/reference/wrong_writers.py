"""Wrong copies of write.py, each by one edit: what is wrong, what is replaced and by what. check_write.py --wrong puts
each in the writer's place, and its checks must find it."""
import os
import types

EDITS = [
    ("no parentheses around a right operand of the same rule", "Rule.S: (Rule.S, Rule.P)", "Rule.S: (Rule.S, Rule.S)"),
    ("nor of a product", "Rule.P: (Rule.P, Rule.U)", "Rule.P: (Rule.P, Rule.P)"),
    ("nor of `and`", "Rule.A: (Rule.A, Rule.C)", "Rule.A: (Rule.A, Rule.A)"),
    ("parentheses around a left operand of the same rule", "Rule.O: (Rule.O, Rule.A)", "Rule.O: (Rule.A, Rule.A)"),
    ("parentheses around every sign in a product", "Rule.P: (Rule.P, Rule.U)", "Rule.P: (Rule.P, Rule.F)"),
    ("a comparison of comparisons without parentheses", "Rule.C: (Rule.S, Rule.S)", "Rule.C: (Rule.C, Rule.S)"),
    ("`not` looser than a comparison", "            return Rule.U\n", "            return Rule.U if operator != 1 else Rule.A\n"),
    ("signs in a row in parentheses", "(self.fitting, q, Rule.U))", "(self.fitting, q, Rule.F))"),
    ("a sign's product bare", "(self.fitting, q, Rule.U))", "(self.fitting, q, Rule.P))"),
    ("a sign before a dot without parentheses", "((self.fitting, p, Rule.F), b\".\"", "((self.fitting, p, Rule.U), b\".\""),
    ("a lambda called without parentheses", "((self.fitting, p, Rule.F), b\"(\"", "((self.bare, p), b\"(\""),
    ("parentheses around every lambda", "return self.fitting, node, Rule.E\n", "return self.fitting, node, Rule.O\n"),
    ("a chain written as an `and`", "        if self.is_chain(node):\n", "        if False:\n"),
    ("a chain of three as an `and` of a chain", "if self.nodes[left][0] == Kind.Binary and self.nodes[left][P] == AND:", "if False:"),
    ("a chain by equal words, not by the shared node", "self.nodes[left][R] == self.nodes[right][Q]",
     "self.nodes[self.nodes[left][R]][0] == self.nodes[self.nodes[right][Q]][0] == Kind.Variable"),
    ("a chain in parentheses beside `and`", "return Rule.C if self.is_chain(node)", "return Rule.A if self.is_chain(node)"),
    ("a chain's last term bare", "(self.fitting, last, Rule.S))", "(self.bare, last))"),
    ("a chain with its first operator twice", "            _, _, _, _, operator, _, last, _ = self.nodes[right]\n",
     "            last = self.nodes[right][R]\n            operator = self.nodes[left][P] if self.is_comparison(left) else self.nodes[right][P]\n"),
    ("tab not escaped", r"""[\\"\n\t\r]""", r"""[\\"\n\r]"""),
    ("carriage return not escaped", r"""[\\"\n\t\r]""", r"""[\\"\n\t]"""),
    ("backslash not escaped", r"""[\\"\n\t\r]""", r"""["\n\t\r]"""),
    ("a single quote escaped", "value) + b'\"'", "value).replace(b\"'\", b\"\\\\'\") + b'\"'"),
    ("a string's place taken in the source", "self.strings[p:p + q]", "self.source[p:p + q]"),
    ("a tuple of one without its comma", "        if self.nodes[first][NEXT] == NONE:\n", "        if False:\n"),
    ("a comma behind every tuple", "        if self.nodes[first][NEXT] == NONE:\n", "        if True:\n"),
    ("the empty tuple as `()`", "        if first == NONE:\n            yield b\")\"\n", "        if first == NONE:\n            yield b\"\"\n"),
    ("a bare tuple in a list", "                yield b\", \"\n            yield self.e(node)", "                yield b\", \"\n            yield self.t, node"),
    ("a bare tuple as a condition", "b\"if \", self.e(p))", "b\"if \", (self.t, p))"),
    ("a bare tuple in an index", "b\"[\", self.e(q), b\"]\")", "b\"[\", (self.t, q), b\"]\")"),
    ("the tuple of a value in parentheses", "(self.t, p), b\" = \", (self.t, q)", "(self.t, p), b\" = \", self.e(q)"),
    ("the tuple of a target in parentheses", "(self.t, p), b\" = \", (self.t, q)", "self.e(p), b\" = \", (self.t, q)"),
    ("a returned tuple in parentheses", "b\"return \", (self.t, p)", "b\"return \", self.e(p)"),
    ("one space too many after lambda", "b\" \" if p != NONE else b\"\"", "b\" \""),
    ("no space after a pair's colon", "self.e(p), b\": \", self.e(q)", "self.e(p), b\":\", self.e(q)"),
    ("no space after a sign", "UNARY_WORDS[p], b\" \",", "UNARY_WORDS[p], b\" \" if p == 1 else b\"\","),
    ("t and a blank", "(b\"t{\", b\"}\")", "(b\"t {\", b\"}\")"),
    ("a negative Int in parentheses", "        return b\"None\"\n", "        return b\"None\"\n\n    rule_of_all = rule\n\n    def rule(self, node):\n        negative = self.nodes[node][0] == Kind.Int and self.nodes[node][Q] >= 2**31\n"
     "        return Rule.U if negative else self.rule_of_all(node)\n"),
    ("an Int of 64 bits with no sign", " - 2**64 * (q >= 2**31)", ""),
    ("an Int as it was spelt", "return b\"%d\" % (p + 2**32 * q - 2**64 * (q >= 2**31))", "return self.source[self.nodes[node][1]:self.nodes[node][2]].strip(b\"() \")"),
    ("a Float by its value", "return self.source[r:s]", "return b\"%r\" % float(self.source[r:s])"),
    ("a Float by its node's span", "return self.source[r:s]", "return self.source[self.nodes[node][1]:self.nodes[node][2]]"),
    ("four-space blocks", "yield b\"  \" * level", "yield b\"    \" * level"),
    ("one statement behind its colon", "        yield from self.line(level, *head, b\":\")\n", "        yield b\"  \" * level\n        yield from (*head, b\":\\n\" if level < 3 else b\": \\n\")\n"),
    ("elif as an if in else", "level, q, b\"elif \", self.e(p)", "level, q, b\"else if \", self.e(p)"),
    ("else at the level of its body", "            yield self.statements, s, level\n", "            yield self.statements, s, level + 1\n"),
    ("a blank line behind a class", "level, r, b\"class \", self.source[p:q])\n", "level, r, b\"class \", self.source[p:q])\n            yield b\"\\n\"\n"),
    ("no last line feed", "return b\"\".join(pieces)", "return b\"\".join(pieces).rstrip(b\"\\n\")"),
    ("a line feed for the empty script", "return b\"\".join(pieces)", "return b\"\".join(pieces) or b\"\\n\""),
    ("18 before 17", "    if any(node[0] in BLOCKS", "    if len(standard_text(source, strings, nodes)) > len(lent):\n        return Written(18, 0, 0)\n    if any(node[0] in BLOCKS"),
    ("no 17 for a method", "          Kind.Method: S}", "          }"),
    ("no 17 for else", "Kind.Else: P, ", ""),
    ("`pass` in an empty block", "        return Written(17, 0, 0)\n", "        lent[:4] = b\"pass\"\n        return Written(0, 0, 4)\n"),
    ("no 18 in a large slice", " or len(text) > LONGEST:", ":"),
    ("18 one byte early", "len(text) > len(lent) or", "len(text) >= len(lent) or"),
    ("18 for 65,536 bytes", "or len(text) > LONGEST", "or len(text) >= LONGEST"),
    ("the slice not zeroed", "    lent[:] = bytes(len(lent))\n", ""),
    ("a length with 18", "return Written(18, 0, 0)", "return Written(18, 0, len(text))"),
    ("the slice zeroed by the reader's refusal", "    if given.number:\n", "    if given.number:\n        lent[:] = bytes(len(lent))\n"),
    ("the tree zeroed by 17", "    return given, write(source, bytes(text_slice[:given.text]), nodes, lent)",
     "    done = write(source, bytes(text_slice[:given.text]), nodes, lent)\n    if done.number == 17:\n        tree_slice[:] = [0] * len(tree_slice)\n    return given, done"),
]


def writers():
    """What is wrong, and a module that is wrong so. Each edit meets its place once."""
    here = os.path.join(os.path.dirname(os.path.abspath(__file__)), "write.py")
    with open(here, encoding="utf8") as file:
        right = file.read()
    for what, old, new in EDITS:
        assert right.count(old) == 1, (what, right.count(old))
        module = types.ModuleType("write")
        exec(compile(right.replace(old, new), what, "exec"), module.__dict__)
        yield what, module
