#!/bin/sh
# Puts wrong copies of the plain reader in the library's place: the driver must find a difference in each.
set -eu
cd "$(dirname "$0")/.."
out=$PWD/target/wrong

build() {
    compare/plain.sh "$out" "$out"
    STATICLIB=$out cargo build --offline --release --quiet --manifest-path compare/Cargo.toml --target-dir "$out/target"
}

# wrong WHAT FILE EDIT: the file as seen from compare/src
wrong() {
    rm -rf "$out/src" "$out/wrong"
    mkdir -p "$out"
    cp -r compare/src compare/wrong "$out"
    sed "$3" "compare/src/$2" > "$out/src/$2"
    if cmp -s "compare/src/$2" "$out/src/$2"; then
        echo "$1: the edit changes nothing"
        exit 1
    fi
    build
    if "$out/target/release/compare" --count 6000000 > "$out/log"; then
        echo "$1: NOT FOUND"
        exit 1
    fi
    printf '%s: %s\n' "$1" "$(grep '^input' "$out/log")"
}

wrong "at most 63 open" descent/mod.rs 's/DEPTH: u32 = 64/DEPTH: u32 = 63/'
wrong "the opening that 13 refuses counted" descent/mod.rs 's/return Err(self.refused(13))/self.openings += 1; return Err(self.refused(13))/'
wrong "not below comparison" descent/expression.rs \
    's/let mut expr = self.f()?;/let mut expr = if matches!(signs.last(), Some((UnaryOp::Not, _))) { self.c()? } else { self.f()? };/'
wrong "the target's own span" descent/statement.rs 's/target.span = self.span_from(start);//'
wrong "a blank line let through before else" descent/statement.rs \
    's/if self.kind() == Kind::Else {/if self.kind() == Kind::Newline \&\& self.tokens[self.at + 1].kind == Kind::Else { self.take(); } &/'
wrong "a carriage return that clears the flag" scan.rs "s/b'.n' | b'.r' | b'#') => return/b'\\\\n' | b'#') => return/"
wrong "a class that ends one character early" classes.rs 's/e01ef/e01ee/'
wrong "the standard library's letters at the head of a name" name.rs 's/within(&BEGIN, c)/c.is_alphabetic()/'
wrong "a name cut at the first character beyond ASCII" name.rs 's/|c| !continues(c)/|c: char| !c.is_ascii() || !continues(c)/'
wrong "9 one byte late at a character beyond ASCII" scan.rs \
    's/Refused { number, place: self.at as u32 }/Refused { number, place: (self.at + usize::from(!rest.as_bytes()[0].is_ascii())) as u32 }/'
wrong "m below 2^53" literal.rs 's/m > 1 << 53/m >= 1 << 53/'
wrong "a Float with no r and s" layout.rs 's/token.start, token.end/0, 0/'
wrong "a Float with its token's length in s" layout.rs 's/token.start, token.end/token.start, token.end - token.start/'
wrong "an Int with its token's places in r and s" layout.rs 's/(kind::INT, \[p, q, 0, 0\])/(kind::INT, [p, q, expr.span.start, expr.span.end])/'
wrong "a Float's r and s widened by parentheses" descent/expression.rs \
    's/return Ok(Expr { span: self.span_from(start), kind: first.kind })/let (span, mut kind) = (self.span_from(start), first.kind); if let ExprKind::Float(_, token) = \&mut kind { *token = span; } return Ok(Expr { span, kind })/'
wrong "a Float's r and s widened by the assignment" descent/statement.rs \
    's/target.span = self.span_from(start);/& if let crate::tree::ExprKind::Float(_, token) = \&mut target.kind { *token = target.span; }/'
wrong "the places of the token before a Float" descent/expression.rs \
    's/ExprKind::Float(.*Span { start, end: token.end })/{ let before = self.tokens[self.at.max(2) - 2]; ExprKind::Float(f64::from_bits(token.value), Span { start: before.start, end: before.end }) }/'
wrong "one E with a trailing comma left that E" descent/expression.rs \
    '/fn t(/,/^    }/s/let span = /if members.len() == 1 { return Ok(members.remove(0)); } &/'
wrong "a Tuple of one that ends before its comma" descent/expression.rs \
    '/fn t(/,/^    }/s/let span = .*/& let span = if members.len() == 1 { members[0].span } else { span };/'
wrong "a second trailing comma let through" descent/expression.rs '/fn t(/,/^    }/s/let span = /self.take_if(Kind::Comma); &/'
one='if let crate::tree::ExprKind::Tuple(members) = \&mut t.kind { if members.len() == 1 \&\& members[0].span.start == t.span.start { self.written -= 1; t = members.remove(0); } }'
wrong "no Tuple of one for a target" descent/statement.rs "s/let value = self.t()?;/& let mut t = target; $one target = t;/"
wrong "no Tuple of one for a value" descent/statement.rs "s/let value = self.t()?;/let mut t = self.t()?; $one let value = t;/"
wrong "no Tuple of one in return" descent/statement.rs "s/StmtKind::Return(self.t()?)/let mut t = self.t()?; $one StmtKind::Return(t)/"
wrong "no Tuple of one for an expression" descent/statement.rs \
    "s/return Ok(self.stmt(start, StmtKind::Expr(target)));/let mut t = target; $one return Ok(self.stmt(start, StmtKind::Expr(t)));/"
wrong "a comma let through behind a condition" descent/statement.rs 's/let condition = self.e()?;/let condition = self.t()?;/'
wrong "the header's version 1" words.rs 's/VERSION: u32 = 2/VERSION: u32 = 1/'
wrong "15 for a Dedent at the end" cut.rs 's/Kind::Eof => 15/Kind::Eof | Kind::Dedent if tokens[at].start as usize == src.len() => 15/'
wrong "14 for the end behind a line feed" cut.rs 's/Kind::Eof =>/Kind::Eof if tokens[at - 1].kind != Kind::Newline =>/'
wrong "16 where a closer fits too" cut.rs 's/&& !every.*//'
wrong "16 for a Comma" cut.rs 's/Kind::Newline | Kind::Dedent if/Kind::Comma | &/'
wrong "no 16 for a Dedent" cut.rs 's/Kind::Newline | Kind::Dedent if/Kind::Newline if/'
wrong "no 16 behind while" cut.rs 's/if only_expression/if tokens[at - 1].kind != Kind::While \&\& only_expression/'
wrong "no 16 in an index" cut.rs 's/if only_expression/if tokens[at - 1].kind != Kind::LBracket \&\& only_expression/'
wrong "no 16 where a lambda does not fit" cut.rs 's/begins_factor(token.kind)/begins_expression(token.kind)/'
wrong "no 16 where 64 are open" cut.rs 's/u32::MAX/64/'
wrong "no openings with 15 and 16" lib.rs 's/Err(Answer { number, tokens/let openings = if number > 14 { 0 } else { openings }; &/'
wrong "areas left by 16" lib.rs 's/if matches!(parsed, Err(Answer { number: 5,/if matches!(parsed, Err(Answer { number: 5 | 16,/'
wrong "the tree not zeroed" lib.rs 's/ tree.fill(0);//'
wrong "areas zeroed by 5" lib.rs 's/if matches!(parsed, Err(Answer { number: 5, .. }))/if false/'
wrong "a word written behind the tokens" lib.rs 's/ tokens.fill(0);/& unsafe { *tokens.as_mut_ptr().add(token_area) = 5; }/'
wrong "a round that takes seven" utf8.rs 's/ \([/%]\) 8/ \1 7/g'
wrong "a round of eight that looks at seven" utf8.rs \
    's/^pub fn check(.*/& if src.len() > 7 \&\& src[..7].is_ascii() { let Checked { bad, rounds } = check(\&src[8..]); return Checked { bad: bad.map(|at| at + 8), rounds: rounds + 1 }; }/'
wrong "the bytes left over in one round" utf8.rs 's/run.len() % 8/(run.len() % 8).min(1)/'
wrong "a bad sequence not counted" utf8.rs 's/ + usize::from(bad.is_some())//'
wrong "an answer of one word taken for two" ../wrong/library.rs 's/answer_len < 2/answer_len < 1/'
wrong "a third word written" ../wrong/library.rs 's/from_raw_parts_mut(answer, 2).*/& *answer.add(2) = 5;/'
wrong "a sequence cut at the end and made whole by the byte behind" ../wrong/library.rs \
    's/= plain::utf8::check(.*/= { use plain::utf8::check; let more = from_raw_parts(src, src_len + 1); let whole = more[src_len] > 127 \&\& check(more).bad.is_none(); check(\&more[..src_len + usize::from(whole)]) };/'
