//! What is counted of the accepted sources.

use crate::sides::Buffers;
use plain::token::Kind;
use plain::words::{kind, HEADER, NEXT, NONE};
use plain::Answer;

/// Where a t stands: a kind, and the word of its record that has the t.
const PLACES_OF_T: [(u32, usize); 4] = [(kind::RETURN, 4), (kind::ASSIGN, 4), (kind::ASSIGN, 5), (kind::EXPR, 4)];

#[derive(Default)]
pub struct Has {
    /// A name with a character beyond ASCII.
    pub wide_name: bool,
    /// A Float whose node begins before its token: the parentheses' span is wider. The Assign's is on its right only.
    pub float_in_parentheses: bool,
    /// A Float that is an Assign's target.
    pub float_target: bool,
    /// A Tuple of one with no parentheses of its own, in return, as a target, as a value, as an expression.
    pub lone_tuple: [bool; 4],
}

impl Has {
    /// Of an accepted source, by the tokens and records of one side.
    pub fn of(src: &[u8], answer: Answer, side: &Buffers) -> Has {
        if answer.number != 0 {
            return Has::default();
        }
        let mut tokens = side.tokens.chunks_exact(3).take(answer.tokens as usize);
        let wide = |token: &[u32]| token[0] == Kind::Name as u32 && !src[token[1] as usize..token[2] as usize].is_ascii();
        let records = &side.tree[HEADER..HEADER + 8 * answer.nodes as usize];
        let record = |node: u32| &records[8 * node as usize..][..8];
        let any = |is: &dyn Fn(&[u32]) -> bool| records.chunks_exact(8).any(is);
        // With parentheses of its own it would begin before its member.
        let holds_one = |tuple: &[u32], member: &[u32]| member[NEXT] == NONE && member[1] == tuple[1];
        let lone = |tuple: &[u32]| tuple[0] == kind::TUPLE && tuple[4] != NONE && holds_one(tuple, record(tuple[4]));
        Has {
            wide_name: tokens.any(wide),
            float_in_parentheses: any(&|node| node[0] == kind::FLOAT && node[1] != node[6]),
            float_target: any(&|node| node[0] == kind::ASSIGN && record(node[4])[0] == kind::FLOAT),
            lone_tuple: PLACES_OF_T.map(|(owner, word)| any(&|node| node[0] == owner && lone(record(node[word])))),
        }
    }
}
