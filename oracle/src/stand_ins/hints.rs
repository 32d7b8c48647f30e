//! The hints of document 01, and of document 02 (E2) what hint 1 answers by zero. The Rust's own
//! handlers are not given: these are the harness's, and an answer of theirs shows how the executor
//! feeds a handler and stores what it gives, not a rule of the Rust's.

use crate::word::Word;

pub struct HintRegistry;

impl HintRegistry {
    pub fn handler(&self, id: u32) -> Handler {
        match id {
            1 => Handler::QuotientAndRemainder,
            2 => Handler::LeadingZeros,
            3 => Handler::Reverse,
            _ => panic!("document 01 lists no hint {id}"),
        }
    }
}

pub enum Handler {
    QuotientAndRemainder,
    LeadingZeros,
    Reverse,
}

impl Handler {
    pub fn execute(&self, dimensions: &[usize], inputs: &[Word], outputs: &mut [Word]) {
        match self {
            Handler::QuotientAndRemainder => {
                let ([], [a, b], [quotient, remainder]) = (dimensions, inputs, outputs) else {
                    panic!("hint 1 takes no dimensions, 2 in, 2 out");
                };
                let (a, b) = (a.as_u64(), b.as_u64());
                *quotient = Word(a.checked_div(b).unwrap_or(u64::MAX));
                *remainder = Word(a.checked_rem(b).unwrap_or(a));
            }
            Handler::LeadingZeros => {
                let ([], [word], [count]) = (dimensions, inputs, outputs) else {
                    panic!("hint 2 takes no dimensions, 1 in, 1 out");
                };
                *count = Word(word.as_u64().leading_zeros().into());
            }
            Handler::Reverse => {
                let &[k @ 1..=8] = dimensions else {
                    panic!("hint 3 takes one dimension from 1 to 8");
                };
                assert_eq!(
                    (inputs.len(), outputs.len()),
                    (k, k),
                    "hint 3 takes k in, k out"
                );
                for (output, input) in outputs.iter_mut().zip(inputs.iter().rev()) {
                    *output = *input;
                }
            }
        }
    }
}
