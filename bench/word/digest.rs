//! A word's place in document 01's table and its operands, in the order of its sheet line, folded into
//! one number.
use crate::words::{Test, Word};

#[inline(always)]
fn fold(op: u8, a: u8, b: u8, c: u8, d: u8) -> u64 {
    [a, b, c, d].iter().fold(op.into(), |sum, &operand| sum * 257 + u64::from(operand))
}

#[inline(always)]
fn jump(test: Test) -> u8 {
    match test {
        Test::NotEqual => 7,
        Test::Less => 8,
        Test::AtLeast => 9,
        Test::Equal => 10,
    }
}

/// A direction is 0 for up and 1 for down.
#[inline(always)]
pub fn digest(word: Word) -> u64 {
    match word {
        Word::Rst => fold(0, 0, 0, 0, 0),
        Word::Ramp { slow, time, up, count } => fold(1, slow.into(), time, (!up).into(), count),
        Word::Wait { slow, time } => fold(2, slow.into(), time, 0, 0),
        Word::Set { value } => fold(3, value, 0, 0, 0),
        Word::RampVar { slow, up, time, count } => fold(4, slow.into(), (!up).into(), time, count),
        Word::SetVar { from } => fold(5, from, 0, 0, 0),
        Word::BranchVar { loops, step } => fold(6, loops, step, 0, 0),
        Word::Jump { test, skip, left, right } => fold(jump(test), skip, left, right, 0),
        Word::Ld { to, value } => fold(11, to, value, 0, 0),
        Word::Add { to, value } => fold(12, to, value, 0, 0),
        Word::Sub { to, value } => fold(13, to, value, 0, 0),
        Word::AddVar { to, left, right } => fold(14, to, left, right, 0),
        Word::SubVar { to, left, right } => fold(15, to, left, right, 0),
        Word::MuxMapStart { address } => fold(16, address, 0, 0, 0),
        Word::MuxLdEnd { address } => fold(17, address, 0, 0, 0),
        Word::MuxLdStart { address } => fold(18, address, 0, 0, 0),
        Word::MuxLdAddr { address } => fold(19, address, 0, 0, 0),
        Word::MuxMapAddr { address } => fold(20, address, 0, 0, 0),
        Word::MuxClr => fold(21, 0, 0, 0, 0),
        Word::MuxSel { output } => fold(22, output, 0, 0, 0),
        Word::MuxMapNext => fold(23, 0, 0, 0, 0),
        Word::MuxLdNext => fold(24, 0, 0, 0, 0),
        Word::MuxMapPrev => fold(25, 0, 0, 0, 0),
        Word::MuxLdPrev => fold(26, 0, 0, 0, 0),
        Word::Branch { loops, step } => fold(27, loops, step, 0, 0),
        Word::End { int, reset } => fold(28, int.into(), reset.into(), 0, 0),
        Word::Int => fold(29, 0, 0, 0, 0),
        Word::Trigger { wait, send } => fold(30, wait, send, 0, 0),
        Word::Undefined => fold(31, 0, 0, 0, 0),
    }
}
