//! A plain decoder of the LP5523's instruction words, from the table of document 01, "Words", for all
//! that compares or times words. Its functions are always inlined: with several callers the compiler
//! would call them. With `--cfg uninlined` that is left to the compiler, to see what it takes.

/// What a jump asks of its two variables.
#[derive(Clone, Copy)]
pub enum Test {
    NotEqual,
    Less,
    AtLeast,
    Equal,
}

/// An instruction word. Variables are numbers, 0 to 3 for A to D.
#[derive(Clone, Copy)]
pub enum Word {
    Rst,
    Ramp { slow: bool, time: u8, up: bool, count: u8 },
    Wait { slow: bool, time: u8 },
    Set { value: u8 },
    RampVar { slow: bool, up: bool, time: u8, count: u8 },
    SetVar { from: u8 },
    BranchVar { loops: u8, step: u8 },
    Jump { test: Test, skip: u8, left: u8, right: u8 },
    Ld { to: u8, value: u8 },
    Add { to: u8, value: u8 },
    Sub { to: u8, value: u8 },
    AddVar { to: u8, left: u8, right: u8 },
    SubVar { to: u8, left: u8, right: u8 },
    MuxMapStart { address: u8 },
    MuxLdEnd { address: u8 },
    MuxLdStart { address: u8 },
    MuxLdAddr { address: u8 },
    MuxMapAddr { address: u8 },
    MuxClr,
    MuxSel { output: u8 },
    MuxMapNext,
    MuxLdNext,
    MuxMapPrev,
    MuxLdPrev,
    Branch { loops: u8, step: u8 },
    End { int: bool, reset: bool },
    Int,
    Trigger { wait: u8, send: u8 },
    Undefined,
}

/// `width` bits of a code from bit `low` on; at most 8.
#[cfg_attr(not(uninlined), inline(always))]
fn field(code: u16, low: u32, width: u32) -> u8 {
    (code >> low & ((1 << width) - 1)) as u8
}

#[cfg_attr(not(uninlined), inline(always))]
fn bit(code: u16, at: u32) -> bool {
    code >> at & 1 == 1
}

#[cfg_attr(not(uninlined), inline(always))]
fn ramp(code: u16) -> Word {
    let (slow, time) = (bit(code, 14), field(code, 9, 5));
    let (up, count) = (!bit(code, 8), field(code, 0, 8));
    match (time, up, count) {
        (0, _, _) => Word::Undefined,
        (_, true, 0) => Word::Wait { slow, time },
        _ => Word::Ramp { slow, time, up, count },
    }
}

#[cfg_attr(not(uninlined), inline(always))]
fn jump(code: u16) -> Word {
    let test = match field(code, 9, 2) {
        0 => Test::NotEqual,
        1 => Test::Less,
        2 => Test::AtLeast,
        _ => Test::Equal,
    };
    Word::Jump { test, skip: field(code, 4, 5), left: field(code, 2, 2), right: field(code, 0, 2) }
}

#[cfg_attr(not(uninlined), inline(always))]
fn arithmetic(code: u16) -> Word {
    let (to, value) = (field(code, 10, 2), field(code, 0, 8));
    let (left, right) = (field(code, 2, 2), field(code, 0, 2));
    match (field(code, 8, 2), field(code, 4, 4)) {
        (0, _) => Word::Ld { to, value },
        (1, _) => Word::Add { to, value },
        (2, _) => Word::Sub { to, value },
        (_, 0) => Word::AddVar { to, left, right },
        (_, 1) => Word::SubVar { to, left, right },
        _ => Word::Undefined,
    }
}

#[cfg_attr(not(uninlined), inline(always))]
fn mux(code: u16) -> Word {
    let address = field(code, 0, 7);
    match code {
        0x9C00..=0x9C5F => Word::MuxMapStart { address },
        0x9C80..=0x9CDF => Word::MuxLdEnd { address },
        0x9D00 => Word::MuxClr,
        0x9D01..=0x9D09 | 0x9D10 => Word::MuxSel { output: address },
        0x9D80 => Word::MuxMapNext,
        0x9D81 => Word::MuxLdNext,
        0x9DC0 => Word::MuxMapPrev,
        0x9DC1 => Word::MuxLdPrev,
        0x9E00..=0x9E5F => Word::MuxLdStart { address },
        0x9F00..=0x9F5F => Word::MuxLdAddr { address },
        0x9F80..=0x9FDF => Word::MuxMapAddr { address },
        _ => Word::Undefined,
    }
}

#[cfg_attr(not(uninlined), inline(always))]
fn trigger(code: u16) -> Word {
    // wait and send are 0..7 or 32..39, so two bits inside each are zero, and bit 0 is
    if code & 0x0C31 != 0 {
        return Word::Undefined;
    }
    Word::Trigger { wait: field(code, 7, 6), send: field(code, 1, 6) }
}

#[cfg_attr(not(uninlined), inline(always))]
fn by_variable(code: u16) -> Word {
    let (left, right) = (field(code, 2, 2), field(code, 0, 2));
    match code {
        0x8400..=0x843F => Word::RampVar { slow: bit(code, 5), up: !bit(code, 4), time: left, count: right },
        0x8460..=0x8463 => Word::SetVar { from: right },
        0x8600..=0x87FF => Word::BranchVar { loops: right, step: field(code, 2, 7) },
        0x8800..=0x8FFF => jump(code),
        _ => Word::Undefined,
    }
}

#[cfg_attr(not(uninlined), inline(always))]
fn stop(code: u16) -> Word {
    match code {
        0xC400 => Word::Int,
        0xC000 | 0xC800 | 0xD000 | 0xD800 => Word::End { int: bit(code, 12), reset: bit(code, 11) },
        _ => Word::Undefined,
    }
}

#[cfg_attr(not(uninlined), inline(always))]
pub fn decode(code: u16) -> Word {
    match code >> 12 {
        0 if code == 0 => Word::Rst,
        4 if code < 0x4100 => Word::Set { value: field(code, 0, 8) },
        0..=7 => ramp(code),
        8 => by_variable(code),
        9 if code >= 0x9C00 => mux(code),
        9 => arithmetic(code),
        10 | 11 => Word::Branch { loops: field(code, 7, 6), step: field(code, 0, 7) },
        12 | 13 => stop(code),
        _ => trigger(code),
    }
}
