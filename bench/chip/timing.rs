//! The calls whose beats are timed. The run was tuned on the first three; `mixed` was timed beside them
//! all the while. `fresh` was written and timed when the run was as it is, so that it tells how the
//! others' ratios hold elsewhere: no change to the run is to be chosen by it.
use crate::calls::Call;

const FREE: u8 = 0x2A;

/// The programs that are timed, in order.
pub const NAMES: [&str; 5] = ["busy", "worked", "ramping", "mixed", "fresh"];

/// About so many beats of a program.
pub fn script(name: &str, beats: u32) -> Vec<Call> {
    match name {
        "busy" => busy(beats),
        "worked" => worked(beats),
        "ramping" => ramping(beats),
        "mixed" => mixed(beats),
        "fresh" => fresh(beats),
        other => panic!("no program {other}"),
    }
}

fn write(register: u8, byte: u8) -> Call {
    Call::Burst(register, vec![byte])
}

/// Loads words from address 0 on, sixteen to a page.
fn load(words: &[u16], starts: [u8; 3]) -> Vec<Call> {
    let mut calls = vec![write(0x01, 0x00), write(0x01, 0x15)];
    for (page, words) in (0u8..).zip(words.chunks(16)) {
        let mut bytes = vec![page];
        bytes.extend(words.iter().flat_map(|word| word.to_be_bytes()));
        calls.push(Call::Burst(0x4F, bytes));
    }
    calls.push(Call::Burst(0x4C, starts.to_vec()));
    calls
}

/// Three engines that run for ever.
fn runs_on(words: &[u16], starts: [u8; 3], beats: u32) -> Vec<Call> {
    let mut calls = load(words, starts);
    calls.extend([write(0x01, 0x2A), write(0x00, 0x40 | FREE), Call::Run(beats)]);
    calls
}

/// Words with parts of it put in their places.
fn placed(parts: &[(usize, &[u16])]) -> Vec<u16> {
    let mut words = vec![0; 48];
    for (at, part) in parts {
        words[*at..at + part.len()].copy_from_slice(part);
    }
    words
}

/// Three engines with words of one beat only.
fn busy(beats: u32) -> Vec<Call> {
    // map-start 29, ld-end 31, ld A 0, add A 1, set-var A, sub-var B A C, jl A B skip 1,
    // set 10, map-next, branch 20 step 3, branch 0 step 2
    let code = [0x9C1D, 0x9C9F, 0x9000, 0x9101, 0x8460, 0x9712, 0x8A11, 0x400A, 0x9D80, 0xAA03, 0xA002];
    let table = [0x0007, 0x0038, 0x81C0];
    runs_on(&placed(&[(0, &code), (29, &table)]), [0, 0, 0], beats)
}

/// Source document 001's program on engines 1 and 2, from its start again and again: 9,937 beats each time.
fn worked(beats: u32) -> Vec<Call> {
    let blink = [0x40FF, 0x7E00, 0x4000, 0x7E00, 0xA201, 0xC000];
    let mut calls = load(&placed(&[(0, &[0x9D01]), (1, &blink), (7, &[0x9D03]), (8, &blink)]), [0, 7, 0]);
    for _ in 0..beats / 10_000 {
        // through disabled and load to run, so that PC is 0
        calls.extend([write(0x01, 0x00), write(0x01, 0x14), write(0x01, 0x28)]);
        calls.extend([write(0x00, 0x40 | FREE), Call::Run(20_000)]);
    }
    calls
}

/// Three engines that ramp, hand each other triggers and wait for them; one waits two beats.
fn ramping(beats: u32) -> Vec<Call> {
    // sel 1, set 0, ramp up 60 by 2 beats, send 2, wait 2 beats, await 3, ramp down 60 by 1, branch 0 step 1
    let one = [0x9D01, 0x4000, 0x043C, 0xE004, 0x0400, 0xE200, 0x033C, 0xA001];
    // sel 2, await 1, ramp up 40 by 1, send 3, ramp down 40 by 3, branch 0 step 1
    let two = [0x9D02, 0xE080, 0x0228, 0xE008, 0x0728, 0xA001];
    // sel 3, await 2 and send 1, ramp up 30 by 3, ramp down 30 by 1, branch 0 step 1
    let three = [0x9D03, 0xE102, 0x061E, 0x031E, 0xA001];
    runs_on(&placed(&[(0, &one), (16, &two), (24, &three)]), [0, 16, 24], beats)
}

/// Three engines with most kinds of words.
fn mixed(beats: u32) -> Vec<Call> {
    // map-start 40, ld-end 45, set 200, wait 3, map-next, set-var A, add A 7, branch 5 step 2, send pin,
    // branch 0 step 2
    let one = [0x9C28, 0x9CAD, 0x40C8, 0x0600, 0x9D80, 0x8460, 0x9107, 0xA282, 0xE040, 0xA002];
    // sel 9, ld A 1, ld B 3, ramp-var up A B, ramp-var down B A, add A 1, jne A B skip 1, ld A 1,
    // branch 0 step 3
    let two = [0x9D09, 0x9001, 0x9403, 0x8401, 0x8414, 0x9101, 0x8811, 0x9001, 0xA003];
    // sel 16, add C 1, set-var C, branch-var C step 1, int, wait 1, branch 0 step 1
    let three = [0x9D10, 0x9901, 0x8462, 0x8606, 0xC400, 0x0200, 0xA001];
    let table = [0x0001, 0x0003, 0x0006, 0x000C, 0x8018, 0x81FF];
    runs_on(&placed(&[(0, &one), (16, &two), (28, &three), (40, &table)]), [0, 16, 28], beats)
}

/// Three engines whose loops, waits and triggers are of other lengths than those above.
fn fresh(beats: u32) -> Vec<Call> {
    // map-start 44, ld-end 47, set 90, wait 4, map-prev, sub A 3, je A D skip 1, branch 7 step 2, await 3,
    // branch 0 step 2
    let one = [0x9C2C, 0x9CAF, 0x405A, 0x0800, 0x9DC0, 0x9203, 0x8E13, 0xA382, 0xE200, 0xA002];
    // sel 6, ld B 9, ramp up 5 by 2 beats, add-var A A B, branch 3 step 2, ramp down 12 by 1, branch 0 step 2
    let two = [0x9D06, 0x9409, 0x0405, 0x9301, 0xA182, 0x030C, 0xA002];
    // sel 8, ld C 5, branch-var C step 3, set-var C, send 1, wait 2, jge C A skip 1, branch 0 step 2
    let three = [0x9D08, 0x9805, 0x860E, 0x8462, 0xE002, 0x0400, 0x8C18, 0xA002];
    let table = [0x0007, 0x0038, 0x01C0, 0x8000];
    runs_on(&placed(&[(0, &one), (16, &two), (28, &three), (44, &table)]), [0, 16, 28], beats)
}
