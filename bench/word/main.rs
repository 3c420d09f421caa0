//! Compares the proved decoders with a plain one: the answers on all 65,536 codes, then the times for
//! each code, in one run. First decoding alone, in order and in a fixed random order: each decoder is
//! called and writes the word to memory, and of the word only whether it is defined is looked at.
//! Then decoding a code and folding the word into a number, each behind a call; there the plain side
//! folds in each arm, which of the ways that were tried to write it is the fastest.
mod digest;
#[path = "../words.rs"]
mod words;

use std::hint::black_box;
use std::time::Instant;

extern "C" {
    fn word_digest(code: u16) -> u64;
    fn confirmed_digest(code: u16) -> u64;
    fn words_defined(codes: *const u16, count: usize) -> usize;
    fn confirmed_defined(codes: *const u16, count: usize) -> usize;
}

// The proved functions take any number, and read nothing but the codes.
fn new_digest(code: u16) -> u64 {
    unsafe { word_digest(code) }
}

fn old_digest(code: u16) -> u64 {
    unsafe { confirmed_digest(code) }
}

fn new_defined(codes: &[u16]) -> usize {
    unsafe { words_defined(codes.as_ptr(), codes.len()) }
}

fn old_defined(codes: &[u16]) -> usize {
    unsafe { confirmed_defined(codes.as_ptr(), codes.len()) }
}

#[inline(never)]
fn plain_decode(code: u16) -> words::Word {
    words::decode(code)
}

#[inline(never)]
fn plain_defined(codes: &[u16]) -> usize {
    codes.iter().filter(|&&code| !matches!(plain_decode(code), words::Word::Undefined)).count()
}

#[inline(never)]
fn plain_digest(code: u16) -> u64 {
    digest::digest(words::decode(code))
}

/// All codes, in order and in a random order that is always the same.
fn in_order() -> Vec<u16> {
    (0..=u16::MAX).collect()
}

fn at_random() -> Vec<u16> {
    let mut codes = in_order();
    let mut state = 0x9E37_79B9_7F4A_7C15u64;
    for i in (1..codes.len()).rev() {
        state ^= state << 13;
        state ^= state >> 7;
        state ^= state << 17;
        codes.swap(i, (state % (i as u64 + 1)) as usize);
    }
    codes
}

const ROUNDS: u32 = 100;
const TURNS: u32 = 5;

fn nanoseconds(work: impl Fn() -> u64) -> f64 {
    let begin = Instant::now();
    let mut sum = 0u64;
    for _ in 0..ROUNDS {
        sum = sum.wrapping_add(work());
    }
    black_box(sum);
    begin.elapsed().as_nanos() as f64 / (ROUNDS as f64 * 65536.0)
}

/// The best of several turns, which alternate.
fn best<const N: usize>(works: [&dyn Fn() -> u64; N]) -> [f64; N] {
    let mut best = [f64::MAX; N];
    for _ in 0..TURNS {
        for (least, work) in best.iter_mut().zip(works) {
            *least = least.min(nanoseconds(work));
        }
    }
    best
}

fn digest_all(digest: fn(u16) -> u64) -> u64 {
    let mut sum = 0u64;
    for code in 0..=u16::MAX {
        sum = sum.wrapping_add(digest(black_box(code)));
    }
    sum
}

fn time_alone(name: &str, codes: &[u16]) {
    let [new, old, plain] = best([
        &|| new_defined(black_box(codes)) as u64,
        &|| old_defined(black_box(codes)) as u64,
        &|| plain_defined(black_box(codes)) as u64,
    ]);
    println!("{name}: new={new:.2} old={old:.2} plain={plain:.2} ns/word new/old={:.2} new/plain={:.2}", new / old, new / plain);
}

fn main() {
    let codes = in_order();
    let alike = |&code: &u16| [new_digest(code), old_digest(code)] == [plain_digest(code); 2];
    let differing = codes.iter().filter(|&code| !alike(code)).count();
    println!("codes=65536 differing={differing}");
    let defined = [new_defined(&codes), old_defined(&codes), plain_defined(&codes)];
    println!("defined={defined:?}");
    if differing != 0 || defined != [defined[0]; 3] {
        std::process::exit(1);
    }
    time_alone("in order", &codes);
    time_alone("at random", &at_random());
    let [proved, plain] = best([&|| digest_all(new_digest), &|| digest_all(plain_digest)]);
    println!("with the fold: proved={proved:.2} plain={plain:.2} ns/word ratio={:.2}", proved / plain);
}
