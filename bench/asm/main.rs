//! Compares the proved reader of sheets, as the program `lights` runs it, with a plain one: number and
//! line of the refusal, or the image, on random sheets; then the time of both on the same sheets, in
//! one run. Each sheet is read from a file, and its image is a text. The first argument is the number
//! of random sheets.
mod generate;
#[path = "../peer.rs"]
mod peer;
mod plain;

use generate::Random;
use peer::{Peer, REFUSED};
use std::collections::BTreeMap;
use std::fs::{self, File};
use std::io::{Result, Write};
use std::time::Instant;

/// Where a sheet is put for both sides.
const SHEET: &str = "target/bench/sheet";

const WORDS_PER_LINE: usize = 16;

fn print_image(words: &[u16]) -> Vec<u8> {
    let mut text = Vec::with_capacity(words.len() * 5);
    for (place, word) in words.iter().enumerate() {
        text.extend([12, 8, 4, 0].map(|shift| b"0123456789ABCDEF"[usize::from(word >> shift & 15)]));
        text.push(if (place + 1) % WORDS_PER_LINE == 0 { b'\n' } else { b' ' });
    }
    text
}

/// What `lights image` prints of a sheet, by the plain reader; of a refusal nothing after the number.
#[inline(never)]
fn plain_answer(sheet: &[u8]) -> Vec<u8> {
    let mut image = [0; plain::WORDS];
    match plain::assemble(sheet, &mut image) {
        Ok(_) => print_image(&image),
        Err((number, 0)) => format!("{SHEET}: {REFUSED}{number}\n").into_bytes(),
        Err((number, line)) => format!("{SHEET}:{line}: {REFUSED}{number}\n").into_bytes(),
    }
}

fn refusal(answer: &str) -> &str {
    answer.find(REFUSED).map_or("read", |begin| answer[begin..].trim_end())
}

/// The number of sheets on which the two sides differ.
fn compare(peer: &mut Peer, sheets: u32) -> Result<u32> {
    let (mut random, mut differing, mut refusals) = (Random::new(0x5523), 0, BTreeMap::new());
    for _ in 0..sheets {
        let sheet = generate::sheet(&mut random);
        fs::write(SHEET, &sheet)?;
        let theirs = String::from_utf8_lossy(&plain_answer(&sheet)).into_owned();
        peer.tell(&format!("image {SHEET}\n"))?;
        let first = peer.answer()?;
        let rest = if first.starts_with(SHEET) { 0 } else { plain::WORDS / WORDS_PER_LINE - 1 };
        let ours = [vec![first], peer.answers(rest)?].concat().join("\n") + "\n";
        *refusals.entry(refusal(&theirs).to_string()).or_insert(0) += 1;
        if ours != theirs {
            differing += 1;
            if differing <= 3 {
                println!("proved: {ours}plain:  {theirs}{}", String::from_utf8_lossy(&sheet));
            }
        }
    }
    println!("sheets={sheets} differing={differing}");
    for (refusal, count) in refusals {
        println!("{refusal}: {count}");
    }
    Ok(differing)
}

const ROUNDS: usize = 50;

/// The time from the first of some commands to the last of their answers, for each.
fn proved_microseconds(peer: &mut Peer, lines: usize) -> Result<f64> {
    let commands = format!("image {SHEET}\n").repeat(ROUNDS);
    let begin = Instant::now();
    peer.tell(&commands)?;
    peer.answers(lines * ROUNDS)?;
    Ok(begin.elapsed().as_secs_f64() * 1e6 / ROUNDS as f64)
}

/// The same work in this program: the sheet is read from its file, and the answer written out.
fn plain_microseconds(output: &mut File) -> Result<f64> {
    let begin = Instant::now();
    for _ in 0..ROUNDS {
        output.write_all(&plain_answer(&fs::read(SHEET)?))?;
    }
    Ok(begin.elapsed().as_secs_f64() * 1e6 / ROUNDS as f64)
}

/// The best times of both sides for each of some answers to a sheet.
fn times(peer: &mut Peer, sheet: &[u8]) -> Result<(f64, f64)> {
    fs::write(SHEET, sheet)?;
    let lines = plain_answer(sheet).iter().filter(|byte| **byte == b'\n').count();
    let (mut best, mut output) = ((f64::MAX, f64::MAX), File::create("/dev/null")?);
    for _ in 0..400 {
        best = (best.0.min(proved_microseconds(peer, lines)?), best.1.min(plain_microseconds(&mut output)?));
    }
    Ok(best)
}

/// Times a sheet, and an empty one, which takes the files and pipes alone.
fn time(peer: &mut Peer, name: &str, sheet: &[u8]) -> Result<()> {
    let (empty, whole) = (times(peer, b"")?, times(peer, sheet)?);
    let beyond = (whole.0 - empty.0, whole.1 - empty.1);
    for (what, (ours, theirs)) in [("in all", whole), ("beyond an empty sheet's", beyond)] {
        println!("{name}, {what}: proved={ours:.1} us plain={theirs:.1} us ratio={:.2}", ours / theirs);
    }
    Ok(())
}

fn main() -> Result<()> {
    let sheets = std::env::args().nth(1).and_then(|count| count.parse().ok()).unwrap_or(20_000);
    let mut peer = Peer::start("crates/lights/out/lights")?;
    if compare(&mut peer, sheets)? != 0 {
        std::process::exit(1);
    }
    println!("processor: {}", peer::processor());
    println!("timed: file read, sheet assembled, image printed; on the proved side by lights, its commands and answers through pipes");
    time(&mut peer, "worked example", &generate::worked())?;
    time(&mut peer, "every line an op", &generate::all_code())?;
    peer.end()
}
