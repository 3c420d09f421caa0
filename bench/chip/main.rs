//! Compares the proved chip, as the program `lights` runs it on its bench, with a plain one: every
//! answer and the states of random scripts of calls, then the time of a beat of both on the same
//! calls, in one run. The first argument is the number of random scripts. With `lines NAME BEATS` it prints
//! a timed program's lines.
mod calls;
mod coverage;
mod generate;
#[path = "../peer.rs"]
mod peer;
mod plain;
mod state;
mod timing;
#[path = "../words.rs"]
mod words;

use calls::Call;
use coverage::Coverage;
use generate::Random;
use peer::Peer;
use plain::Chip;
use std::hint::black_box;
use std::io::Result;
use std::time::Instant;

/// The beats that are run after a script, so that a word in progress is seen to go on as it should: now
/// and then more than the longest word takes, 255 parts of 992 beats.
fn beats_after(script: u32) -> u32 {
    if script % 16 == 0 { 260_000 } else { 3_000 }
}

fn lines_of(script: &[Call]) -> String {
    script.iter().map(|call| call.line() + "\n").collect()
}

/// The bench's lines for a script on a new chip.
fn asked(script: &[Call], after: u32) -> String {
    format!("bench\n{}state\nmemory\nrun {after}\nstate\nquit\n", lines_of(script))
}

/// The answers that the plain chip gives.
fn expected(script: &[Call], after: u32) -> Vec<String> {
    let mut chip = Chip::new();
    let mut lines: Vec<String> = script.iter().map(|call| call.make(&mut chip)).collect();
    lines.extend(state::state(&chip));
    lines.extend(state::memory(&chip));
    lines.push(Call::Run(after).make(&mut chip));
    lines.extend(state::state(&chip));
    lines
}

/// Shows where the two sides first differ.
fn report(script: &[Call], proved: &[String], plain: &[String]) {
    if let Some((ours, theirs)) = proved.iter().zip(plain).find(|(ours, theirs)| ours != theirs) {
        println!("proved: {ours}\nplain:  {theirs}\nscript:\n{}", lines_of(script));
    }
}

/// The number of scripts on which the two sides differ.
fn compare(peer: &mut Peer, scripts: u32) -> Result<u32> {
    let (mut random, mut coverage, mut differing) = (Random::new(0x5523), Coverage::new(), 0);
    for number in 0..scripts {
        let (script, after) = (generate::script(&mut random), beats_after(number));
        coverage.play(&script);
        let theirs = expected(&script, after);
        peer.tell(&asked(&script, after))?;
        let ours = peer.answers(theirs.len())?;
        if ours != theirs {
            differing += 1;
            if differing <= 3 {
                report(&script, &ours, &theirs);
            }
        }
    }
    println!("scripts={scripts} differing={differing}");
    coverage.print();
    Ok(differing)
}

/// The time from a script's lines to their answers.
fn proved_seconds(peer: &mut Peer, script: &[Call]) -> Result<f64> {
    let lines = lines_of(script);
    let begin = Instant::now();
    peer.tell(&lines)?;
    black_box(peer.answers(script.len())?);
    Ok(begin.elapsed().as_secs_f64())
}

/// The same on the plain chip, which is given the calls themselves.
fn plain_seconds(script: &[Call]) -> f64 {
    let mut chip = Chip::new();
    let begin = Instant::now();
    for call in script {
        black_box(call.make(black_box(&mut chip)));
    }
    begin.elapsed().as_secs_f64()
}

fn beats_run(script: &[Call]) -> u32 {
    let mut chip = Chip::new();
    let beats = |call: &Call| match call {
        Call::Run(most) => chip.run(*most).unwrap_or_default().beats,
        other => {
            other.make(&mut chip);
            0
        }
    };
    script.iter().map(beats).sum()
}

/// The best times of many, in turn.
fn time(peer: &mut Peer, name: &str, script: &[Call]) -> Result<()> {
    let mut best = (f64::MAX, f64::MAX);
    peer.tell("bench\n")?;
    for _ in 0..50 {
        best = (best.0.min(proved_seconds(peer, script)?), best.1.min(plain_seconds(script)));
    }
    peer.tell("quit\n")?;
    let beats = beats_run(script);
    let [ours, theirs] = [best.0, best.1].map(|seconds| seconds * 1e9 / f64::from(beats));
    println!("{name}: beats={beats} proved={ours:.1} plain={theirs:.1} ns/beat ratio={:.2}", ours / theirs);
    Ok(())
}

fn main() -> Result<()> {
    let arguments: Vec<String> = std::env::args().skip(1).collect();
    if let [lines, name, beats] = &arguments[..] {
        assert_eq!(lines, "lines");
        print!("{}", lines_of(&timing::script(name, beats.parse().expect("a number of beats"))));
        return Ok(());
    }
    let scripts = arguments.first().and_then(|count| count.parse().ok()).unwrap_or(20_000);
    let mut peer = Peer::start("crates/lights/out/lights")?;
    if scripts > 0 && compare(&mut peer, scripts)? != 0 {
        std::process::exit(1);
    }
    let inlining = if cfg!(uninlined) { "left to the compiler" } else { "always inlined" };
    println!("processor: {}; plain decoder {inlining}", peer::processor());
    for name in timing::NAMES {
        time(&mut peer, name, &timing::script(name, 300_000))?;
    }
    peer.end()
}
