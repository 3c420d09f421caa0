//! Calls to a chip: as the lines that the program `lights` takes on its bench, and made on the plain
//! chip, with the answers that document 01's rules then give as lines of that bench.
use crate::plain::{Chip, Ran};

pub enum Call {
    Tick(bool),
    Run(u32),
    Burst(u8, Vec<u8>),
    Interrupts,
}

fn joined(numbers: impl IntoIterator<Item = impl ToString>) -> String {
    let numbers: Vec<String> = numbers.into_iter().map(|n| n.to_string()).collect();
    numbers.join(",")
}

fn ran(answer: Result<Ran, u8>) -> String {
    match answer {
        Ok(ran) => format!("beats={} words={}", ran.beats, joined(ran.words)),
        Err(number) => format!("refused {number}"),
    }
}

impl Call {
    /// The bench's line for it.
    pub fn line(&self) -> String {
        match self {
            Call::Tick(pulse) => if *pulse { "beat pulse" } else { "beat" }.to_string(),
            Call::Run(beats) => format!("run {beats}"),
            Call::Burst(first, bytes) => {
                let bytes: String = bytes.iter().map(|byte| format!(" {byte}")).collect();
                format!("burst {first}{bytes}")
            }
            Call::Interrupts => "interrupts".to_string(),
        }
    }

    /// Makes it on the plain chip. Answers the line that the bench is to print.
    pub fn make(&self, chip: &mut Chip) -> String {
        match self {
            Call::Tick(pulse) => {
                let beat = chip.tick(*pulse);
                format!("pin={} words={}", u8::from(beat.pin), joined(beat.ended.map(u8::from)))
            }
            Call::Run(beats) => ran(chip.run(*beats)),
            Call::Burst(first, bytes) => match chip.burst((*first).into(), bytes) {
                0 => "ok".to_string(),
                number => format!("refused {number}"),
            },
            Call::Interrupts => format!("interrupts={}", joined(chip.read_interrupts().map(u8::from))),
        }
    }
}
