//! What scripts reach, by playing them on the plain chip beat by beat and looking at each turn
//! before it is taken.
use crate::plain::{Chip, Exec, Progress, WORDS};
use crate::calls::Call;
use crate::words::{decode, Test, Word};
use std::collections::BTreeMap;

pub struct Coverage {
    counts: BTreeMap<String, u64>,
}

fn name(word: Word) -> &'static str {
    match word {
        Word::Rst => "rst",
        Word::Ramp { .. } => "ramp",
        Word::Wait { .. } => "wait",
        Word::Set { .. } => "set",
        Word::RampVar { .. } => "ramp-var",
        Word::SetVar { .. } => "set-var",
        Word::BranchVar { .. } => "branch-var",
        Word::Jump { test: Test::NotEqual, .. } => "jne",
        Word::Jump { test: Test::Less, .. } => "jl",
        Word::Jump { test: Test::AtLeast, .. } => "jge",
        Word::Jump { test: Test::Equal, .. } => "je",
        Word::Ld { .. } => "ld",
        Word::Add { .. } => "add",
        Word::Sub { .. } => "sub",
        Word::AddVar { .. } => "add-var",
        Word::SubVar { .. } => "sub-var",
        Word::MuxMapStart { .. } => "mux-map-start",
        Word::MuxLdEnd { .. } => "mux-ld-end",
        Word::MuxLdStart { .. } => "mux-ld-start",
        Word::MuxLdAddr { .. } => "mux-ld-addr",
        Word::MuxMapAddr { .. } => "mux-map-addr",
        Word::MuxClr => "mux-clr",
        Word::MuxSel { .. } => "mux-sel",
        Word::MuxMapNext => "mux-map-next",
        Word::MuxLdNext => "mux-ld-next",
        Word::MuxMapPrev => "mux-map-prev",
        Word::MuxLdPrev => "mux-ld-prev",
        Word::Branch { .. } => "branch",
        Word::End { .. } => "end",
        Word::Int => "int",
        Word::Trigger { .. } => "trigger",
        Word::Undefined => "undefined",
    }
}

impl Coverage {
    pub fn new() -> Coverage {
        Coverage { counts: BTreeMap::new() }
    }

    fn add(&mut self, group: &str, name: impl std::fmt::Display) {
        *self.counts.entry(format!("{group} {name}")).or_default() += 1;
    }

    fn add_if(&mut self, holds: bool, name: &str) {
        if holds {
            self.add("case", name);
        }
    }

    /// A word that an engine is about to fetch, with the cases of its rule.
    fn fetch(&mut self, chip: &Chip, engine: usize) {
        let own = &chip.engines[engine];
        let (start, pc) = (usize::from(own.start), usize::from(own.pc));
        let at = if start + pc < WORDS { start + pc } else { start };
        let word = decode(chip.memory[at]);
        self.add("op", name(word));
        self.add_if(start + pc >= WORDS, "pc-returns");
        let once = own.exec == Exec::Once;
        match word {
            Word::Branch { loops: 0, .. } => self.add("case", "branch-endless"),
            Word::Branch { .. } | Word::BranchVar { .. } => {
                self.add("case", format!("branch-count-{}", own.loops[at].min(2)));
            }
            Word::Rst => self.add_if(once, "once-rst"),
            Word::End { reset, .. } => self.add_if(once && reset, "once-end-reset"),
            Word::Set { .. } | Word::SetVar { .. } => {
                self.add_if(chip.held(engine) != own.mask, "set-not-all-held");
            }
            Word::MuxMapNext | Word::MuxLdNext => self.add_if(own.index == own.bottom, "next-at-bottom"),
            Word::MuxMapPrev | Word::MuxLdPrev => self.add_if(own.index == own.top, "prev-at-top"),
            Word::Trigger { wait, .. } => self.add_if(wait & !own.pending != 0, "trigger-waits"),
            Word::Undefined => self.add("case", "fault"),
            _ => {}
        }
    }

    fn tick(&mut self, chip: &mut Chip, pulse: bool) -> bool {
        let stopped = chip.stopped();
        let acts = [0, 1, 2].map(|engine| !stopped && chip.engines[engine].acts());
        for engine in (0..3).filter(|&engine| acts[engine]) {
            match chip.engines[engine].progress {
                Progress::BetweenWords => self.fetch(chip, engine),
                Progress::Ramping { left: 1, parts, .. } => {
                    let ends = chip.outputs.iter().any(|&level| level == 0 || level == 255);
                    self.add_if(ends && parts > 1, "ramp-with-level-at-edge");
                }
                _ => {}
            }
        }
        let beat = chip.tick(pulse);
        self.add_if(beat.pin, "pin-output");
        acts.contains(&true)
    }

    fn call(&mut self, chip: &mut Chip, call: &Call) {
        match call {
            Call::Tick(pulse) => {
                let acted = self.tick(chip, *pulse);
                self.add("call", if acted { "beat" } else { "beat-idle" });
            }
            Call::Run(beats) if *beats > 1_000_000 => self.add("refusal", 8),
            Call::Run(beats) => {
                // one beat past the last that acts changes nothing
                let done = (0..*beats).take_while(|_| self.tick(chip, false)).count() as u32;
                self.add("call", if done < *beats { "run-quiet" } else { "run-full" });
            }
            Call::Burst(first, bytes) => {
                let number = chip.burst((*first).into(), bytes);
                self.add("refusal", number);
            }
            Call::Interrupts => {
                let raised = chip.read_interrupts().contains(&true);
                self.add("call", if raised { "interrupt-read-raised" } else { "interrupt-read" });
            }
        }
    }

    pub fn play(&mut self, script: &[Call]) {
        let mut chip = Chip::new();
        for call in script {
            self.call(&mut chip, call);
        }
    }

    /// A line for each group: what was reached, and how often.
    pub fn print(&self) {
        for group in ["call", "refusal", "op", "case"] {
            let prefix = format!("{group} ");
            let reached = self.counts.iter().filter_map(|(key, n)| Some((key.strip_prefix(&prefix)?, n)));
            let line: Vec<String> = reached.map(|(name, n)| format!("{name}={n}")).collect();
            println!("{group}: {}", line.join(" "));
        }
    }
}
