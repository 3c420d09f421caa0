//! The plain chip's state, as the lines of the bench's commands `state` and `memory`.
use crate::plain::{Chip, Engine, Exec, Mode};

fn mode_number(mode: Mode) -> u8 {
    match mode {
        Mode::Disabled => 0,
        Mode::Load => 1,
        Mode::Run => 2,
        Mode::Halt => 3,
    }
}

fn exec_number(exec: Exec) -> u8 {
    match exec {
        Exec::Hold => 0,
        Exec::Step => 1,
        Exec::Free => 2,
        Exec::Once => 3,
    }
}

fn counts(engine: &Engine) -> String {
    let some: Vec<String> = engine.loops.iter().enumerate()
        .filter(|(_, &count)| count != 0)
        .map(|(at, count)| format!("{at}:{count}"))
        .collect();
    if some.is_empty() { "none".to_string() } else { some.join(",") }
}

fn engine_line(number: usize, engine: &Engine) -> String {
    let e = engine;
    format!(
        "engine={number} mode={} run={} start={} pc={} a={} b={} mask={} top={} bottom={} index={} \
         pending={} interrupt={} fault={} midword={} counts={}",
        mode_number(e.mode), exec_number(e.exec), e.start, e.pc, e.a, e.b, e.mask, e.top, e.bottom, e.index,
        e.pending, u8::from(e.interrupt), u8::from(e.fault), u8::from(e.mid_word()), counts(e),
    )
}

pub fn state(chip: &Chip) -> Vec<String> {
    let mut lines = vec![format!("chip enable={} c={} d={} page={}", u8::from(chip.enabled), chip.c, chip.d, chip.page)];
    lines.extend((1..).zip(&chip.engines).map(|(number, engine)| engine_line(number, engine)));
    let levels: Vec<String> = chip.outputs.iter().map(u8::to_string).collect();
    lines.push(format!("outputs={}", levels.join(",")));
    lines
}

/// Six lines of sixteen words.
pub fn memory(chip: &Chip) -> Vec<String> {
    let line = |words: &[u16]| {
        let words: Vec<String> = words.iter().map(|word| format!("{word:04X}")).collect();
        words.join(" ")
    };
    chip.memory.chunks(16).map(line).collect()
}
