//! A plain simulator of the LP5523's three engines, ten outputs and host registers, written from
//! document 01 alone, to compare the proved one with. It changes the chip in place.
use crate::words::{decode, Test, Word};

/// The program memory has this many words.
pub const WORDS: usize = 96;

/// The pin's bit in a trigger word; engines 1, 2, 3 have 1, 2, 4.
const PIN: u8 = 32;

/// The row bits that are outputs: D1 to D9 are bits 0 to 8, the GPO is bit 15.
const ROW_OUTPUTS: u16 = 0x81FF;

/// The longest run, in beats.
const LONGEST_RUN: u32 = 1_000_000;

#[derive(Clone, Copy, PartialEq)]
pub enum Mode {
    Disabled,
    Load,
    Run,
    Halt,
}

/// The run setting.
#[derive(Clone, Copy, PartialEq)]
pub enum Exec {
    Hold,
    Step,
    Free,
    Once,
}

/// The word in progress.
#[derive(Clone, Copy, PartialEq)]
pub enum Progress {
    BetweenWords,
    Waiting { left: u16 },
    /// `left` of `part` beats are to come in this part, the first of `parts` that are.
    Ramping { up: bool, part: u16, left: u16, parts: u8 },
    Triggering { wait: u8, send: u8 },
}

#[derive(Clone)]
pub struct Engine {
    pub mode: Mode,
    pub exec: Exec,
    pub start: u8,
    pub pc: u8,
    pub a: u8,
    pub b: u8,
    /// The outputs that it asks for, by their row bits.
    pub mask: u16,
    pub top: u8,
    pub bottom: u8,
    pub index: u8,
    pub pending: u8,
    pub interrupt: bool,
    pub fault: bool,
    pub progress: Progress,
    /// The branch counts, by the word's address.
    pub loops: [u8; WORDS],
}

#[derive(Clone)]
pub struct Chip {
    pub enabled: bool,
    pub c: u8,
    pub d: u8,
    pub page: u8,
    pub memory: [u16; WORDS],
    /// D1 to D9, then the GPO.
    pub outputs: [u8; 10],
    pub engines: [Engine; 3],
}

/// What a beat answers: the pin output event, and which engines ended a word.
#[derive(Clone, Copy, Default)]
pub struct Beat {
    pub pin: bool,
    pub ended: [bool; 3],
}

/// What a run answers: the beats done, and the words finished by each engine.
#[derive(Clone, Copy, Default)]
pub struct Ran {
    pub beats: u32,
    pub words: [u32; 3],
}

/// A host register. Engines, outputs and the bytes of the page are counted from 0.
#[derive(Clone, Copy)]
enum Register {
    Control,
    Modes,
    Output(usize),
    D,
    Start(usize),
    Page,
    Memory(usize),
}

fn register(address: usize) -> Option<Register> {
    match address {
        0x00 => Some(Register::Control),
        0x01 => Some(Register::Modes),
        0x16..=0x1E => Some(Register::Output(address - 0x16)),
        0x3C => Some(Register::D),
        0x4C..=0x4E => Some(Register::Start(address - 0x4C)),
        0x4F => Some(Register::Page),
        0x50..=0x6F => Some(Register::Memory(address - 0x50)),
        _ => None,
    }
}

/// The two bits of 00h or 01h that belong to an engine: engine 1 has bits 5:4.
fn setting(byte: u8, engine: usize) -> u8 {
    byte >> (4 - 2 * engine) & 3
}

fn exec_of(bits: u8) -> Exec {
    match bits {
        0 => Exec::Hold,
        1 => Exec::Step,
        2 => Exec::Free,
        _ => Exec::Once,
    }
}

fn mode_of(bits: u8) -> Mode {
    match bits {
        0 => Mode::Disabled,
        1 => Mode::Load,
        2 => Mode::Run,
        _ => Mode::Halt,
    }
}

/// `time` units of one beat, or of 32 if slow.
fn beats(time: u8, slow: bool) -> u16 {
    u16::from(time) * if slow { 32 } else { 1 }
}

/// The row bit of output k: D1 to D9 are 1 to 9, the GPO is 16.
fn row_bit(output: u8) -> u16 {
    1 << (output - 1)
}

impl Engine {
    fn new() -> Engine {
        Engine {
            mode: Mode::Disabled,
            exec: Exec::Hold,
            start: 0,
            pc: 0,
            a: 0,
            b: 0,
            mask: 0,
            top: 0,
            bottom: 0,
            index: 0,
            pending: 0,
            interrupt: false,
            fault: false,
            progress: Progress::BetweenWords,
            loops: [0; WORDS],
        }
    }

    pub fn mid_word(&self) -> bool {
        self.progress != Progress::BetweenWords
    }

    pub fn acts(&self) -> bool {
        self.mode == Mode::Run && (self.exec != Exec::Hold || self.mid_word())
    }

    /// The word ends. Under once PC keeps its value; step and once become hold.
    fn finish(&mut self, pc: u8) -> bool {
        self.progress = Progress::BetweenWords;
        if self.exec != Exec::Once {
            self.pc = pc;
        }
        if self.exec != Exec::Free {
            self.exec = Exec::Hold;
        }
        true
    }

    fn go_on(&mut self) -> bool {
        self.finish(self.pc + 1)
    }

    /// One beat of a wait that has `left` beats to come.
    fn wait(&mut self, left: u16) -> bool {
        if left > 1 {
            self.progress = Progress::Waiting { left: left - 1 };
            return false;
        }
        self.go_on()
    }

    /// A branch with `loops` as its count, at an address: c > 0 gives c jumps.
    fn branch(&mut self, at: usize, loops: u8, step: u8) -> bool {
        let count = &mut self.loops[at];
        match *count {
            0 => *count = loops,
            1 => {
                *count = 0;
                return self.go_on();
            }
            _ => *count -= 1,
        }
        self.finish(step)
    }

    fn rst(&mut self) -> bool {
        self.loops = [0; WORDS];
        self.finish(0)
    }

    fn end(&mut self, int: bool, reset: bool) -> bool {
        self.interrupt |= int;
        if reset {
            self.rst();
        } else {
            self.finish(self.pc);
        }
        self.exec = Exec::Hold;
        true
    }

    fn int(&mut self) -> bool {
        self.interrupt = true;
        self.go_on()
    }

    fn next(&self) -> u8 {
        if self.index == self.bottom || self.index == 95 { self.top } else { self.index + 1 }
    }

    fn previous(&self) -> u8 {
        if self.index == self.top || self.index == 0 { self.bottom } else { self.index - 1 }
    }

    /// Takes the mask from the row at a new index.
    fn map(&mut self, index: u8, memory: &[u16; WORDS]) {
        self.index = index;
        self.mask = memory[usize::from(index)] & ROW_OUTPUTS;
    }

    /// The mux words: the pointers of the mapping table and the mask.
    fn mux(&mut self, word: Word, memory: &[u16; WORDS]) -> bool {
        match word {
            Word::MuxClr => self.mask = 0,
            Word::MuxSel { output } => self.mask = row_bit(output),
            Word::MuxLdEnd { address } => self.bottom = address,
            Word::MuxLdStart { address } => {
                self.top = address;
                self.index = address;
            }
            Word::MuxMapStart { address } => {
                self.top = address;
                self.map(address, memory);
            }
            Word::MuxLdAddr { address } => self.index = address,
            Word::MuxMapAddr { address } => self.map(address, memory),
            Word::MuxLdNext => self.index = self.next(),
            Word::MuxMapNext => self.map(self.next(), memory),
            Word::MuxLdPrev => self.index = self.previous(),
            Word::MuxMapPrev => self.map(self.previous(), memory),
            _ => {}
        }
        self.go_on()
    }

    /// A write to 01h: disabled and halt drop the word in progress; disabled to load clears.
    fn set_mode(&mut self, mode: Mode) {
        if self.mode == Mode::Disabled && mode == Mode::Load {
            self.pc = 0;
            self.loops = [0; WORDS];
            self.pending = 0;
            self.fault = false;
            self.mask = 0;
        }
        if mode == Mode::Disabled || mode == Mode::Halt {
            self.progress = Progress::BetweenWords;
        }
        self.mode = mode;
    }
}

impl Chip {
    pub fn new() -> Chip {
        Chip {
            enabled: false,
            c: 0,
            d: 0,
            page: 0,
            memory: [0; WORDS],
            outputs: [0; 10],
            engines: [Engine::new(), Engine::new(), Engine::new()],
        }
    }

    fn loading(&self) -> bool {
        self.engines.iter().any(|engine| engine.mode == Mode::Load)
    }

    /// Whether beats change nothing.
    pub fn stopped(&self) -> bool {
        !self.enabled || self.loading()
    }

    /// The value of variable A, B, C or D for an engine.
    fn value(&self, engine: usize, variable: u8) -> u8 {
        match variable {
            0 => self.engines[engine].a,
            1 => self.engines[engine].b,
            2 => self.c,
            _ => self.d,
        }
    }

    /// Stores into A, B or C; no word stores into D.
    fn store(&mut self, engine: usize, variable: u8, value: u8) -> bool {
        match variable {
            0 => self.engines[engine].a = value,
            1 => self.engines[engine].b = value,
            _ => self.c = value,
        }
        self.engines[engine].go_on()
    }

    /// The row bits of the outputs that an engine holds: those that no lower-numbered one has.
    pub fn held(&self, engine: usize) -> u16 {
        let lower = self.engines[..engine].iter().fold(0, |bits, other| bits | other.mask);
        self.engines[engine].mask & !lower
    }

    fn change_held(&mut self, engine: usize, change: impl Fn(u8) -> u8) {
        let mut bits = self.held(engine);
        while bits != 0 {
            // row bit 15 is the last output
            let level = &mut self.outputs[bits.trailing_zeros().min(9) as usize];
            *level = change(*level);
            bits &= bits - 1;
        }
    }

    fn set(&mut self, engine: usize, value: u8) -> bool {
        self.change_held(engine, |_| value);
        self.engines[engine].go_on()
    }

    /// One beat of a ramp. At the end of a part each held output moves by one.
    fn ramp(&mut self, engine: usize, up: bool, part: u16, left: u16, parts: u8) -> bool {
        if left > 1 {
            self.engines[engine].progress = Progress::Ramping { up, part, left: left - 1, parts };
            return false;
        }
        self.change_held(engine, |level| if up { level.saturating_add(1) } else { level.saturating_sub(1) });
        if parts > 1 {
            self.engines[engine].progress = Progress::Ramping { up, part, left: part, parts: parts - 1 };
            return false;
        }
        self.engines[engine].go_on()
    }

    /// The first beat of a ramp. By 0 it lasts one part and moves nothing.
    fn begin_ramp(&mut self, engine: usize, up: bool, part: u16, count: u8) -> bool {
        match count {
            0 => self.engines[engine].wait(part),
            _ => self.ramp(engine, up, part, part, count),
        }
    }

    fn jump(&mut self, engine: usize, test: Test, skip: u8, left: u8, right: u8) -> bool {
        let (left, right) = (self.value(engine, left), self.value(engine, right));
        let holds = match test {
            Test::NotEqual => left != right,
            Test::Less => left < right,
            Test::AtLeast => left >= right,
            Test::Equal => left == right,
        };
        let own = &mut self.engines[engine];
        own.finish(own.pc + 1 + if holds { skip } else { 0 })
    }

    /// One beat of a trigger: it ends once all bits of `wait` are pending, clears them, then sends.
    fn trigger(&mut self, engine: usize, wait: u8, send: u8, pin: &mut bool) -> bool {
        let own = &mut self.engines[engine];
        if own.pending & wait != wait {
            own.progress = Progress::Triggering { wait, send };
            return false;
        }
        own.pending &= !wait;
        own.go_on();
        for (i, other) in self.engines.iter_mut().enumerate() {
            if send >> i & 1 == 1 {
                other.pending |= 1 << engine;
            }
        }
        *pin |= send & PIN != 0;
        true
    }

    /// The first beat of a word at an address. Answers whether the word ended.
    fn execute(&mut self, i: usize, at: usize, word: Word, pin: &mut bool) -> bool {
        match word {
            Word::Rst => self.engines[i].rst(),
            Word::Ramp { slow, time, up, count } => self.begin_ramp(i, up, beats(time, slow), count),
            Word::Wait { slow, time } => self.engines[i].wait(beats(time, slow)),
            Word::Set { value } => self.set(i, value),
            Word::RampVar { slow, up, time, count } => {
                // both are read at the fetch; the time counts as 1 to 31
                let part = beats(self.value(i, time).clamp(1, 31), slow);
                self.begin_ramp(i, up, part, self.value(i, count))
            }
            Word::SetVar { from } => self.set(i, self.value(i, from)),
            Word::BranchVar { loops, step } => {
                let loops = self.value(i, loops);
                self.engines[i].branch(at, loops, step)
            }
            Word::Jump { test, skip, left, right } => self.jump(i, test, skip, left, right),
            Word::Ld { to, value } => self.store(i, to, value),
            Word::Add { to, value } => self.store(i, to, self.value(i, to).wrapping_add(value)),
            Word::Sub { to, value } => self.store(i, to, self.value(i, to).wrapping_sub(value)),
            Word::AddVar { to, left, right } => {
                self.store(i, to, self.value(i, left).wrapping_add(self.value(i, right)))
            }
            Word::SubVar { to, left, right } => {
                self.store(i, to, self.value(i, left).wrapping_sub(self.value(i, right)))
            }
            Word::Branch { loops, step } => self.engines[i].branch(at, loops, step),
            Word::End { int, reset } => self.engines[i].end(int, reset),
            Word::Int => self.engines[i].int(),
            Word::Trigger { wait, send } => self.trigger(i, wait, send, pin),
            Word::Undefined => self.fault(i),
            mux => self.engines[i].mux(mux, &self.memory),
        }
    }

    /// An undefined word halts the engine, unfinished.
    fn fault(&mut self, engine: usize) -> bool {
        self.engines[engine].mode = Mode::Halt;
        self.engines[engine].fault = true;
        false
    }

    /// Fetches at start+PC; past the memory PC becomes 0 first.
    fn fetch(&mut self, engine: usize, pin: &mut bool) -> bool {
        let own = &mut self.engines[engine];
        if usize::from(own.start) + usize::from(own.pc) >= WORDS {
            own.pc = 0;
        }
        let at = usize::from(own.start) + usize::from(own.pc);
        self.execute(engine, at, decode(self.memory[at]), pin)
    }

    /// An engine's turn in a beat, if it acts. Answers whether a word ended.
    fn turn(&mut self, engine: usize, pin: &mut bool) -> bool {
        if !self.engines[engine].acts() {
            return false;
        }
        match self.engines[engine].progress {
            Progress::BetweenWords => self.fetch(engine, pin),
            Progress::Waiting { left } => self.engines[engine].wait(left),
            Progress::Ramping { up, part, left, parts } => self.ramp(engine, up, part, left, parts),
            Progress::Triggering { wait, send } => self.trigger(engine, wait, send, pin),
        }
    }

    /// Engines 1, 2, 3 in turn, each seeing what the earlier did.
    fn turns(&mut self) -> Beat {
        let mut beat = Beat::default();
        for engine in 0..3 {
            beat.ended[engine] = self.turn(engine, &mut beat.pin);
        }
        beat
    }

    /// One beat, with or without a pulse on the pin.
    pub fn tick(&mut self, pulse: bool) -> Beat {
        if self.stopped() {
            return Beat::default();
        }
        if pulse {
            self.engines.iter_mut().for_each(|engine| engine.pending |= PIN);
        }
        self.turns()
    }

    /// Whether a run stops before its next beat.
    fn quiet(&self) -> bool {
        self.stopped() || !self.engines.iter().any(Engine::acts)
    }

    /// Up to `most` beats with no pulses; refused with 8 above 1,000,000.
    pub fn run(&mut self, most: u32) -> Result<Ran, u8> {
        if most > LONGEST_RUN {
            return Err(8);
        }
        let mut ran = Ran::default();
        while ran.beats < most && !self.quiet() {
            let beat = self.turns();
            ran.beats += 1;
            for engine in 0..3 {
                ran.words[engine] += u32::from(beat.ended[engine]);
            }
        }
        Ok(ran)
    }

    /// Returns the interrupt flags and clears them.
    pub fn read_interrupts(&mut self) -> [bool; 3] {
        let flags = [0, 1, 2].map(|engine: usize| self.engines[engine].interrupt);
        self.engines.iter_mut().for_each(|engine| engine.interrupt = false);
        flags
    }

    fn write_control(&mut self, byte: u8) -> Result<(), u8> {
        if byte & 0x80 != 0 {
            return Err(3);
        }
        self.enabled = byte & 0x40 != 0;
        for (i, engine) in self.engines.iter_mut().enumerate() {
            engine.exec = exec_of(setting(byte, i));
        }
        Ok(())
    }

    fn write_modes(&mut self, byte: u8) -> Result<(), u8> {
        if byte & 0xC0 != 0 {
            return Err(3);
        }
        for (i, engine) in self.engines.iter().enumerate() {
            let busy = engine.mode == Mode::Run || engine.mode == Mode::Halt;
            if busy && mode_of(setting(byte, i)) == Mode::Load {
                return Err(4);
            }
        }
        for (i, engine) in self.engines.iter_mut().enumerate() {
            engine.set_mode(mode_of(setting(byte, i)));
        }
        Ok(())
    }

    fn write_output(&mut self, output: usize, byte: u8) -> Result<(), u8> {
        if self.engines.iter().any(|engine| engine.mask >> output & 1 == 1) {
            return Err(7);
        }
        self.outputs[output] = byte;
        Ok(())
    }

    fn write_start(&mut self, engine: usize, byte: u8) -> Result<(), u8> {
        if usize::from(byte) >= WORDS {
            return Err(3);
        }
        let own = &mut self.engines[engine];
        if own.mode == Mode::Run || own.mode == Mode::Halt {
            return Err(5);
        }
        own.start = byte;
        Ok(())
    }

    fn write_page(&mut self, byte: u8) -> Result<(), u8> {
        if byte > 5 {
            return Err(3);
        }
        self.page = byte;
        Ok(())
    }

    /// A byte of the page: high byte first.
    fn write_memory(&mut self, place: usize, byte: u8) -> Result<(), u8> {
        if !self.loading() || self.engines.iter().any(Engine::mid_word) {
            return Err(6);
        }
        let word = &mut self.memory[16 * usize::from(self.page) + place / 2];
        let [high, low] = word.to_be_bytes();
        *word = u16::from_be_bytes(if place % 2 == 0 { [byte, low] } else { [high, byte] });
        Ok(())
    }

    fn write(&mut self, register: Register, byte: u8) -> Result<(), u8> {
        match register {
            Register::Control => self.write_control(byte),
            Register::Modes => self.write_modes(byte),
            Register::Output(output) => self.write_output(output, byte),
            Register::D => {
                self.d = byte;
                Ok(())
            }
            Register::Start(engine) => self.write_start(engine, byte),
            Register::Page => self.write_page(byte),
            Register::Memory(place) => self.write_memory(place, byte),
        }
    }

    fn try_burst(&mut self, first: usize, bytes: &[u8]) -> Result<(), u8> {
        if bytes.is_empty() {
            return Err(1);
        }
        // all addresses are judged before any byte
        if (first..first + bytes.len()).any(|address| register(address).is_none()) {
            return Err(2);
        }
        for (address, &byte) in (first..).zip(bytes) {
            self.write(register(address).ok_or(2)?, byte)?;
        }
        Ok(())
    }

    /// Writes bytes to registers from an address on. Answers 0, or the refusal, which undoes all.
    pub fn burst(&mut self, first: u16, bytes: &[u8]) -> u8 {
        let mut after = self.clone();
        match after.try_burst(usize::from(first), bytes) {
            Ok(()) => {
                *self = after;
                0
            }
            Err(number) => number,
        }
    }
}
