//! Random scripts from a fixed seed. Programs are mostly defined words with short times, so that
//! engines get far; calls are mostly valid, and each kind of refusal is asked for.
use crate::calls::Call;

/// Marsaglia's xorshift.
pub struct Random(u64);

impl Random {
    pub fn new(seed: u64) -> Random {
        Random(seed | 1)
    }

    fn next(&mut self) -> u64 {
        self.0 ^= self.0 << 13;
        self.0 ^= self.0 >> 7;
        self.0 ^= self.0 << 17;
        self.0
    }

    fn below(&mut self, bound: u16) -> u16 {
        (self.next() >> 32) as u16 % bound
    }

    fn byte(&mut self) -> u8 {
        (self.next() >> 32) as u8
    }

    fn one_in(&mut self, bound: u16) -> bool {
        self.below(bound) == 0
    }

    fn pick<T: Copy>(&mut self, from: &[T]) -> T {
        from[usize::from(self.below(from.len() as u16))]
    }
}

/// A value that is often at an edge.
fn value(random: &mut Random) -> u16 {
    match random.below(3) {
        0 => random.pick(&[0, 1, 2, 3, 31, 32, 254, 255]),
        1 => random.below(8),
        _ => random.below(256),
    }
}

/// A step that is mostly near the engine's start.
fn step(random: &mut Random) -> u16 {
    if random.one_in(8) { random.below(128) } else { random.below(24) }
}

fn address(random: &mut Random) -> u16 {
    if random.one_in(4) { random.pick(&[0, 95, 94, 1]) } else { random.below(96) }
}

/// The bits of a trigger word: engines, and now and then the pin.
fn trigger_bits(random: &mut Random) -> u16 {
    random.below(8) + if random.one_in(3) { 32 } else { 0 }
}

/// A word that lasts: a wait or a ramp, short most times.
fn long_word(random: &mut Random) -> u16 {
    let long = random.one_in(8);
    let prescale = if long { random.below(2) } else { 0 };
    let time = 1 + random.below(if long { 31 } else { 3 });
    let count = if random.one_in(6) { random.below(256) } else { random.below(5) };
    let sign = random.below(2);
    match random.below(3) {
        0 => prescale << 14 | time << 9,
        1 => prescale << 14 | time << 9 | sign << 8 | count,
        _ => 0x8400 + 32 * prescale + 16 * sign + random.below(16),
    }
}

fn mux_word(random: &mut Random) -> u16 {
    match random.below(6) {
        0 => 0x9D00 + random.below(10),
        1 => random.pick(&[0x9D00, 0x9D10, 0x9D01, 0x9D02]),
        2 | 3 => random.pick(&[0x9D80, 0x9D81, 0x9DC0, 0x9DC1]),
        _ => random.pick(&[0x9C00, 0x9C80, 0x9E00, 0x9F00, 0x9F80]) + address(random),
    }
}

fn arithmetic_word(random: &mut Random) -> u16 {
    let to = 1024 * random.below(3);
    match random.below(2) {
        0 => random.pick(&[0x9000, 0x9100, 0x9200]) + to + value(random),
        _ => random.pick(&[0x9300, 0x9310]) + to + random.below(16),
    }
}

fn flow_word(random: &mut Random) -> u16 {
    let skip = if random.one_in(4) { random.below(32) } else { random.below(4) };
    let loops = if random.one_in(4) { random.below(64) } else { random.below(4) };
    match random.below(4) {
        0 => 0xA000 + 128 * loops + step(random),
        1 => 0x8600 + 4 * step(random) + random.below(4),
        _ => 0x8800 + 0x200 * random.below(4) + 16 * skip + random.below(16),
    }
}

fn rare_word(random: &mut Random) -> u16 {
    match random.below(8) {
        0 => 0x0000,
        1 => random.pick(&[0xC000, 0xC800, 0xD000, 0xD800]),
        2 | 3 => 0xC400,
        4 => 0xE000 + 128 * trigger_bits(random) + 2 * trigger_bits(random),
        _ => 0xE000 + 2 * trigger_bits(random),
    }
}

/// A word of a program; one in `wild` has any code, or one with a bit turned.
fn word(random: &mut Random, wild: u16) -> u16 {
    if !random.one_in(wild) {
        return defined_word(random);
    }
    match random.below(2) {
        0 => random.next() as u16,
        _ => defined_word(random) ^ 1 << random.below(16),
    }
}

fn defined_word(random: &mut Random) -> u16 {
    match random.below(16) {
        0..=2 => long_word(random),
        3 | 4 => 0x4000 + value(random),
        5 => 0x8460 + random.below(4),
        6..=8 => mux_word(random),
        9..=11 => arithmetic_word(random),
        12..=14 => flow_word(random),
        _ => rare_word(random),
    }
}

/// A script under way.
struct Writer {
    script: Vec<Call>,
}

impl Writer {
    fn burst(&mut self, first: u8, bytes: &[u8]) {
        self.script.push(Call::Burst(first, bytes.to_vec()));
    }

    fn run(&mut self, beats: u32) {
        self.script.push(Call::Run(beats));
    }

    /// Disables, loads and writes some pages with their page number first, then starts the engines.
    fn program(&mut self, random: &mut Random, pages: u8) {
        self.burst(0x01, &[0x00]);
        self.burst(0x01, &[random.pick(&[0x15, 0x10, 0x01])]);
        let wild = random.pick(&[20, 200, u16::MAX]);
        for page in 0..pages {
            let mut bytes = vec![page];
            for _ in 0..16 {
                bytes.extend(word(random, wild).to_be_bytes());
            }
            self.burst(0x4F, &bytes);
        }
        let near_end = if random.one_in(4) { 60 } else { 0 };
        let starts = [0; 3].map(|_: u8| near_end + random.below(if near_end == 0 { 64 } else { 36 }) as u8);
        self.burst(0x4C, &starts);
        self.burst(0x3C, &[value(random) as u8]);
        let modes = random.pick(&[0x2A, 0x2A, 0x2A, 0x20, 0x28, 0x0A]);
        self.burst(0x01, &[modes]);
        self.burst(0x00, &[0x40 | random.pick(&[0x2A, 0x2A, 0x2A, 0x15, 0x3F, 0x26])]);
    }

    fn beats(&mut self, random: &mut Random) {
        match random.below(200) {
            0 => self.run(1_000_001 + u32::from(random.below(3))),
            1 => self.run(20_000),
            2..=60 => self.run(random.below(200).into()),
            61..=90 => self.run(random.below(3).into()),
            _ => self.script.push(Call::Tick(random.one_in(3))),
        }
    }

    /// A write of one register, mostly with a value that it takes.
    fn register(&mut self, random: &mut Random) {
        let any = random.byte();
        match random.below(14) {
            0..=4 => self.burst(0x00, &[if random.one_in(12) { any } else { 0x40 | any & 0x3F }]),
            5 | 6 => self.burst(0x01, &[if random.one_in(3) { any & 0x3F } else { any & 0x2A }]),
            7 => self.burst(0x01, &[random.pick(&[0x00, 0x2A, 0x15, any])]),
            8 | 9 => self.burst(0x16 + random.below(9) as u8, &[any]),
            10 => self.burst(0x3C, &[any]),
            11 => self.burst(0x4C + random.below(3) as u8, &[if random.one_in(4) { any } else { any % 96 }]),
            12 => self.burst(0x4F, &[if random.one_in(3) { any } else { any % 7 }]),
            _ => self.memory(random),
        }
    }

    /// A byte of the memory, perhaps with one engine loading while another is mid-word.
    fn memory(&mut self, random: &mut Random) {
        if random.one_in(2) {
            self.burst(0x01, &[random.pick(&[0x24, 0x21, 0x09, 0x06])]);
        }
        self.burst(0x50 + random.below(32) as u8, &[random.byte()]);
    }

    /// A burst of any length at any register, and at the edges of the list.
    fn any_burst(&mut self, random: &mut Random) {
        let first = match random.below(6) {
            0 => random.byte(),
            1 => random.pick(&[0x6F, 0x70, 0xFF, 0x1F, 0x3D]),
            2 => 0x4C + random.below(4) as u8,
            3 => 0x16 + random.below(9) as u8,
            4 => random.below(2) as u8,
            _ => 0x50 + random.below(32) as u8,
        };
        let length = if random.one_in(3) { random.below(41) } else { random.below(4) };
        let small = random.one_in(2);
        let bytes: Vec<u8> = (0..length).map(|_| if small { random.byte() % 6 } else { random.byte() }).collect();
        self.burst(first, &bytes);
    }
}

/// Calls to a new chip: a program most times, then any calls, now and then another program.
pub fn script(random: &mut Random) -> Vec<Call> {
    let mut writer = Writer { script: Vec::new() };
    if !random.one_in(20) {
        writer.program(random, 6);
    }
    for _ in 0..random.below(80) {
        match random.below(40) {
            0 => {
                let pages = random.byte() % 7;
                writer.program(random, pages);
            }
            1..=3 => writer.script.push(Call::Interrupts),
            4..=9 => writer.register(random),
            10 | 11 => writer.any_burst(random),
            _ => writer.beats(random),
        }
    }
    if random.one_in(1000) {
        writer.run(1_000_000);
    }
    writer.script
}
