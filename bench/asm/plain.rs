//! A plain reader of sheets, written from document 01, to compare and to time the proved one with.

pub const WORDS: usize = 96;

/// An engine's code range, first and last, and perhaps its table, top and bottom.
#[derive(Clone, Copy, PartialEq, Debug)]
pub struct Used {
    pub code: (u16, u16),
    pub table: Option<(u16, u16)>,
}

pub type Plan = [Option<Used>; 3];

/// Why a line is refused, in the order in which that is judged.
#[derive(Clone, Copy, PartialEq, PartialOrd)]
enum Bad {
    Malformed = 20,
    UnknownOp = 21,
    Outside = 22,
}

/// What a value may be.
#[derive(Clone, Copy)]
enum Kind {
    Number(u16, u16),
    TwoRanges(u16, u16, u16, u16),
    Words(&'static [&'static str]),
}

use Kind::{Number, TwoRanges, Words};

const FLAG: Kind = Number(0, 1);
const TIME: Kind = Number(1, 31);
const BYTE: Kind = Number(0, 255);
const STEP: Kind = Number(0, 127);
const ADDRESS: Kind = Number(0, 95);
const VARIABLE: Kind = Words(&["A", "B", "C", "D"]);
const TARGET: Kind = Words(&["A", "B", "C"]);
const DIRECTION: Kind = Words(&["up", "down"]);
const TRIGGERS: Kind = TwoRanges(0, 7, 32, 39);

type Form = &'static [(&'static str, Kind)];

const JUMP: Form = &[("skip", Number(0, 31)), ("left", VARIABLE), ("right", VARIABLE)];
const ARITH: Form = &[("to", TARGET), ("value", BYTE)];
const ARITH_VAR: Form = &[("to", TARGET), ("left", VARIABLE), ("right", VARIABLE)];
const AT: Form = &[("address", ADDRESS)];

/// The pairs after an operation's name, the word's base, and what each value is multiplied with.
fn form_of(op: &[u8]) -> Option<(Form, u16, &'static [u16])> {
    Some(match op {
        b"rst" => (&[], 0x0000, &[]),
        b"ramp" => (
            &[("prescale", FLAG), ("time", TIME), ("dir", DIRECTION), ("count", BYTE)],
            0x0000,
            &[0x4000, 0x200, 0x100, 1],
        ),
        b"wait" => (&[("prescale", FLAG), ("time", TIME)], 0x0000, &[0x4000, 0x200]),
        b"set" => (&[("value", BYTE)], 0x4000, &[1]),
        b"ramp-var" => (
            &[("prescale", FLAG), ("dir", DIRECTION), ("time", VARIABLE), ("count", VARIABLE)],
            0x8400,
            &[32, 16, 4, 1],
        ),
        b"set-var" => (&[("from", VARIABLE)], 0x8460, &[1]),
        b"branch-var" => (&[("loops", VARIABLE), ("step", STEP)], 0x8600, &[1, 4]),
        b"jne" => (JUMP, 0x8800, &[16, 4, 1]),
        b"jl" => (JUMP, 0x8A00, &[16, 4, 1]),
        b"jge" => (JUMP, 0x8C00, &[16, 4, 1]),
        b"je" => (JUMP, 0x8E00, &[16, 4, 1]),
        b"ld" => (ARITH, 0x9000, &[1024, 1]),
        b"add" => (ARITH, 0x9100, &[1024, 1]),
        b"sub" => (ARITH, 0x9200, &[1024, 1]),
        b"add-var" => (ARITH_VAR, 0x9300, &[1024, 4, 1]),
        b"sub-var" => (ARITH_VAR, 0x9310, &[1024, 4, 1]),
        b"mux-map-start" => (AT, 0x9C00, &[1]),
        b"mux-ld-end" => (AT, 0x9C80, &[1]),
        b"mux-ld-start" => (AT, 0x9E00, &[1]),
        b"mux-ld-addr" => (AT, 0x9F00, &[1]),
        b"mux-map-addr" => (AT, 0x9F80, &[1]),
        b"mux-clr" => (&[], 0x9D00, &[]),
        b"mux-sel" => (&[("output", TwoRanges(1, 9, 16, 16))], 0x9D00, &[1]),
        b"mux-map-next" => (&[], 0x9D80, &[]),
        b"mux-ld-next" => (&[], 0x9D81, &[]),
        b"mux-map-prev" => (&[], 0x9DC0, &[]),
        b"mux-ld-prev" => (&[], 0x9DC1, &[]),
        b"branch" => (&[("loops", Number(0, 63)), ("step", STEP)], 0xA000, &[128, 1]),
        b"end" => (&[("int", FLAG), ("reset", FLAG)], 0xC000, &[4096, 2048]),
        b"int" => (&[], 0xC400, &[]),
        b"trigger" => (&[("wait", TRIGGERS), ("send", TRIGGERS)], 0xE000, &[128, 2]),
        _ => return None,
    })
}

/// A decimal number without leading zeros; what is above 65535 is outside every field.
fn decimal(value: &[u8]) -> Result<u16, Bad> {
    if value.is_empty() || (value.len() > 1 && value[0] == b'0') || !value.iter().all(u8::is_ascii_digit) {
        return Err(Bad::Malformed);
    }
    let mut number = 0u32;
    for digit in value {
        number = number * 10 + u32::from(digit - b'0');
        if number > 65535 {
            return Err(Bad::Outside);
        }
    }
    Ok(number as u16)
}

fn is_word(value: &[u8]) -> bool {
    !value.is_empty() && !value.contains(&b'=')
}

fn is_pair(part: &[u8]) -> bool {
    match part.iter().position(|byte| *byte == b'=') {
        Some(at) => at > 0 && is_word(&part[at + 1..]),
        None => false,
    }
}

fn value_of<'a>(part: &'a [u8], key: &str) -> Result<&'a [u8], Bad> {
    part.strip_prefix(key.as_bytes()).and_then(|rest| rest.strip_prefix(b"=")).ok_or(Bad::Malformed)
}

fn read_value(part: &[u8], key: &str, kind: Kind) -> Result<u16, Bad> {
    let value = value_of(part, key)?;
    match kind {
        Number(low, high) => decimal(value).and_then(|n| if (low..=high).contains(&n) { Ok(n) } else { Err(Bad::Outside) }),
        TwoRanges(a, b, c, d) => {
            decimal(value).and_then(|n| if (a..=b).contains(&n) || (c..=d).contains(&n) { Ok(n) } else { Err(Bad::Outside) })
        }
        Words(words) => {
            if !is_word(value) {
                return Err(Bad::Malformed);
            }
            let place = words.iter().position(|word| word.as_bytes() == value);
            place.map(|place| place as u16).ok_or(Bad::Outside)
        }
    }
}

type Parts<'a> = std::slice::Split<'a, u8, fn(&u8) -> bool>;

fn is_space(byte: &u8) -> bool {
    *byte == b' '
}

fn parts_of(line: &[u8]) -> Parts<'_> {
    line.split(is_space as fn(&u8) -> bool)
}

/// After an unknown word only the shape of the pairs is judged.
fn unknown(mut rest: Parts, bad: Bad) -> Bad {
    if rest.all(is_pair) { bad } else { Bad::Malformed }
}

/// Keeps the lower of two refusals.
fn note(worst: &mut Option<Bad>, bad: Bad) {
    if worst.is_none_or(|old| bad < old) {
        *worst = Some(bad);
    }
}

fn read_pairs(parts: &mut Parts, form: &[(&str, Kind)], values: &mut [u16]) -> Result<(), Bad> {
    let mut worst = None;
    for (place, (key, kind)) in form.iter().enumerate() {
        let part = parts.next().ok_or(Bad::Malformed)?;
        match read_value(part, key, *kind) {
            Ok(value) => values[place] = value,
            Err(bad) => note(&mut worst, bad),
        }
    }
    worst.map_or(Ok(()), Err)
}

fn read_op(line: &[u8]) -> Result<u16, Bad> {
    let mut parts = parts_of(line);
    let name = value_of(parts.next().unwrap_or(b""), "op")?;
    if !is_word(name) {
        return Err(Bad::Malformed);
    }
    let Some((form, base, scales)) = form_of(name) else {
        return Err(unknown(parts, Bad::UnknownOp));
    };
    let mut values = [0; 4];
    let read = read_pairs(&mut parts, form, &mut values);
    if parts.next().is_some() {
        return Err(Bad::Malformed);
    }
    read?;
    if name == b"ramp" && values[2] == 0 && values[3] == 0 {
        return Err(Bad::Outside);
    }
    Ok(base + scales.iter().zip(values).map(|(scale, value)| scale * value).sum::<u16>())
}

/// `use=` or `table=`: Some(true) for yes, Some(false) for no, None for another word.
fn read_answer(part: Option<&[u8]>, key: &str) -> Result<Option<bool>, Bad> {
    let value = value_of(part.ok_or(Bad::Malformed)?, key)?;
    match value {
        b"yes" => Ok(Some(true)),
        b"no" => Ok(Some(false)),
        _ if is_word(value) => Ok(None),
        _ => Err(Bad::Malformed),
    }
}

/// A plan line's refusal, once it has ended: of the parts before it, or that there are more.
fn ended(mut parts: Parts, worst: Option<Bad>) -> Result<(), Bad> {
    if parts.next().is_some() {
        return Err(Bad::Malformed);
    }
    worst.map_or(Ok(()), Err)
}

fn lowest(worst: Option<Bad>, bad: Bad) -> Bad {
    match worst {
        Some(old) if old < bad => old,
        _ => bad,
    }
}

fn read_plan(line: &[u8], engine: u16) -> Result<Option<Used>, Bad> {
    let mut parts = parts_of(line);
    let (mut worst, mut number, mut code, mut table) = (None, [0], [0; 2], [0; 2]);
    if let Err(bad) = read_pairs(&mut parts, &[("engine", Number(engine, engine))], &mut number) {
        note(&mut worst, bad);
    }
    match read_answer(parts.next(), "use")? {
        None => return Err(lowest(worst, unknown(parts, Bad::Outside))),
        Some(false) => return ended(parts, worst).map(|()| None),
        Some(true) => {}
    }
    if let Err(bad) = read_pairs(&mut parts, &[("first", ADDRESS), ("last", ADDRESS)], &mut code) {
        note(&mut worst, bad);
    }
    let has_table = match read_answer(parts.next(), "table")? {
        None => return Err(lowest(worst, unknown(parts, Bad::Outside))),
        Some(has_table) => has_table,
    };
    if has_table {
        if let Err(bad) = read_pairs(&mut parts, &[("top", ADDRESS), ("bottom", ADDRESS)], &mut table) {
            note(&mut worst, bad);
        }
    }
    ended(parts, worst)?;
    Ok(Some(Used { code: (code[0], code[1]), table: has_table.then_some((table[0], table[1])) }))
}

fn read_number(line: &[u8], key: &str) -> Result<u16, Bad> {
    let mut parts = parts_of(line);
    let mut value = [0];
    let read = read_pairs(&mut parts, &[(key, Number(0, 65535))], &mut value);
    if parts.next().is_some() {
        return Err(Bad::Malformed);
    }
    read.map(|()| value[0])
}

fn has(range: (u16, u16), address: u16) -> bool {
    (range.0..=range.1).contains(&address)
}

fn read_word(line: &[u8], plan: &Plan, address: u16) -> Result<u16, Bad> {
    let mut used = plan.iter().flatten();
    if used.clone().any(|engine| has(engine.code, address)) {
        read_op(line)
    } else if used.any(|engine| engine.table.is_some_and(|table| has(table, address))) {
        read_number(line, "row")
    } else {
        read_number(line, "spare")
    }
}

fn in_order(range: (u16, u16)) -> bool {
    range.0 <= range.1
}

/// 11 and 12.
fn judge_plan(plan: &Plan) -> Result<(), u16> {
    let used = || plan.iter().flatten();
    if !used().all(|engine| in_order(engine.code) && engine.table.is_none_or(in_order)) {
        return Err(11);
    }
    let meet = |code: (u16, u16), table: (u16, u16)| code.0 <= table.1 && table.0 <= code.1;
    if used().any(|one| used().filter_map(|other| other.table).any(|table| meet(one.code, table))) {
        return Err(12);
    }
    Ok(())
}

/// The line that begins a text, and the text after its LF; or the refusal's number and line.
fn next_line(text: &[u8], line: u16) -> Result<(&[u8], &[u8]), (u16, u16)> {
    match text.iter().position(|byte| *byte == b'\n') {
        Some(end) => Ok((&text[..end], &text[end + 1..])),
        None if text.is_empty() => Err((23, 0)),
        None => Err((20, line)),
    }
}

/// Reads a sheet; a refusal's number and line, and the image unchanged.
pub fn assemble(text: &[u8], image: &mut [u16]) -> Result<Plan, (u16, u16)> {
    if image.len() != WORDS {
        return Err((9, 0));
    }
    let (mut rest, mut plan, mut words) = (text, [None; 3], [0; WORDS]);
    for (place, engine) in plan.iter_mut().enumerate() {
        let number = place as u16 + 1;
        let (line, after) = next_line(rest, number)?;
        *engine = read_plan(line, number).map_err(|bad| (bad as u16, number))?;
        rest = after;
    }
    for (address, word) in words.iter_mut().enumerate() {
        let number = address as u16 + 4;
        let (line, after) = next_line(rest, number)?;
        *word = read_word(line, &plan, address as u16).map_err(|bad| (bad as u16, number))?;
        rest = after;
    }
    if !rest.is_empty() {
        return Err((23, 0));
    }
    judge_plan(&plan).map_err(|number| (number, 0))?;
    image.copy_from_slice(&words);
    Ok(plan)
}
