//! Sheets: document 01's example, one with an op in every word, and random ones, good and bad.

pub struct Random(u64);

impl Random {
    pub fn new(seed: u64) -> Self {
        Random(seed)
    }

    fn next(&mut self) -> u64 {
        self.0 ^= self.0 << 13;
        self.0 ^= self.0 >> 7;
        self.0 ^= self.0 << 17;
        self.0
    }

    pub fn below(&mut self, limit: u64) -> u64 {
        self.next() % limit
    }

    fn one_of<'a>(&mut self, words: &[&'a str]) -> &'a str {
        words[self.below(words.len() as u64) as usize]
    }
}

const VARIABLES: &[&str] = &["A", "B", "C", "D"];
const TARGETS: &[&str] = &["A", "B", "C"];
const TRIGGERS: &[&str] = &["0", "1", "2", "3", "4", "5", "6", "7", "32", "33", "39"];

fn op(random: &mut Random) -> String {
    let mut n = |limit: u64| random.below(limit);
    let (p, t, byte, step, address, skip) = (n(2), 1 + n(31), n(256), n(128), n(96), n(32));
    let (loops, output) = (n(64), [1, 2, 3, 4, 5, 6, 7, 8, 9, 16][n(10) as usize]);
    let (l, r, to) = (random.one_of(VARIABLES), random.one_of(VARIABLES), random.one_of(TARGETS));
    let dir = random.one_of(&["up", "down"]);
    match random.below(18) {
        0 => "op=rst".to_string(),
        1 => format!("op=ramp prescale={p} time={t} dir={dir} count={byte}"),
        2 => format!("op=wait prescale={p} time={t}"),
        3 => format!("op=set value={byte}"),
        4 => format!("op=ramp-var prescale={p} dir={dir} time={l} count={r}"),
        5 => format!("op=set-var from={l}"),
        6 => format!("op=branch-var loops={l} step={step}"),
        7 => format!("op={} skip={skip} left={l} right={r}", random.one_of(&["jne", "jl", "jge", "je"])),
        8 => format!("op={} to={to} value={byte}", random.one_of(&["ld", "add", "sub"])),
        9 => format!("op={} to={to} left={l} right={r}", random.one_of(&["add-var", "sub-var"])),
        10 => {
            let at = ["map-start", "ld-end", "ld-start", "ld-addr", "map-addr"];
            format!("op=mux-{} address={address}", random.one_of(&at))
        }
        11 => "op=mux-clr".to_string(),
        12 => format!("op=mux-sel output={output}"),
        13 => format!("op=mux-{}", random.one_of(&["map-next", "ld-next", "map-prev", "ld-prev"])),
        14 => format!("op=branch loops={loops} step={step}"),
        15 => format!("op=end int={p} reset={}", random.below(2)),
        16 => "op=int".to_string(),
        _ => format!("op=trigger wait={} send={}", random.one_of(TRIGGERS), random.one_of(TRIGGERS)),
    }
}

fn text_of(lines: &[String]) -> Vec<u8> {
    lines.iter().flat_map(|line| [line.as_bytes(), b"\n"].concat()).collect()
}

pub fn worked() -> Vec<u8> {
    let mut lines = vec![
        "engine=1 use=yes first=0 last=6 table=no".to_string(),
        "engine=2 use=yes first=7 last=13 table=no".to_string(),
        "engine=3 use=no".to_string(),
    ];
    for output in [1, 3] {
        lines.push(format!("op=mux-sel output={output}"));
        for line in [
            "op=set value=255",
            "op=wait prescale=1 time=31",
            "op=set value=0",
            "op=wait prescale=1 time=31",
            "op=branch loops=4 step=1",
            "op=end int=0 reset=0",
        ] {
            lines.push(line.to_string());
        }
    }
    lines.extend((0..82).map(|_| "spare=0".to_string()));
    text_of(&lines)
}

/// An op that is good: not a ramp up by 0.
fn good_op(random: &mut Random) -> String {
    loop {
        let line = op(random);
        if !(line.contains("dir=up") && line.ends_with("count=0")) {
            return line;
        }
    }
}

pub fn all_code() -> Vec<u8> {
    let mut random = Random::new(7);
    let mut lines = vec![
        "engine=1 use=yes first=0 last=95 table=no".to_string(),
        "engine=2 use=no".to_string(),
        "engine=3 use=no".to_string(),
    ];
    lines.extend((0..96).map(|_| good_op(&mut random)));
    text_of(&lines)
}

/// A range in order, or now and then not.
fn range(random: &mut Random) -> (u64, u64) {
    let (a, b) = (random.below(96), random.below(96));
    if random.below(20) == 0 { (a, b) } else { (a.min(b), a.max(b)) }
}

fn plan_line(random: &mut Random, engine: usize) -> (String, Option<(u64, u64)>, Option<(u64, u64)>) {
    if random.below(3) == 0 {
        return (format!("engine={engine} use=no"), None, None);
    }
    let (first, last) = range(random);
    let begin = format!("engine={engine} use=yes first={first} last={last}");
    if random.below(2) == 0 {
        return (format!("{begin} table=no"), Some((first, last)), None);
    }
    let (top, bottom) = range(random);
    (format!("{begin} table=yes top={top} bottom={bottom}"), Some((first, last)), Some((top, bottom)))
}

/// Changes a byte, takes one out or puts one in, at random.
fn spoil(random: &mut Random, text: &mut Vec<u8>) {
    let bytes = b"=  \n\r\t0129ABDxyz\0\xC8-+";
    let byte = bytes[random.below(bytes.len() as u64) as usize];
    let at = random.below(text.len().max(1) as u64) as usize;
    match random.below(3) {
        0 if at < text.len() => text[at] = byte,
        1 if at < text.len() => {
            text.remove(at);
        }
        _ => text.insert(at.min(text.len()), byte),
    }
}

/// Replaces a word of a line by another, so that keys, ops and values change.
fn replace(random: &mut Random, line: &mut String) {
    let from = ["value", "op", "=", "255", "0", "1", "A", "up", "yes", "no", "set", "spare", "row", "first"];
    let to = ["values", "opp", "==", "256", "00", "99999999999999999999999", "E", "left", "maybe", "", "sett", "row", "spare", "last"];
    let (a, b) = (random.one_of(&from), random.one_of(&to));
    *line = line.replacen(a, b, 1);
}

pub fn sheet(random: &mut Random) -> Vec<u8> {
    let (mut lines, mut code, mut tables) = (Vec::new(), Vec::new(), Vec::new());
    for engine in 1..=3 {
        let (line, range, table) = plan_line(random, engine);
        lines.push(line);
        code.extend(range);
        tables.extend(table);
    }
    let has = |ranges: &[(u64, u64)], a: u64| ranges.iter().any(|range| (range.0..=range.1).contains(&a));
    for address in 0..96 {
        lines.push(if has(&code, address) {
            if random.below(400) == 0 { op(random) } else { good_op(random) }
        } else if has(&tables, address) {
            format!("row={}", random.below(65536))
        } else {
            format!("spare={}", random.below(65536))
        });
    }
    for _ in 0..random.below(3) {
        let at = random.below(lines.len() as u64) as usize;
        replace(random, &mut lines[at]);
    }
    match random.below(20) {
        0 => lines.truncate(random.below(99) as usize),
        1 => lines.push("spare=0".to_string()),
        2 => lines.push("nonsense".to_string()),
        _ => {}
    }
    let mut text = text_of(&lines);
    for _ in 0..random.below(2) {
        spoil(random, &mut text);
    }
    if random.below(20) == 0 {
        text.pop();
    }
    text
}
