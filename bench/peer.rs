//! The program `lights`, which answers the lines that it is given.
use std::io::{BufRead, BufReader, Result, Write};
use std::process::{Child, ChildStdin, ChildStdout, Command, Stdio};

/// What stands before the number of a refusal.
pub const REFUSED: &str = "refused ";

pub struct Peer {
    child: Child,
    input: Option<ChildStdin>,
    output: BufReader<ChildStdout>,
}

impl Peer {
    /// Starts it, to take commands from standard input. What it says on standard error comes with its answers.
    pub fn start(program: &str) -> Result<Peer> {
        let mut command = Command::new("sh");
        command.args(["-c", "exec \"$0\" - 2>&1", program]);
        let mut child = command.stdin(Stdio::piped()).stdout(Stdio::piped()).spawn()?;
        let output = BufReader::new(child.stdout.take().expect("stdout is a pipe"));
        Ok(Peer { input: child.stdin.take(), output, child })
    }

    /// Gives it lines, all in one write. They have to fit the pipe.
    pub fn tell(&mut self, lines: &str) -> Result<()> {
        self.input.as_mut().expect("open until the end").write_all(lines.as_bytes())
    }

    /// Its next line; of a refusal nothing after the number.
    pub fn answer(&mut self) -> Result<String> {
        let mut bytes = Vec::new();
        self.output.read_until(b'\n', &mut bytes)?;
        let mut line = String::from_utf8_lossy(&bytes).trim_end_matches('\n').to_string();
        if let Some(place) = line.find(REFUSED) {
            let number = place + REFUSED.len();
            let digits = line[number..].bytes().take_while(u8::is_ascii_digit).count();
            line.truncate(number + digits);
        }
        Ok(line)
    }

    /// Its next lines.
    pub fn answers(&mut self, count: usize) -> Result<Vec<String>> {
        (0..count).map(|_| self.answer()).collect()
    }

    /// Ends it.
    pub fn end(mut self) -> Result<()> {
        self.input = None;
        self.child.wait().map(|_| ())
    }
}

/// The processor's name, as the system tells it.
pub fn processor() -> String {
    let told = std::fs::read_to_string("/proc/cpuinfo").unwrap_or_default();
    let line = told.lines().find(|line| line.starts_with("model name"));
    line.and_then(|line| line.split(": ").nth(1)).unwrap_or("unknown").to_string()
}
