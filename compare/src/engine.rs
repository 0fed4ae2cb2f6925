//! The engine's side of a comparison: its programs, right or wrong in one thing, and where what they write differs from the model's text.

use crate::met::Seen;
use crate::wrong;
use std::collections::HashMap;
use std::io::Write;
use std::process::{Command, Stdio};

pub struct Engine<'a> {
    /// The command of a program without its name, which comes last.
    prefix: &'a [String],
    /// What is wrong, where wrong sides are tried.
    pub wrong: Option<&'static str>,
    /// What a program wrote for an input, from which the wrong sides are made one after the other.
    written: HashMap<(String, Vec<u8>), Vec<u8>>,
}

impl<'a> Engine<'a> {
    pub fn new(prefix: &'a [String]) -> Self {
        Engine {
            prefix,
            wrong: None,
            written: HashMap::new(),
        }
    }

    /// What the program of a name writes for an input. Of each day, reasons and corridor of either kind in it, in order, it is told what is
    /// seen in it.
    pub fn run(&mut self, name: &str, input: &[u8], seen: &[Seen]) -> Vec<u8> {
        if self.wrong.is_none() {
            return start(self.prefix, name, input);
        }
        let asked = (name.to_string(), input.to_vec());
        let written = self.written.entry(asked).or_insert_with(|| start(self.prefix, name, input)).clone();
        self.side(written, seen)
    }

    /// What the engine wrote, as its side has it.
    pub fn side(&self, written: Vec<u8>, seen: &[Seen]) -> Vec<u8> {
        match self.wrong {
            Some(side) => wrong::line(side, &written, seen),
            None => written,
        }
    }
}

/// Runs a program on an input, and gives what it writes.
fn start(prefix: &[String], name: &str, input: &[u8]) -> Vec<u8> {
    let command = [prefix, &[name.to_string()]].concat();
    let mut child = Command::new(&command[0])
        .args(&command[1..])
        .stdin(Stdio::piped())
        .stdout(Stdio::piped())
        .spawn()
        .unwrap_or_else(|e| panic!("{}: {e}", command[0]));
    let mut stdin = child.stdin.take().expect("a pipe");
    std::thread::scope(|scope| {
        // A program may stop reading before the end, as `morning` does of a sheet too long.
        scope.spawn(move || {
            let _ = stdin.write_all(input);
        });
        child.wait_with_output().expect("an output").stdout
    })
}

/// Where the engine and the model differ, and the input for which they do.
pub struct Difference {
    what: String,
    input: Vec<u8>,
}

impl Difference {
    /// Says where it is, and keeps the input.
    pub fn report(&self) {
        eprintln!("{}", self.what);
        let _ = std::fs::write("compare-difference.input", &self.input);
        eprintln!("  the input is kept in compare-difference.input");
    }
}

/// Compares what is written, byte by byte.
pub fn same(what: &str, input: &[u8], engine: &[u8], model: &[u8]) -> Result<(), Difference> {
    if engine == model {
        return Ok(());
    }
    let at = engine.iter().zip(model).take_while(|(a, b)| a == b).count();
    let line = 1 + model[..at.min(model.len())].iter().filter(|&&b| b == b'\n').count();
    let shown = |bytes: &[u8]| {
        let text = String::from_utf8_lossy(bytes).into_owned();
        text.lines().nth(line - 1).unwrap_or("nothing").to_string()
    };
    Err(Difference {
        what: format!(
            "compare: {what}: a difference at byte {at}, line {line}\n  engine: {}\n  model:  {}",
            shown(engine),
            shown(model)
        ),
        input: input.to_vec(),
    })
}
