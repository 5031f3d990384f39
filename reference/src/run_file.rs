//! Reading a run file (docs/run-file.md).

use crate::ensemble::{Step, Whose};
use crate::statements::{Operation, Statement};

/// The most bytes that a run file may have.
pub const LONGEST: usize = 32_768;

const TOO_LONG: u8 = 20;
const HEAD: u8 = 21;
const NAME: u8 = 22;
const STEP: u8 = 23;
const UNLISTED: u8 = 24;
const MORE: u8 = 25;

/// A fault of the file: its number and its line from 1, or 0 for a file that is too long.
#[derive(Debug, PartialEq, Eq)]
pub struct Fault {
    pub number: u8,
    pub line: usize,
}

/// A run file that is right: the names, and each step with its own line.
pub struct RunFile<'a> {
    pub names: Vec<&'a str>,
    pub steps: Vec<(&'a str, Step)>,
}

/// The part of a file that is still to be read, and the number of the line read last.
struct Lines<'a> {
    rest: &'a [u8],
    line: usize,
}

impl<'a> Lines<'a> {
    /// Reads the next line: what `reader` makes of its text, or a fault with the number that `reader` gives. A line
    /// that is missing, is not ended by byte 10 or is not text gets the number `otherwise`.
    fn next<T>(&mut self, otherwise: u8, reader: impl FnOnce(&'a str) -> Result<T, u8>) -> Result<T, Fault> {
        self.line += 1;
        let end = self.rest.iter().position(|byte| *byte == b'\n');
        let text = end.and_then(|end| std::str::from_utf8(&self.rest[..end]).ok());
        let read = text.ok_or(otherwise).and_then(reader).map_err(|number| Fault { number, line: self.line })?;
        self.rest = &self.rest[text.map_or(0, str::len) + 1..];
        Ok(read)
    }
}

/// Reads a whole run file. The first faulty or missing line decides.
pub fn read(file: &[u8]) -> Result<RunFile<'_>, Fault> {
    if file.len() > LONGEST {
        return Err(Fault { number: TOO_LONG, line: 0 });
    }
    let mut lines = Lines { rest: file, line: 0 };
    let mut names = Vec::new();
    for _ in 0..lines.next(HEAD, |text| head(text, "names", 1, 16))? {
        let name = lines.next(NAME, |text| {
            let fresh = is_name(text) && !names.contains(&text);
            fresh.then_some(text).ok_or(NAME)
        })?;
        names.push(name);
    }
    let mut steps = Vec::new();
    for _ in 0..lines.next(HEAD, |text| head(text, "steps", 0, 999))? {
        steps.push(lines.next(STEP, |text| Ok((text, step(text, &names)?)))?);
    }
    if lines.rest.is_empty() {
        Ok(RunFile { names, steps })
    } else {
        Err(Fault { number: MORE, line: lines.line + 1 })
    }
}

/// A section's head: its word and a count within bounds.
fn head(text: &str, word: &str, least: u64, most: u64) -> Result<u64, u8> {
    let count = text.strip_prefix(word).and_then(|rest| rest.strip_prefix(' '));
    count.and_then(|count| number(count, most)).filter(|count| *count >= least).ok_or(HEAD)
}

/// Whether a word is 1 to 8 letters a to z.
fn is_name(word: &str) -> bool {
    (1..=8).contains(&word.len()) && word.bytes().all(|byte| byte.is_ascii_lowercase())
}

/// A number of 1 to 18 digits without a needless zero, at most `most`.
fn number(word: &str, most: u64) -> Option<u64> {
    let digits = (1..=18).contains(&word.len()) && word.bytes().all(|byte| byte.is_ascii_digit());
    let needless = word.len() > 1 && word.starts_with('0');
    if !digits || needless {
        return None;
    }
    word.parse().ok().filter(|value| *value <= most)
}

/// A step line. The name is looked up last: number 24 is given only where the line is otherwise right.
fn step(text: &str, names: &[&str]) -> Result<Step, u8> {
    let words: Vec<&str> = text.split(' ').collect();
    let server = |word| small(word).map(usize::from);
    let whose = |server_word, name, job| {
        let server = server(server_word)?;
        let job = number(job, u64::from(u32::MAX)).ok_or(STEP)?;
        if !is_name(name) {
            return Err(STEP);
        }
        let client = names.iter().position(|listed| *listed == name).ok_or(UNLISTED)?;
        Ok(Whose { server, client, job })
    };
    Ok(match words[..] {
        ["begin", at, name, job] => Step::Begin(whose(at, name, job)?),
        ["commit", at, name, job] => Step::Commit(whose(at, name, job)?),
        ["abort", at, name, job] => Step::Abort(whose(at, name, job)?),
        ["suspect", at] => Step::Suspect { server: server(at)? },
        ["order"] => Step::Order,
        ["deliver", at] => Step::Deliver { server: server(at)? },
        ["stop", at] => Step::Stop { server: server(at)? },
        ["start", at] => Step::Start { server: server(at)? },
        ["cell", at, cell] => Step::Cell { server: server(at)?, cell: usize::from(small(cell)?) },
        [word, at, name, job, cell, ref rest @ ..] => {
            let operation = operation(word, rest)?;
            let statement = Statement { cell: usize::from(small(cell)?), operation };
            Step::Run(whose(at, name, job)?, statement)
        }
        _ => return Err(STEP),
    })
}

/// The operation of a run step, from its word and the words after the cell.
fn operation(word: &str, rest: &[&str]) -> Result<Operation, u8> {
    let value = |word| number(word, u64::MAX).ok_or(STEP);
    Ok(match (word, rest) {
        ("get", []) => Operation::Get,
        ("heads", []) => Operation::Heads,
        ("set", [v]) => Operation::Set(value(v)?),
        ("add", [v]) => Operation::Add(value(v)?),
        ("take", [v]) => Operation::Take(value(v)?),
        ("join", [member]) => Operation::Join(small(member)?),
        ("leave", [member]) => Operation::Leave(small(member)?),
        _ => return Err(STEP),
    })
}

/// The number of a server, a cell or a member, which is at most 255.
fn small(word: &str) -> Result<u8, u8> {
    number(word, 255).map(|value| value as u8).ok_or(STEP)
}
