//! What each command does with its files.

use crate::fault::first_fault;
use crate::{diff, dot, input, show, status, Command, Image};
use blockheap::Refusal;
use std::io;
use std::path::Path;

/// What a command writes to standard output, and its exit status.
#[derive(Debug)]
pub struct Answer {
    pub text: String,
    pub status: u8,
}

/// Why a command has no answer, and its exit status.
#[derive(Debug)]
pub struct Failure {
    pub message: String,
    pub status: u8,
}

impl Failure {
    pub fn usage(message: &str) -> Failure {
        Failure { message: message.into(), status: status::USAGE }
    }

    pub fn unwritten(error: &io::Error) -> Failure {
        Failure { message: format!("standard output: {error}"), status: status::UNWRITTEN }
    }

    fn unreadable(path: &Path, error: &io::Error) -> Failure {
        let message = format!("{}: {error}", input::name(path));
        Failure { message, status: status::UNREADABLE }
    }
}

/// Runs a command.
pub fn run(command: &Command) -> Result<Answer, Failure> {
    match command {
        Command::Help => Ok(fine(include_str!("help.txt").into())),
        Command::Version => Ok(fine(format!("heapimage {}\n", env!("CARGO_PKG_VERSION")))),
        Command::Show { file, objects: false } => Ok(fine(show::with_map(&open(file)?))),
        Command::Show { file, objects: true } => Ok(fine(show::with_objects(&open(file)?))),
        Command::Check { file } => check(file),
        Command::Diff { a, b } => compare(a, b),
        Command::Dot { file } => Ok(fine(dot::graph(&open(file)?))),
    }
}

fn fine(text: String) -> Answer {
    Answer { text, status: status::FINE }
}

fn read(path: &Path) -> Result<Vec<u8>, Failure> {
    input::read(path).map_err(|error| Failure::unreadable(path, &error))
}

/// The image in a file. The failure of one that is refused has the refusal's number as its status.
fn open(path: &Path) -> Result<Image, Failure> {
    let file = read(path)?;
    Image::open(&file).map_err(|refusal| Failure {
        message: format!("{}: {}", input::name(path), explain(&file, refusal)),
        status: number(refusal),
    })
}

/// Why the library refuses a file.
fn explain(file: &[u8], refusal: Refusal) -> String {
    match first_fault(file) {
        Some(fault) if fault.refusal == refusal => fault.to_string(),
        _ => refusal.to_string(),
    }
}

fn number(refusal: Refusal) -> u8 {
    refusal.number().try_into().expect("a small number")
}

/// What is wrong with a file is the answer here, not a failure.
fn check(path: &Path) -> Result<Answer, Failure> {
    let file = read(path)?;
    let (verdict, status) = match Image::open(&file) {
        Ok(image) => (show::in_a_sentence(&image), status::FINE),
        Err(refusal) => (explain(&file, refusal), number(refusal)),
    };
    Ok(Answer { text: format!("{}: {verdict}\n", input::name(path)), status })
}

fn compare(a: &Path, b: &Path) -> Result<Answer, Failure> {
    let open = |path| {
        open(path).map_err(|failure| match failure.status {
            status::UNREADABLE => failure,
            _ => Failure { status: status::INCOMPARABLE, ..failure },
        })
    };
    let text = diff::differences(&open(a)?, &open(b)?);
    if text.is_empty() {
        return Ok(fine(text));
    }
    let names = format!("A is {}\nB is {}\n", input::name(a), input::name(b));
    Ok(Answer { text: names + &text, status: status::DIFFERENT })
}
