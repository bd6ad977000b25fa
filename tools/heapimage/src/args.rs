//! The command line.

use crate::input::STANDARD_INPUT;
use crate::Failure;
use std::ffi::OsString;
use std::path::PathBuf;

/// What is to be done.
#[derive(Debug, PartialEq, Eq)]
pub enum Command {
    Help,
    Version,
    Show { file: PathBuf, objects: bool },
    Check { file: PathBuf },
    Diff { a: PathBuf, b: PathBuf },
    Dot { file: PathBuf },
}

impl Command {
    /// The command that the words behind the program's name ask for.
    pub fn parse(arguments: &[OsString]) -> Result<Command, Failure> {
        let words = Words::sort(arguments)?;
        if words.has("--help") || words.has("-h") {
            return Ok(Command::Help);
        }
        if words.has("--version") || words.has("-V") {
            return Ok(Command::Version);
        }
        let (name, files) =
            words.plain.split_first().ok_or_else(|| usage("no command is given"))?;
        let (name, objects) = (name.to_string_lossy(), words.has("--objects"));
        match &*name {
            "help" => Ok(Command::Help),
            "show" => one(&name, files).map(|file| Command::Show { file, objects }),
            _ if objects => Err(usage("--objects is an option of show alone")),
            "check" => one(&name, files).map(|file| Command::Check { file }),
            "diff" => two(&name, files).map(|[a, b]| Command::Diff { a, b }),
            "dot" => one(&name, files).map(|file| Command::Dot { file }),
            _ => Err(usage(&format!("there is no command '{name}'"))),
        }
    }
}

const OPTIONS: [&str; 5] = ["--help", "-h", "--version", "-V", "--objects"];

/// The words of a command line: options, wherever they stand before a `--`, and all others.
struct Words<'a> {
    options: Vec<&'a str>,
    plain: Vec<&'a OsString>,
}

impl<'a> Words<'a> {
    fn sort(arguments: &'a [OsString]) -> Result<Self, Failure> {
        let end = arguments.iter().position(|word| word == "--").unwrap_or(arguments.len());
        let (mut options, mut plain) = (Vec::new(), Vec::new());
        for word in &arguments[..end] {
            match word.to_str() {
                Some(option) if OPTIONS.contains(&option) => options.push(option),
                Some(option) if option.starts_with('-') && option != STANDARD_INPUT => {
                    return Err(usage(&format!("there is no option '{option}'")));
                }
                _ => plain.push(word),
            }
        }
        plain.extend(arguments.iter().skip(end + 1));
        Ok(Words { options, plain })
    }

    fn has(&self, option: &str) -> bool {
        self.options.contains(&option)
    }
}

fn one(command: &str, files: &[&OsString]) -> Result<PathBuf, Failure> {
    match files {
        [file] => Ok(file.into()),
        _ => Err(usage(&format!("{command} takes one file, not {}", files.len()))),
    }
}

fn two(command: &str, files: &[&OsString]) -> Result<[PathBuf; 2], Failure> {
    match files {
        [a, b] if a == b && *a == STANDARD_INPUT => {
            Err(usage("only one of the two files can be standard input"))
        }
        [a, b] => Ok([a.into(), b.into()]),
        _ => Err(usage(&format!("{command} takes two files, not {}", files.len()))),
    }
}

fn usage(wrong: &str) -> Failure {
    Failure::usage(&format!("{wrong}; 'heapimage --help' lists the commands"))
}

#[cfg(test)]
mod tests {
    use super::*;

    fn parse(line: &str) -> Result<Command, String> {
        let words: Vec<OsString> = line.split_whitespace().map(OsString::from).collect();
        Command::parse(&words).map_err(|failure| failure.message)
    }

    fn show(file: &str, objects: bool) -> Result<Command, String> {
        Ok(Command::Show { file: file.into(), objects })
    }

    #[test]
    fn each_command_has_its_files() {
        assert_eq!(parse("show f"), show("f", false));
        assert_eq!(parse("check -"), Ok(Command::Check { file: "-".into() }));
        assert_eq!(parse("diff f -"), Ok(Command::Diff { a: "f".into(), b: "-".into() }));
        assert_eq!(parse("dot f"), Ok(Command::Dot { file: "f".into() }));
    }

    #[test]
    fn options_may_stand_anywhere_before_two_dashes() {
        for line in ["show --objects f", "--objects show f", "show f --objects"] {
            assert_eq!(parse(line), show("f", true), "{line}");
        }
        assert_eq!(parse("show -- --objects"), show("--objects", false));
        for line in ["--help", "-h", "help", "show --help", "nothing -h", "show a b -h"] {
            assert_eq!(parse(line), Ok(Command::Help), "{line}");
        }
        for line in ["--version", "-V", "dot -V"] {
            assert_eq!(parse(line), Ok(Command::Version), "{line}");
        }
    }

    #[test]
    fn a_wrong_line_is_told_what_is_wrong() {
        for (line, wrong) in [
            ("", "no command is given"),
            ("look f", "there is no command 'look'"),
            ("show", "show takes one file, not 0"),
            ("show f g", "show takes one file, not 2"),
            ("diff f", "diff takes two files, not 1"),
            ("diff - -", "only one of the two files can be standard input"),
            ("show --color f", "there is no option '--color'"),
            ("dot --objects f", "--objects is an option of show alone"),
        ] {
            let message = format!("{wrong}; 'heapimage --help' lists the commands");
            assert_eq!(parse(line), Err(message), "{line}");
        }
    }
}
