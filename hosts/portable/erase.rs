//! Erases the proofs from the Rattle source of the library: what is left is Rust.
//!
//! usage: erase PROJECT OUT
//!
//! It takes the crates of crates.txt that `blockheap_c` needs and that have code, and writes into OUT/src a crate without the
//! standard library: NAME.rs has, line for line, crates/NAME/src/lib.rt. Taken out are only these, and leave empty lines:
//! - `ghost use ..;` and `use std::marker::Model;`
//! - `requires { .. }` and `ensures { .. }`, also with a name before the brace, between a function's parameters and its body,
//!   or the `;` of a trait's function, which is left
//! - `ghost NAME ..;` in a trait or an `impl`, and `ghost NAME ..,` in a struct
//! - an `impl Model for ..`, which has only such members
//! - `#![tactic(..)]` at the head of a file, and `#[tactic(..)]` before a function
//! - `#[unsafe(no_mangle)]` before an entry point
//! lib.rs is head.rs, then a module for each crate with the crates in scope that crates.txt lists for it, and a function
//! with C's parameters for each entry point. OUT/casts has the same crate with calls around what might show how wide a usize
//! is: there the compiler's types decide.
//!
//! It knows the words, signs and forms that the source uses. Anything else it refuses, with the line. What is no Rust at all
//! it leaves to the compiler.

use std::collections::BTreeSet;
use std::path::Path;
use std::{env, fs, process};

const HEAD: &str = include_str!("head.rs");
const ENTRY_CRATE: &str = "blockheap_c";

const NUMBERS: [&str; 6] = ["u8", "u16", "u32", "u64", "usize", "i32"];
/// What Rust's own numbers have, and is the same on every host.
const OF_NUMBERS: [&str; 3] = ["from", "max", "min"];
/// What of a usize would show its width: only the other numbers have it here.
const OF_FIXED: [&str; 14] = [
    "BITS", "MAX", "checked_ilog2", "count_ones", "from_le_bytes", "leading_ones", "leading_zeros", "rotate_left", "rotate_right",
    "to_le_bytes", "trailing_ones", "trailing_zeros", "wrapping_add", "wrapping_sub",
];
/// The functions of Rust's own library, beside those of its numbers.
const FUNCTIONS: [&str; 4] =
    ["std::cmp::max(", "std::cmp::min(", "std::num::wrapping_add_u32(", "std::num::wrapping_sub_u32("];
/// The methods of Rust's own numbers, slices, options, results and iterators. None shows how wide a usize is.
const METHODS: [&str; 33] = [
    "all", "and_then", "any", "chunks_exact", "copy_from_slice", "copy_within", "div_ceil", "fill", "filter", "first", "get",
    "into", "is_empty", "is_err", "is_none", "is_ok", "is_some", "iter", "iter_mut", "len", "map", "map_err", "map_or", "max",
    "min", "ok_or", "rev", "saturating_sub", "split_at", "split_at_mut", "take_while", "unwrap_or", "zip",
];
/// Those that count in a usize. A call before them takes only iterators of so few items that any usize counts them.
const COUNTING: [&str; 3] = ["count", "enumerate", "position"];
/// The one that adds, where no sum stands in the source. It is called by another name, which sums of a usize have not.
const SUM: &str = "sum";
/// The names of Rust's own library that begin with a capital. Of its traits a type may be given one.
const CAPITALS: [&str; 14] = [
    "Clone", "Copy", "Eq", "Err", GIVEN, MODEL, "None", "Ok", "Option", "Ord", "PartialEq", "PartialOrd", "Result", "Some",
];
const GIVEN: &str = "From";
/// The trait of Rattle that has only ghost members.
const MODEL: &str = "Model";
const MODEL_USE: &str = "use std::marker::Model;";
/// The words of the language that may stand anywhere in a body, and the one that stands for no name.
const WORDS_IN_BODIES: [&str; 17] = [
    "Self", "_", "break", "continue", "else", "false", "for", "if", "in", "let", "loop", "match", "mut", "return", "self", "true",
    "while",
];
/// The other words that are no names: they mean something in Rattle or in Rust, or are Rust's types and libraries.
const NO_NAMES: [&str; 41] = [
    "alloc", "as", "async", "await", "bool", "char", "const", "core", "crate", "dyn", "ensures", "enum", "extern", "f32", "f64",
    "fn", "ghost", "i128", "i16", "i64", "i8", "impl", "isize", "mod", "move", "pub", "ref", "requires", "static", "std", "str",
    "struct", "super", "trait", "try", "type", "u128", "union", "unsafe", "use", "where",
];
/// Longer signs first.
const SIGNS: [&str; 44] = [
    "\"C\"", "..=", "::", "->", "=>", "==", "!=", "<=", ">=", "<<", ">>", "&&", "||", "+=", "-=", "&=", "|=", "^=", "..", "{", "}",
    "(", ")", "[", "]", ",", ";", ":", ".", "=", "<", ">", "+", "-", "*", "/", "%", "&", "|", "^", "!", "?", INLINE[0],
    INLINE[1],
];
/// Longer signs of Rust that begin as one of these, and what begins a comment that it does not know.
const UNKNOWN_SIGNS: [&str; 9] = ["///", "//!", "/*", "<<=", ">>=", "...", "*=", "/=", "%="];
/// Hints to the compiler, which change no meaning.
const INLINE: [&str; 2] = ["#[inline]", "#[inline(always)]"];
/// How an attribute begins that gives a type what Rust's own library can derive, and what that may be.
const DERIVE: &str = "#[derive(";
const DERIVED: [&str; 7] = ["Clone", "Copy", "Debug", "Eq", "Ord", "PartialEq", "PartialOrd"];
/// The signs and the words that an operand of a shift or a sum may begin behind, and that are no part of it.
const BEFORE_VALUES: [&str; 33] = [
    "(", "[", "{", ",", ";", ":", "=", "+=", "-=", "&=", "|=", "^=", "=>", "==", "!=", "<=", ">=", "<", ">", "&&", "||", "&", "|", "^",
    "..", "..=", "else", "if", "in", "let", "match", "return", "while",
];
/// The signs that close a group or part one: a closure ends before them.
const CLOSING: [&str; 5] = [")", "]", "}", ",", ";"];
/// How ghost texts begin, and the signs that end them outside of brackets of that kind, or of braces. A clause begins with one
/// of two words.
const GHOST: [(&str, &str); 6] = [
    ("ghost ", ";,"), ("pub ghost ", ";,"), (MODEL_USE, ";"), ("#![tactic(", "]"), ("#[tactic(", "]"), (EXPORT, "]"),
];
const CLAUSES: [&str; 2] = ["requires ", "ensures "];
const EXPORT: &str = "#[unsafe(no_mangle)]";
/// What might hide their end.
const HIDING: [&str; 7] = ["//", "/*", "--", "{-", "\"", "\t", "\r"];

type Result<T> = std::result::Result<T, String>;

fn main() {
    let words: Vec<String> = env::args().skip(1).collect();
    let [project, out] = &words[..] else {
        eprintln!("usage: erase PROJECT OUT");
        process::exit(64);
    };
    if let Err(why) = erase_project(Path::new(project), Path::new(out)) {
        eprintln!("erase: {why}");
        process::exit(1);
    }
}

fn erase_project(project: &Path, out: &Path) -> Result<()> {
    let crates = needed_crates(project)?;
    let mut parsed = crates.iter().map(Parser::of).collect::<Result<Vec<_>>>()?;
    // A crate of proofs has only `ghost use`, and the end.
    parsed.retain(|parser| parser.tokens.len() > parser.erased.len() + 1);
    check_methods(&parsed)?;
    check_capitals(&parsed)?;
    check_functions(&parsed)?;
    check_selves(&parsed)?;
    let root = root(&parsed);
    for folder in ["src", "casts"] {
        let out = out.join(folder);
        let write = |name: &str, text: &str| fs::write(out.join(name), text).map_err(|e| format!("{name}: {e}"));
        let _ = fs::remove_dir_all(&out);
        fs::create_dir_all(&out).map_err(|e| format!("{}: {e}", out.display()))?;
        let with_calls = folder == "casts";
        write("lib.rs", &(root.clone() + &if with_calls { probes(&parsed) } else { String::new() }))?;
        for parser in &parsed {
            write(&format!("{}.rs", parser.source.name), &parser.edited(with_calls))?;
        }
    }
    println!("erased: {} crates, {} entry points", parsed.len(), parsed.iter().map(|p| p.entries.len()).sum::<usize>());
    Ok(())
}

/// A method is a function of the source that takes `self`, or one that is listed.
fn check_methods(crates: &[Parser]) -> Result<()> {
    let own: Vec<&str> = crates.iter().flat_map(|parser| parser.methods.iter().copied()).collect();
    let is_unknown = |call: &&[Token]| {
        let name = call[1].text;
        call[0].text == "." && ["(", "::"].contains(&call[2].text) && !own.contains(&name) && !is_listed_method(name)
    };
    for parser in crates {
        if let Some(call) = parser.tokens.windows(3).find(is_unknown) {
            return parser.source.refuse(call[1].from, &format!("`{}`, a method that no crate has", call[1].text));
        }
    }
    Ok(())
}

/// Behind a type, a parameter or `Self` stands a function of the source, or one that a number has too: not what a derive or a trait of
/// Rust's own gives it. Behind Rust's own types and traits stands none.
fn check_functions(crates: &[Parser]) -> Result<()> {
    let own: Vec<&str> = crates.iter().flat_map(|parser| parser.functions.iter().copied()).collect();
    for parser in crates {
        for (at, path) in parser.tokens.windows(3).enumerate() {
            let name = path[2].text;
            if path[1].text != "::" || !is_name(name) || is_capital(name) {
                continue;
            }
            let kind = parser.type_before(at);
            let is_known = own.contains(&name) || OF_NUMBERS.contains(&name) || parser.selves.iter().any(|(number, _)| *number == at);
            if CAPITALS.contains(&kind) || (kind == "Self" || is_capital(kind)) && !is_known {
                return parser.source.refuse(path[0].from, &format!("`{kind}`, of which it does not know `{name}`"));
            }
        }
    }
    Ok(())
}

fn is_listed_method(name: &str) -> bool {
    [&METHODS[..], &OF_FIXED, &COUNTING, &[SUM]].concat().contains(&name)
}

/// A name that begins with a capital is declared in the source, or listed: Rust has more of them at hand.
fn check_capitals(crates: &[Parser]) -> Result<()> {
    let own: Vec<&str> = crates.iter().flat_map(|parser| parser.capitals.iter().copied()).collect();
    let known = [&own[..], &CAPITALS, &OF_FIXED].concat();
    let is_unknown = |token: &&Token| is_capital(token.text) && !known.contains(&token.text);
    for parser in crates {
        if let Some(token) = parser.tokens.iter().find(is_unknown) {
            return parser.source.refuse(token.from, &format!("`{}`, a name that no crate declares", token.text));
        }
    }
    Ok(())
}

/// `Self::` of a number names what a trait of the source gives that number, or what Rust's own has by the number's name.
fn check_selves(crates: &[Parser]) -> Result<()> {
    for parser in crates {
        for (at, kind) in &parser.selves {
            let (token, name) = (&parser.tokens[*at], parser.tokens[at + 2].text);
            let has_it = |(given, to): &(&str, &str)| to == kind && members(crates, given).any(|member| member.name == name);
            let is_given = crates.iter().flat_map(|parser| &parser.given).any(has_it);
            if !is_given && !is_of_number(kind, name) {
                return parser.source.refuse(token.from, &format!("`{}`, of which it does not know `{name}`", token.text));
            }
        }
    }
    Ok(())
}

/// Whether Rust's own number has it, and on every host the same.
fn is_of_number(kind: &str, name: &str) -> bool {
    OF_NUMBERS.contains(&name) || kind != "usize" && OF_FIXED.contains(&name)
}

/// What the traits of that name have.
fn members<'a>(crates: &'a [Parser], name: &'a str) -> impl Iterator<Item = &'a Member<'a>> {
    let traits = crates.iter().flat_map(|parser| &parser.traits);
    traits.filter(move |made| made.name == name).flat_map(|made| &made.members)
}

/// The text of lib.rs.
fn root(crates: &[Parser]) -> String {
    let mut text = HEAD.to_string();
    for Parser { source, .. } in crates {
        text += &format!("\nmod {} {{\n    #[cfg(casts)]\n    use crate::widths::*;\n    use crate::std;\n", source.name);
        for other in crates.iter().filter(|other| source.needs.contains(&other.source.name)) {
            text += &format!("    use crate::{};\n", other.source.name);
        }
        text += &format!("    include!(\"{}.rs\");\n}}\n", source.name);
    }
    text + &crates.iter().flat_map(|parser| parser.entries.clone()).collect::<String>()
}

/// For each trait of the source that one of Rust's own types is given, a module that compiles only if that type has no
/// function or constant of such a name already: Rust would take that one.
fn probes(crates: &[Parser]) -> String {
    let mut text = String::new();
    for (given, kind) in crates.iter().flat_map(|parser| &parser.given) {
        let (mut own, mut uses) = (String::new(), String::new());
        for Member { name, is_function } in members(crates, given) {
            own += &if *is_function { format!(" fn {name}() -> Own {{ Own }}") } else { format!(" const {name}: Own = Own;") };
            uses += &format!(" let _: Own = <{kind}>::{name}{};", if *is_function { "()" } else { "" });
        }
        text += &format!("\nmod {given}_of_{kind} {{\n    struct Own;\n    trait Probe {{{own} }}\n    impl Probe for {kind} {{}}\n");
        text += &format!("    fn probe() {{{uses} }}\n}}\n");
    }
    text
}

// ---- The crates

/// A line of crates.txt, and the text of the crate's one source file.
struct Crate {
    name: String,
    needs: Vec<String>,
    text: String,
}

/// The crates that the entry points need, in the order of crates.txt, where a crate stands behind those that it needs.
fn needed_crates(project: &Path) -> Result<Vec<Crate>> {
    let mut missing = BTreeSet::from([ENTRY_CRATE.to_string()]);
    let mut found = Vec::new();
    for line in read(project, "crates.txt")?.lines().rev().filter(|line| !line.starts_with('#')) {
        let Some((name, needs)) = line.split_once(':') else { continue };
        let name = name.strip_suffix(" staticlib").unwrap_or(name);
        if missing.remove(name) {
            let needs: Vec<String> = needs.split_whitespace().map(str::to_string).collect();
            missing.extend(needs.iter().cloned());
            found.push(Crate { name: name.to_string(), needs, text: read_source(project, name)? });
        }
    }
    if let Some(name) = missing.first() {
        return Err(format!("crates.txt: it has no crate `{name}`"));
    }
    found.reverse();
    Ok(found)
}

fn read(project: &Path, path: &str) -> Result<String> {
    fs::read_to_string(project.join(path)).map_err(|e| format!("{path}: {e}"))
}

fn read_source(project: &Path, name: &str) -> Result<String> {
    let folder = format!("crates/{name}/src");
    for entry in fs::read_dir(project.join(&folder)).map_err(|e| format!("{folder}: {e}"))? {
        let file = entry.map_err(|e| format!("{folder}: {e}"))?.file_name();
        if file != "lib.rt" {
            return Err(format!("{folder}/{}:1: found a second file of a crate", file.to_string_lossy()));
        }
    }
    read(project, &(folder + "/lib.rt"))
}

// ---- Tokens

/// A word, a number, a sign, a label, or a whole ghost text. The last token of a file is empty.
#[derive(Clone, Copy)]
struct Token<'a> {
    text: &'a str,
    from: usize,
    to: usize,
    /// How many brackets are around it. A bracket counts as inside.
    depth: usize,
}

fn is_name(text: &str) -> bool {
    let is_word = text.starts_with(|c: char| c.is_ascii_alphabetic()) && word_length(text) == text.len();
    is_word && ![&WORDS_IN_BODIES[..], &NO_NAMES, &NUMBERS].concat().contains(&text)
}

fn is_capital(text: &str) -> bool {
    is_name(text) && text.starts_with(char::is_uppercase)
}

fn is_number(text: &str) -> bool {
    let is_hexadecimal = |digits: &str| digits.chars().all(|c| c.is_ascii_hexdigit());
    !text.is_empty() && text.chars().all(|c| c.is_ascii_digit()) || text.strip_prefix("0x").is_some_and(is_hexadecimal)
}

fn word_length(text: &str) -> usize {
    text.find(|c: char| !c.is_ascii_alphanumeric() && c != '_').unwrap_or(text.len())
}

impl Crate {
    fn refuse<T>(&self, at: usize, why: &str) -> Result<T> {
        let line = self.text[..at].matches('\n').count() + 1;
        Err(format!("crates/{}/src/lib.rt:{line}: found {why}", self.name))
    }

    fn tokens(&self) -> Result<Vec<Token<'_>>> {
        let (mut tokens, mut open) = (Vec::new(), Vec::new());
        let mut at = self.space_length(0);
        while at < self.text.len() {
            let text = &self.text[at..at + self.token_length(at)?];
            match text {
                "(" => open.push(")"),
                "[" => open.push("]"),
                "{" => open.push("}"),
                _ => (),
            }
            tokens.push(Token { text, from: at, to: at + text.len(), depth: open.len() });
            if [")", "]", "}"].contains(&text) && open.pop() != Some(text) {
                return self.refuse(at, &format!("`{text}`, which closes another bracket than the last"));
            }
            at += text.len();
            at += self.space_length(at);
        }
        if !open.is_empty() {
            return self.refuse(at, "the end of the file, where a bracket is open");
        }
        tokens.push(Token { text: "", from: at, to: at, depth: 0 });
        Ok(tokens)
    }

    /// Blanks, line ends and comments. A comment ends at its line's end, or else at a character that no token begins with.
    fn space_length(&self, at: usize) -> usize {
        let mut rest = self.text[at..].trim_start_matches([' ', '\n']);
        while rest.starts_with("//") && !rest.starts_with("///") && !rest.starts_with("//!") {
            rest = rest.trim_start_matches(|c: char| c == ' ' || c.is_ascii_graphic()).trim_start_matches([' ', '\n']);
        }
        self.text.len() - at - rest.len()
    }

    fn token_length(&self, at: usize) -> Result<usize> {
        let rest = &self.text[at..];
        if let Some(last) = ghost_last(rest) {
            return self.ghost_length(at, last);
        }
        if let Some(length) = derive_length(rest) {
            return Ok(length);
        }
        let label = rest.strip_prefix('\'').map_or(0, word_length);
        match word_length(rest) {
            0 if label > 0 => Ok(1 + label),
            0 => self.sign_length(at),
            length => Ok(length),
        }
    }

    /// Ghost text has its lines to itself, but for the `;` of a trait's function behind a clause.
    fn ghost_length(&self, at: usize, last: &str) -> Result<usize> {
        let rest = &self.text[at..];
        let Some(end) = ghost_end(rest, last) else {
            return self.refuse(at, "ghost text without an end");
        };
        let (text, behind) = rest.split_at(end + 1);
        if let Some((place, hiding)) = HIDING.iter().find_map(|hiding| Some((text.find(hiding)?, hiding))) {
            return self.refuse(at + place, &format!("`{}` in ghost text", hiding.escape_default()));
        }
        let before = self.text[..at].trim_end_matches(' ');
        let behind = behind.strip_prefix(';').filter(|_| is_clause(text)).unwrap_or(behind);
        if !(before.is_empty() || before.ends_with('\n')) || !(behind.is_empty() || behind.starts_with('\n')) {
            return self.refuse(at, "ghost text on a line with other text");
        }
        Ok(text.len())
    }

    fn sign_length(&self, at: usize) -> Result<usize> {
        let rest = &self.text[at..];
        let sign = UNKNOWN_SIGNS.iter().chain(&SIGNS).find(|sign| rest.starts_with(**sign));
        match sign {
            Some(sign) if SIGNS.contains(sign) => Ok(sign.len()),
            Some(sign) => self.refuse(at, &format!("`{sign}`, which it does not know")),
            None => self
                .refuse(at, &format!("`{}`, which it does not know", rest.chars().next().unwrap_or(' ').escape_default())),
        }
    }
}

/// The signs of which the first ends the ghost text that the text begins with, if it begins with one.
fn ghost_last(text: &str) -> Option<&'static str> {
    let clause = CLAUSES.iter().find_map(|word| text.strip_prefix(word));
    let behind_name = |rest: &str| rest[word_length(rest)..].strip_prefix(' ').unwrap_or(rest).starts_with('{');
    if clause.is_some_and(behind_name) {
        return Some("}");
    }
    GHOST.iter().find(|(beginning, _)| text.starts_with(beginning)).map(|(_, last)| *last)
}

fn ghost_end(text: &str, last: &str) -> Option<usize> {
    let (open, close) = if last == "]" { ('[', ']') } else { ('{', '}') };
    let mut depth = 0;
    text.char_indices().find_map(|(i, c)| {
        depth += i32::from(c == open) - i32::from(c == close);
        (last.contains(c) && depth == 0).then_some(i)
    })
}

fn is_clause(text: &str) -> bool {
    ghost_last(text) == Some("}")
}

fn is_ghost_use(text: &str) -> bool {
    text.starts_with("ghost use ") || text == MODEL_USE
}

/// Whether it is `ghost NAME`, with a type or a value in braces or both, up to the sign that ends a member or a field.
fn is_ghost_member(text: &str, last: char) -> bool {
    let Some(rest) = text.strip_prefix("ghost ") else { return false };
    let rest = &rest[word_length(rest)..];
    let is_braced = rest.strip_suffix(last).is_some_and(|rest| rest.ends_with('}'));
    is_braced && (rest.starts_with(": {") || rest.starts_with(" = {"))
}

/// The length of the attribute that the text begins with, if that derives only what is listed.
fn derive_length(text: &str) -> Option<usize> {
    let list = text.strip_prefix(DERIVE)?.split(')').next()?;
    let length = DERIVE.len() + list.len() + ")]".len();
    let is_whole = text.get(..length).is_some_and(|text| text.ends_with(")]"));
    (is_whole && list.split(", ").all(|name| DERIVED.contains(&name))).then_some(length)
}

// ---- Items

/// From and to a place in the source, the text that comes there.
type Edit = (usize, usize, String);

struct Parser<'a> {
    source: &'a Crate,
    tokens: Vec<Token<'a>>,
    at: usize,
    erased: Vec<Edit>,
    /// The casts to usize as calls, and calls around or behind what may show how wide a usize is.
    calls: Vec<Edit>,
    /// The functions for C.
    entries: Vec<String>,
    /// The names that begin with a capital and are declared here.
    capitals: Vec<&'a str>,
    /// The names of the functions that take `self`.
    methods: Vec<&'a str>,
    functions: Vec<&'a str>,
    traits: Vec<Trait<'a>>,
    /// The traits that Rust's own types are given, each with the type.
    given: Vec<(&'a str, &'a str)>,
    /// The type of Rust's own that the item gives a trait, if it does.
    taker: &'a str,
    /// Where `Self::` stands for such a type, each with the type.
    selves: Vec<(usize, &'a str)>,
    /// The closures that are open, by their depth.
    closures: Vec<usize>,
}

struct Trait<'a> {
    name: &'a str,
    members: Vec<Member<'a>>,
}

/// A function or a constant of a trait.
struct Member<'a> {
    name: &'a str,
    is_function: bool,
}

impl<'a> Parser<'a> {
    /// The whole source, parsed.
    fn of(source: &'a Crate) -> Result<Parser<'a>> {
        let (tokens, erased, calls, entries) = (source.tokens()?, vec![], vec![], vec![]);
        let (capitals, methods, functions, traits, given) = (vec![], vec![], vec![], vec![], vec![]);
        let (taker, selves, closures) = ("", vec![], vec![]);
        let mut parser =
            Parser { source, tokens, at: 0, erased, calls, entries, capitals, methods, functions, traits, given, taker, selves, closures };
        while !parser.text().is_empty() {
            parser.item()?;
        }
        Ok(parser)
    }

    fn text(&self) -> &'a str {
        self.tokens[self.at].text
    }

    /// The text of the token before.
    fn before(&self) -> &'a str {
        self.tokens[self.at - 1].text
    }

    fn refuse<T>(&self, why: &str) -> Result<T> {
        let found = self.text().lines().next().map_or("the end of the file".to_string(), |line| format!("`{line}`"));
        self.source.refuse(self.tokens[self.at].from, &format!("{found}, {why}"))
    }

    fn accept(&mut self, text: &str) -> bool {
        let found = self.text() == text;
        self.at += usize::from(found);
        found
    }

    /// Accepts a sign, also as the first of two that are written as one, as in `&&` or `>>`.
    fn accept_half(&mut self, sign: &str) -> bool {
        let token = &mut self.tokens[self.at];
        if token.text == sign.repeat(2) {
            (token.text, token.from) = (&token.text[sign.len()..], token.from + sign.len());
            return true;
        }
        self.accept(sign)
    }

    fn accept_lifetime(&mut self) -> bool {
        let found = self.text().starts_with('\'');
        self.at += usize::from(found);
        found
    }

    /// What is listed up to a closing sign, between commas.
    fn list(&mut self, close: &str, one: fn(&mut Self) -> Result<()>) -> Result<()> {
        while !self.accept_half(close) {
            one(self)?;
            if !self.accept(",") && self.text() != close && self.text() != close.repeat(2) {
                return self.refuse(&format!("where only `,` or `{close}` is known"));
            }
        }
        Ok(())
    }

    /// Tokens in a row: each word of the form is a token, or in capitals a kind of token.
    fn form(&mut self, form: &str) -> Result<()> {
        for part in form.split(' ') {
            let text = self.text();
            let known = match part {
                "NAME" => is_name(text),
                "CAPITAL" => is_capital(text),
                "DIGITS" => is_number(text),
                "SIZE" => is_number(text) || is_name(text),
                "NUMBER" => NUMBERS.contains(&text),
                "TYPE" => ["bool", "Self"].contains(&text) || NUMBERS.contains(&text) || is_capital(text),
                _ => text == part,
            };
            if !known {
                return self.refuse(&format!("where only `{part}` is known"));
            }
            self.at += 1;
        }
        Ok(())
    }

    fn erase(&mut self) {
        self.at += 1;
        self.erase_from(self.at - 1);
    }

    /// Erases the tokens from the first to before this one, and the blanks before them.
    fn erase_from(&mut self, first: usize) {
        let to = self.tokens[self.at - 1].to;
        let from = self.source.text[..self.tokens[first].from].trim_end_matches(' ').len();
        self.erased.push((from, to, line_ends(&self.source.text[from..to])));
    }

    /// A name that the source gives to what it declares. One of Rust's own that is listed keeps its meaning.
    fn declare(&mut self) -> Result<&'a str> {
        if CAPITALS.contains(&self.text()) {
            return self.refuse("a name of Rust's own");
        }
        self.form("CAPITAL")?;
        self.capitals.push(self.before());
        Ok(self.before())
    }

    fn item(&mut self) -> Result<()> {
        self.taker = "";
        if is_ghost_use(self.text()) || self.at == 0 && self.text().starts_with("#![tactic(") {
            self.erase();
            return Ok(());
        }
        let is_type = self.text().starts_with(DERIVE);
        self.at += usize::from(is_type);
        let is_function = !is_type && self.function_attributes();
        if self.text() == EXPORT && !is_type && self.source.name == ENTRY_CRATE {
            return self.entry();
        }
        let is_public = self.accept("pub");
        match self.text() {
            "fn" if !is_type => self.function(),
            "struct" if !is_function => self.structure(),
            "enum" if !is_function => self.enumeration(),
            _ if is_function || is_type => self.refuse("which begins no item that may stand behind the attribute"),
            "use" if !is_public => self.import(),
            "trait" => self.declared_trait(),
            "impl" if !is_public => self.implementation(),
            "const" => self.constant(),
            _ => self.refuse("which begins no item that it knows"),
        }
    }

    /// What stands before a function: what is asked of the prover, and a hint to the compiler. Whether there is some.
    fn function_attributes(&mut self) -> bool {
        let first = self.at;
        loop {
            if self.text().starts_with("#[tactic(") {
                self.erase();
            } else if !INLINE.iter().any(|hint| self.accept(hint)) {
                return self.at > first;
            }
        }
    }

    /// One name of a crate, or a list. Of Rust's library it may be what head.rs has of `cmp`.
    fn import(&mut self) -> Result<()> {
        self.form("use")?;
        if is_capital(self.text()) {
            return self.refuse("which is no crate");
        }
        self.form(if self.text() == "std" { "std :: cmp ::" } else { "NAME ::" })?;
        if self.accept("{") {
            self.form("NAME")?;
            while self.accept(",") {
                self.form("NAME")?;
            }
            return self.form("} ;");
        }
        self.form("NAME ;")
    }

    fn constant(&mut self) -> Result<()> {
        self.constant_and_type()?;
        self.form("=")?;
        self.up_to(";")
    }

    /// A constant before its value, and its name.
    fn constant_and_type(&mut self) -> Result<&'a str> {
        self.form("const")?;
        let name = self.declare()?;
        self.form(":")?;
        self.kind()?;
        Ok(name)
    }

    // ---- Types

    fn kind(&mut self) -> Result<()> {
        if self.accept_half("&") {
            self.accept_lifetime();
            self.accept("mut");
            return self.kind();
        }
        if self.accept("(") {
            return self.list(")", Self::kind);
        }
        if self.accept("[") {
            self.kind()?;
            return self.form(if self.text() == ";" { "; SIZE ]" } else { "]" });
        }
        self.form("TYPE")?;
        self.arguments()
    }

    /// What a generic type or function is given, if anything.
    fn arguments(&mut self) -> Result<()> {
        if !self.accept("<") {
            return Ok(());
        }
        self.list(">", |parser| match parser.text() {
            size if is_number(size) => parser.form("DIGITS"),
            _ if parser.accept_lifetime() => Ok(()),
            _ => parser.kind(),
        })
    }

    /// The parameters of a generic item, if it has some.
    fn generics(&mut self) -> Result<()> {
        if !self.accept("<") {
            return Ok(());
        }
        self.list(">", |parser| {
            if parser.accept_lifetime() {
                return Ok(());
            }
            if parser.accept("const") {
                parser.declare()?;
                return parser.form(": NUMBER");
            }
            parser.declare()?;
            parser.bounds()
        })
    }

    /// The traits that a type must have, if any.
    fn bounds(&mut self) -> Result<()> {
        if self.accept(":") {
            self.kind()?;
            while self.accept("+") {
                self.kind()?;
            }
        }
        Ok(())
    }

    fn structure(&mut self) -> Result<()> {
        self.form("struct")?;
        self.declare()?;
        self.generics()?;
        if self.accept("(") {
            self.list(")", |parser| {
                parser.accept("pub");
                parser.kind()
            })?;
            return self.form(";");
        }
        self.form("{")?;
        self.fields()
    }

    /// The fields of a struct or a variant, to the brace behind them.
    fn fields(&mut self) -> Result<()> {
        while !self.accept("}") {
            let text = self.text();
            if is_ghost_member(text.strip_prefix("pub ").unwrap_or(text), ',') {
                self.erase();
                continue;
            }
            self.accept("pub");
            self.form("NAME :")?;
            self.kind()?;
            self.form(",")?;
        }
        Ok(())
    }

    /// Where variants have numbers, these rise: so both languages order them alike.
    fn enumeration(&mut self) -> Result<()> {
        self.form("enum")?;
        self.declare()?;
        self.generics()?;
        self.form("{")?;
        let mut least: u64 = 0;
        while !self.accept("}") {
            self.form("CAPITAL")?;
            self.capitals.push(self.before());
            if self.accept("(") {
                self.list(")", Self::kind)?;
            } else if self.accept("{") {
                self.fields()?;
            } else if self.accept("=") {
                match self.text().parse::<u32>() {
                    Ok(number) if u64::from(number) >= least => least = number.into(),
                    _ => return self.refuse("where only a number that is above the last is known"),
                }
                self.at += 1;
            }
            least += 1;
            self.form(",")?;
        }
        Ok(())
    }

    // ---- Traits

    fn declared_trait(&mut self) -> Result<()> {
        self.form("trait")?;
        let mut made = Trait { name: self.declare()?, members: Vec::new() };
        self.bounds()?;
        self.form("{")?;
        while !self.accept("}") {
            if self.ghost_member() {
                continue;
            }
            let is_function = self.function_attributes();
            if self.text() == "const" && !is_function {
                made.members.push(Member { name: self.constant_and_type()?, is_function: false });
                self.form(";")?;
                continue;
            }
            made.members.push(Member { name: self.signature()?, is_function: true });
            if !self.accept(";") {
                self.body()?;
            }
        }
        self.traits.push(made);
        Ok(())
    }

    /// The functions of a type, or a trait that it is given.
    fn implementation(&mut self) -> Result<()> {
        let first = self.at;
        self.form("impl")?;
        self.generics()?;
        let (name, parameters) = (self.text(), first..self.at);
        self.kind()?;
        let is_given = self.accept("for");
        if is_given {
            if self.tokens[parameters].iter().any(|token| token.text == self.text()) {
                return self.refuse("a parameter, which is any type");
            }
            let kind = self.at;
            self.given(name)?;
            self.taker = self.own_in(kind);
        }
        self.form("{")?;
        if is_given && name == MODEL {
            return self.model(first);
        }
        while !self.accept("}") {
            self.member()?;
        }
        Ok(())
    }

    /// The type that is given a trait: one of the source, or a number, where the trait is the source's too.
    fn given(&mut self, name: &'a str) -> Result<()> {
        let kind = self.text();
        if CAPITALS.contains(&kind) || CAPITALS.contains(&name) && ![GIVEN, MODEL].contains(&name) {
            return self.refuse(&format!("which is given `{name}`"));
        }
        if name == GIVEN {
            return self.kind();
        }
        self.form("TYPE")?;
        if !is_capital(kind) {
            self.given.push((name, kind));
        }
        self.arguments()
    }

    /// The first number of Rust's own, or bool, in a type up to here that does not begin with a name of the source.
    fn own_in(&self, first: usize) -> &'a str {
        let kind = &self.tokens[first..self.at];
        let is_own = |token: &&Token| NUMBERS.contains(&token.text) || token.text == "bool";
        kind.iter().find(is_own).filter(|_| !is_capital(kind[0].text)).map_or("", |token| token.text)
    }

    /// The rest of an `impl Model`, which has only ghost members and is erased whole.
    fn model(&mut self, first: usize) -> Result<()> {
        self.erase_from(first);
        while self.text() != "}" {
            if !self.ghost_member() {
                return self.refuse("where only ghost members are known");
            }
        }
        self.erase();
        Ok(())
    }

    fn member(&mut self) -> Result<()> {
        if self.ghost_member() {
            return Ok(());
        }
        let is_function = self.function_attributes();
        self.accept("pub");
        match self.text() {
            "const" if !is_function => self.constant(),
            _ => self.function(),
        }
    }

    /// Erases a ghost member, or a `ghost use`, if there is one.
    fn ghost_member(&mut self) -> bool {
        let found = is_ghost_use(self.text()) || is_ghost_member(self.text(), ';');
        if found {
            self.erase();
        }
        found
    }

    // ---- Functions

    fn function(&mut self) -> Result<()> {
        self.signature()?;
        self.body()
    }

    /// All of a function before its body, and its name.
    fn signature(&mut self) -> Result<&'a str> {
        self.form("fn NAME")?;
        let name = self.before();
        self.functions.push(name);
        self.generics()?;
        self.form("(")?;
        if self.receiver() {
            self.methods.push(name);
        }
        while !self.accept(")") {
            self.parameter()?;
        }
        if self.accept("->") {
            self.kind()?;
        }
        self.clauses();
        Ok(name)
    }

    /// Accepts `self` in one of its forms.
    fn receiver(&mut self) -> bool {
        let first = self.at;
        if self.accept("&") {
            self.accept_lifetime();
        }
        self.accept("mut");
        let found = self.accept("self");
        if found {
            self.accept(",");
        } else {
            self.at = first;
        }
        found
    }

    /// Its name and its type.
    fn parameter(&mut self) -> Result<(&'a str, &'a str)> {
        self.accept("mut");
        self.form("NAME :")?;
        let name = self.tokens[self.at - 2].text;
        let first = self.at;
        self.kind()?;
        let kind = &self.source.text[self.tokens[first].from..self.tokens[self.at - 1].to];
        self.accept(",");
        Ok((name, kind))
    }

    /// An entry point. C hands over a pointer and a length for each slice.
    fn entry(&mut self) -> Result<()> {
        self.erase();
        self.form("pub extern \"C\" fn NAME (")?;
        let function = self.tokens[self.at - 2].text;
        let (mut taken, mut given) = (Vec::new(), Vec::new());
        while !self.accept(")") {
            let first = self.at;
            let (name, kind) = self.parameter()?;
            let (rust, value) = match kind {
                "u32" | "u64" => (kind.to_string(), name.to_string()),
                "&mut u32" => ("*mut u32".to_string(), format!("&mut *{name}")),
                "&mut i32" => ("*mut i32".to_string(), format!("&mut *{name}")),
                "&[u8]" => (format!("*const u8, {name}_len: usize"), format!("from_raw_parts({name}, {name}_len)")),
                "&mut [u8]" => (format!("*mut u8, {name}_len: usize"), format!("from_raw_parts_mut({name}, {name}_len)")),
                _ => {
                    self.at = first;
                    return self.refuse("a parameter of an entry point, of a type that it does not know");
                }
            };
            taken.push(format!("{name}: {rust}"));
            given.push(value);
        }
        self.form("-> u32")?;
        self.entries.push(format!(
            "\n#[no_mangle]\npub unsafe extern \"C\" fn {function}({}) -> u32 {{\n    {ENTRY_CRATE}::{function}({})\n}}\n",
            taken.join(", "),
            given.join(", ")
        ));
        self.clauses();
        self.body()
    }

    // ---- Bodies

    fn clauses(&mut self) {
        while is_clause(self.text()) {
            self.erase();
        }
    }

    fn body(&mut self) -> Result<()> {
        self.form("{")?;
        self.up_to("}")
    }

    /// What stands up to the sign that ends it, and that sign.
    fn up_to(&mut self, end: &str) -> Result<()> {
        let depth = self.tokens[self.at - 1].depth;
        while self.text() != end || self.tokens[self.at].depth > depth {
            self.in_body()?;
        }
        self.closures.clear();
        self.form(end)
    }

    /// Takes a token of a body, or a few.
    fn in_body(&mut self) -> Result<()> {
        let (before, text, depth) = (self.before(), self.text(), self.tokens[self.at].depth);
        let next = self.tokens.get(self.at + 1).map_or("", |token| token.text);
        let rest = &self.source.text[self.tokens[self.at].from..];
        let follows_value = is_value_end(before);
        if CLOSING.contains(&text) {
            self.closures.retain(|closure| *closure < depth);
        }
        let in_closure = !self.closures.is_empty();
        match text {
            "as" => return self.cast(),
            ":" if ["let", "mut"].contains(&self.tokens[self.at - 2].text) => {
                self.at += 1;
                return self.kind();
            }
            "::" if is_name(before) && next == "<" => {
                self.at += 1;
                self.arguments()?;
                self.accept("::");
                return Ok(());
            }
            "|" if !follows_value => return self.closure(),
            "<<" | ">>" => self.hold(self.operand(), self.at),
            "+=" if in_closure => self.refuse("in a closure"),
            "*" if in_closure && before == "}" => self.refuse("behind a brace in a closure"),
            "+" | "*" if in_closure && (text == "+" || follows_value) => self.hold(self.operand(), self.at),
            "." => self.method(next),
            "!" if before == "matches" && next == "(" => Ok(()),
            "!" if is_name(before) => self.refuse("a macro"),
            "!" => self.inverted(),
            "&&" | "||" | "?" if !follows_value => self.refuse("which it does not know without a value before it"),
            ".." | "..=" => self.range(follows_value, next),
            "::" if word_length(before) == 0 || word_length(next) == 0 => self.refuse("which is not between two words"),
            _ if FUNCTIONS.iter().any(|function| rest.starts_with(function)) => Ok(()),
            _ if NUMBERS.contains(&text) && next == "::" => self.number_function(),
            "Self" if next == "::" && !self.taker.is_empty() => {
                self.selves.push((self.at, self.taker));
                Ok(())
            }
            _ if is_number(text) && next == "." && before != "." => self.refuse("a number with a point"),
            _ if text.starts_with('\'') && (["break", "continue"].contains(&before) || next == ":") => Ok(()),
            _ if is_name(text) || is_number(text) || WORDS_IN_BODIES.contains(&text) => Ok(()),
            _ if SIGNS.contains(&text) && !["->", "\"C\"", INLINE[0], INLINE[1]].contains(&text) => Ok(()),
            _ => self.refuse("which it does not know in a body"),
        }?;
        self.at += 1;
        Ok(())
    }

    /// What one of Rust's own numbers has, by its name.
    fn number_function(&self) -> Result<()> {
        let name = self.tokens[self.at + 2].text;
        if is_of_number(self.text(), name) {
            return Ok(());
        }
        self.refuse(&format!("of which it does not know `{name}`"))
    }

    /// The name of a type whose arguments, if it has some, end with that token.
    fn type_before(&self, last: usize) -> &'a str {
        let mut open = 0;
        for at in (0..=last).rev() {
            match self.tokens[at].text {
                ">" => open += 1,
                ">>" => open += 2,
                "<" => open -= 1,
                "::" => {}
                text if open == 0 => return text,
                _ => {}
            }
        }
        ""
    }

    /// A method that may show how wide a usize is has a call before it, or another name.
    fn method(&mut self, name: &str) -> Result<()> {
        let (from, to) = (self.tokens[self.at].from, self.tokens[self.at + 1].to);
        if !["(", "::"].contains(&self.tokens[self.at + 2].text) {
            return Ok(());
        }
        if OF_FIXED.contains(&name) {
            self.calls.push((from, from, ".fixed()".to_string()));
        } else if COUNTING.contains(&name) {
            self.calls.push((from, from, ".short()".to_string()));
        } else if name == SUM {
            self.calls.push((from, to, ".fixed_sum".to_string()));
        }
        Ok(())
    }

    /// A range has both of its ends, but where it is an index, or stands in a pattern for the rest: one without an end may
    /// stop elsewhere in Rust than in Rattle. The rest of a struct may also be that of a name.
    fn range(&self, follows_value: bool, next: &str) -> Result<()> {
        let has_end = !CLOSING.contains(&next) && !["{", "=>"].contains(&next);
        let is_rest = self.before() == "," && (is_name(next) || next == "self") && self.tokens[self.at + 2].text == "}";
        let known = match (follows_value, has_end) {
            (true, true) => true,
            (true, false) => next == "]",
            (false, true) => ["[", "("].contains(&self.before()) || is_rest,
            (false, false) => next != ";",
        };
        if !known {
            return self.refuse("which it does not know without a value on each side");
        }
        Ok(())
    }

    /// The parameters of a closure. What follows up to the end of the group or the part is in it.
    fn closure(&mut self) -> Result<()> {
        self.closures.push(self.tokens[self.at].depth);
        self.at += 1;
        while !self.accept("|") {
            match self.text() {
                ":" => {
                    self.at += 1;
                    self.kind()?;
                }
                text if is_name(text) || ["_", "&", "&&", "mut", "(", ")", ","].contains(&text) => self.at += 1,
                _ => return self.refuse("which it does not know in the parameters of a closure"),
            }
        }
        Ok(())
    }

    /// VALUE as NUMBER. A cast to usize of more than 32 bits is exact if the number is held to a limit just before:
    /// if NAME < LIMIT as u64 { NAME as usize, where only names of functions may stand before the cast, or
    /// VALUE.min(LIMIT) as usize, where the limit is a constant.
    fn cast(&mut self) -> Result<()> {
        let (end, value) = (self.tokens[self.at - 1].to, self.before());
        let is_function = |token: &Token| is_name(token.text) || ["::", "("].contains(&token.text);
        let begin = self.tokens[..self.at].iter().rposition(|token| !is_function(token)).map_or(0, |i| i + 1);
        let texts = |tokens: &[Token<'a>]| tokens.iter().map(|token| token.text).collect::<Vec<_>>();
        let before = texts(&self.tokens[begin.saturating_sub(7)..begin]);
        let (open, close) = match (&before[..], &texts(&self.tokens[self.at - 5..self.at])[..]) {
            (["if", name, "<", limit, "as", "u64", "{"], _) if *name == value && is_name(limit) => {
                ("(".to_string(), format!(").below({limit})"))
            }
            (_, [".", "min", "(", limit, ")"]) if is_capital(limit) => {
                let test = format!("const _: () = assert!({limit} <= u32::MAX as u64);");
                (format!("({{ {test} ("), format!(").below({limit} as usize) }})"))
            }
            _ => ("(".to_string(), ").small()".to_string()),
        };
        let from = self.tokens[self.value()].from;
        self.form("as NUMBER")?;
        if self.before() == "usize" {
            let to = self.tokens[self.at - 1].to;
            self.calls.push((from, from, open));
            self.calls.push((end, to, close + &line_ends(&self.source.text[end..to])));
        }
        Ok(())
    }

    /// Where the value begins that a cast is of: what a method would be called on, and the signs before it.
    fn value(&self) -> usize {
        let depth = self.tokens[self.at].depth;
        let goes_on = |token: &Token| match token.depth - depth {
            0 => is_value_end(token.text) || [".", "::"].contains(&token.text),
            1 => !["{", "}"].contains(&token.text),
            _ => true,
        };
        let mut first = self.tokens[..self.at].iter().rposition(|token| !goes_on(token)).map_or(0, |i| i + 1);
        while ["*", "-", "!"].contains(&self.tokens[first - 1].text) && !is_value_end(self.tokens[first - 2].text) {
            first -= 1;
        }
        first
    }

    /// Where the left side of a shift or a sum begins. With more than that, as in `a * b + c`, it has the same type or does not compile.
    fn operand(&self) -> usize {
        let depth = self.tokens[self.at].depth;
        let begins_behind = |token: &Token| {
            token.depth == depth && BEFORE_VALUES.contains(&token.text) || token.depth == depth + 1 && token.text == "}"
        };
        self.tokens[..self.at].iter().rposition(begins_behind).map_or(0, |i| i + 1)
    }

    /// What stands behind `!`: a name with its fields, functions, arguments and indices, or a value in brackets.
    fn inverted(&mut self) -> Result<()> {
        let depth = self.tokens[self.at].depth;
        let goes_on = |pair: &&[Token]| match pair[1].depth - depth {
            0 => {
                is_name(pair[1].text)
                    || is_number(pair[1].text)
                    || ["self", "Self", ".", "::", "?"].contains(&pair[1].text)
                    || NUMBERS.contains(&pair[1].text)
                    || pair[1].text == "*" && ["!", "*"].contains(&pair[0].text)
                    || pair[0].text == "matches"
            }
            1 => pair[1].text != "{",
            _ => true,
        };
        let first = self.at + 1;
        let count = self.tokens[self.at..].windows(2).take_while(goes_on).count();
        self.hold(first, first + count)
    }

    /// Puts a call around tokens. The compiler takes it only if their value has the same width on every host.
    fn hold(&mut self, first: usize, end: usize) -> Result<()> {
        if first == end {
            return self.refuse("beside no value that it knows");
        }
        let (from, to) = (self.tokens[first].from, self.tokens[end - 1].to);
        self.calls.extend([(from, from, "crate::fixed(".to_string()), (to, to, ")".to_string())]);
        Ok(())
    }

    // ---- What is left

    /// The source without what is erased, and with the calls if they are wanted.
    fn edited(&self, with_calls: bool) -> String {
        let mut edits: Vec<&Edit> = self.erased.iter().chain(self.calls.iter().filter(|_| with_calls)).collect();
        edits.sort();
        let mut out = String::new();
        let mut at = 0;
        for (from, to, text) in edits {
            out += &self.source.text[at..*from];
            out += text;
            at = *to;
        }
        out + &self.source.text[at..]
    }
}

/// Whether a value may end with such a token.
fn is_value_end(text: &str) -> bool {
    is_name(text) || is_number(text) || NUMBERS.contains(&text) || ["self", "Self", "true", "false", ")", "]", "?"].contains(&text)
}

fn line_ends(text: &str) -> String {
    "\n".repeat(text.matches('\n').count())
}
