//! Checks what erase.rs wrote, by other means: line against line, and the functions for C against include/blockheap.h.
//!
//! usage: check PROJECT SRC
//!
//! - Line n of SRC/NAME.rs is line n of crates/NAME/src/lib.rt, or it is empty where that has ghost text: a `ghost use` or
//!   `use std::marker::Model;`, a clause `requires { .. }` or `ensures { .. }`, also with a name, between the end of a function's
//!   parameters and the brace of its body, or the `;` of a trait's function, which is left, a member `ghost NAME ..;` of a
//!   trait or an `impl`, a field `ghost NAME ..,`, the first and the last line of an `impl Model for ..`, `#![tactic(..)]`,
//!   `#[tactic(..)]` before a function, or `#[unsafe(no_mangle)]`. No ghost text is left.
//! - SRC/lib.rs is head.rs and then these parts, each once: a module for each crate, and for each declaration of the header
//!   a function whose parameters are made from that declaration.

use std::collections::BTreeSet;
use std::path::Path;
use std::{env, fs, process};

const EXPORT: &str = "#[unsafe(no_mangle)]";
const ENTRY_CRATE: &str = "blockheap_c";
const MODEL_USE: &str = "use std::marker::Model;";
/// How the last line of a clause ends, where a body follows, and where none does.
const CLAUSE: &[&str] = &["}", "};"];
/// What a type may derive.
const DERIVED: [&str; 7] = ["Clone", "Copy", "Debug", "Eq", "Ord", "PartialEq", "PartialOrd"];

type Result<T> = std::result::Result<T, String>;

fn main() {
    let words: Vec<String> = env::args().skip(1).collect();
    let [project, src] = &words[..] else {
        eprintln!("usage: check PROJECT SRC");
        process::exit(64);
    };
    match check(Path::new(project), Path::new(src)) {
        Ok(says) => println!("{says}"),
        Err(why) => {
            eprintln!("check: {why}");
            process::exit(1);
        }
    }
}

fn read(path: &Path) -> Result<String> {
    fs::read_to_string(path).map_err(|e| format!("{}: {e}", path.display()))
}

fn check(project: &Path, src: &Path) -> Result<String> {
    let crates = crates_with_code(project)?;
    let mut expected_files: BTreeSet<String> = crates.iter().map(|c| format!("{}.rs", c.name)).collect();
    expected_files.insert("lib.rs".to_string());
    let found_files: BTreeSet<String> = fs::read_dir(src)
        .map_err(|e| format!("{}: {e}", src.display()))?
        .map(|entry| entry.map(|e| e.file_name().to_string_lossy().into_owned()).map_err(|e| e.to_string()))
        .collect::<Result<_>>()?;
    if let Some(name) = expected_files.symmetric_difference(&found_files).next() {
        return Err(format!("{}: the files are not those of the crates with code: {name}", src.display()));
    }
    let (mut kept, mut erased) = (0, 0);
    for c in &crates {
        let counts = check_lines(&c.path, &c.text, &read(&src.join(format!("{}.rs", c.name)))?)?;
        kept += counts.0;
        erased += counts.1;
    }
    let header = declarations(&read(&project.join("include/blockheap.h"))?)?;
    check_root(&read(&project.join("hosts/portable/head.rs"))?, &crates, &header, &read(&src.join("lib.rs"))?)?;
    Ok(format!(
        "checked: {} files, {kept} lines kept, {erased} lines erased, {} functions as include/blockheap.h declares them",
        crates.len(),
        header.len()
    ))
}

// ---- The crates

struct Crate {
    name: String,
    needs: Vec<String>,
    path: String,
    text: String,
}

fn is_code(line: &str) -> bool {
    let line = line.trim();
    !line.is_empty() && !["//", "ghost use ", MODEL_USE, "#![tactic("].iter().any(|start| line.starts_with(start))
}

/// From the last line of crates.txt to the first: a crate is needed if it is the library, or if a needed one names it.
fn crates_with_code(project: &Path) -> Result<Vec<Crate>> {
    let mut needed = BTreeSet::from([ENTRY_CRATE.to_string()]);
    let mut found = Vec::new();
    for line in read(&project.join("crates.txt"))?.lines().rev() {
        let Some((name, names)) = line.split_once(':') else { continue };
        let name = name.split(' ').next().unwrap_or(name);
        if line.starts_with('#') || !needed.contains(name) {
            continue;
        }
        let names: Vec<String> = names.split_whitespace().map(str::to_string).collect();
        needed.extend(names.iter().cloned());
        let path = format!("crates/{name}/src/lib.rt");
        let text = read(&project.join(&path))?;
        if text.lines().any(is_code) {
            found.push(Crate { name: name.to_string(), needs: names, path, text });
        }
    }
    found.reverse();
    Ok(found)
}

// ---- Line against line

fn check_lines(path: &str, source: &str, erased: &str) -> Result<(usize, usize)> {
    let sources: Vec<&str> = source.split('\n').collect();
    let lines: Vec<&str> = erased.split('\n').collect();
    if sources.len() != lines.len() {
        return Err(format!("{path}: it has {} lines, and the erased file has {}", sources.len(), lines.len()));
    }
    let left = left_lines(path, &sources)?;
    for (i, line) in lines.iter().enumerate() {
        if *line != left[i] {
            let what = if left[i] == sources[i] { "a line that is not the source's" } else { "ghost text that is left" };
            return Err(format!("{path}:{}: {what}: {line}", i + 1));
        }
    }
    let gone = left.iter().zip(&sources).filter(|(left, source)| left != source).count();
    Ok((lines.len() - 1 - gone, gone))
}

/// Where in the source a line is.
#[derive(Clone, Copy, PartialEq)]
enum Inside {
    Code,
    /// A ghost text, to the line that ends in one of these ways.
    Ghost(&'static [&'static str]),
    /// A contract, between its clauses.
    Contract,
    /// An `impl Model`, between its members.
    Model,
}

/// What is to be left of each line: nothing of ghost text, but for the `;` behind a contract. What a line is shows at its
/// beginning.
fn left_lines<'a>(path: &str, lines: &[&'a str]) -> Result<Vec<&'a str>> {
    let mut left = Vec::new();
    let (mut inside, mut outside, mut depth) = (Inside::Code, Inside::Code, 0);
    for (i, whole) in lines.iter().enumerate() {
        let line = whole.trim();
        let says = |what: &str| Err(format!("{path}:{}: {what}: {whole}", i + 1));
        if inside == Inside::Contract && !opens_clause(line) {
            if line != "{" {
                return says("a contract that no body follows");
            }
            inside = Inside::Code;
        }
        if let (Some(ends), false) = (ghost_text(line), matches!(inside, Inside::Ghost(_))) {
            if ends == CLAUSE && inside == Inside::Code && !ends_parameters(lines, i) {
                return says("a clause that does not follow a function's parameters");
            }
            if ends != CLAUSE && whole.len() - whole.trim_start().len() != 4 {
                return says("a ghost member that is in no trait, impl or struct");
            }
            outside = if inside == Inside::Model { inside } else { Inside::Code };
            inside = Inside::Ghost(ends);
        }
        if let Inside::Ghost(ends) = inside {
            depth += braces(line);
            if depth == 0 && !ends.iter().any(|end| line.ends_with(end)) {
                return says("text behind ghost text");
            }
            let ends_function = depth == 0 && ends == CLAUSE && line.ends_with(';');
            left.push(if ends_function { ";" } else { "" });
            if depth == 0 {
                inside = if ends == CLAUSE && !ends_function { Inside::Contract } else { outside };
            }
        } else if inside == Inside::Model {
            if !line.is_empty() && !line.starts_with("//") && *whole != "}" {
                return says("a line that is no ghost member");
            }
            left.push(if *whole == "}" { "" } else { whole });
            inside = if *whole == "}" { Inside::Code } else { inside };
        } else if whole.starts_with("impl") && line.contains("Model for ") && line.ends_with(" {") {
            left.push("");
            inside = Inside::Model;
        } else {
            let ghost = is_ghost_line(lines, i);
            if !ghost && !is_known_attribute(lines, i) && !is_plain(line) {
                return says("a line that is neither plain code nor ghost text");
            }
            left.push(if ghost { "" } else { whole });
        }
    }
    if inside != Inside::Code {
        return Err(format!("{path}: ghost text without an end"));
    }
    Ok(left)
}

/// In which ways the last line may end of the ghost text that begins here, if it is a clause, a member or a field.
fn ghost_text(line: &str) -> Option<&'static [&'static str]> {
    if opens_clause(line) {
        return Some(CLAUSE);
    }
    let rest = line.strip_prefix("pub ").unwrap_or(line).strip_prefix("ghost ")?;
    let rest = rest.trim_start_matches(|c: char| c.is_ascii_alphanumeric() || c == '_');
    (rest.starts_with(" = {") || rest.starts_with(": {")).then_some(&["};", "},"])
}

/// A line that is ghost text by itself.
fn is_ghost_line(lines: &[&str], i: usize) -> bool {
    let line = lines[i].trim();
    let imports = line.starts_with("ghost use ") && line.find(';') == Some(line.len() - 1) || line == MODEL_USE;
    let at_head = line.starts_with("#![tactic(") && !lines[..i].iter().any(|before| is_code(before));
    let asks = (at_head || line.starts_with("#[tactic(") && precedes_function(lines, i)) && line.ends_with(")]");
    imports || asks || line == EXPORT && precedes(lines, i, &["pub extern \"C\" fn "])
}

/// An attribute that is left.
fn is_known_attribute(lines: &[&str], i: usize) -> bool {
    let line = lines[i].trim();
    let derived = line.strip_prefix("#[derive(").and_then(|rest| rest.strip_suffix(")]"));
    let is_derive = derived.is_some_and(|names| names.split(", ").all(|name| DERIVED.contains(&name)));
    is_derive && precedes(lines, i, &["pub struct ", "struct ", "pub enum ", "enum "])
        || ["#[inline]", "#[inline(always)]"].contains(&line) && precedes_function(lines, i)
}

fn precedes(lines: &[&str], i: usize, starts: &[&str]) -> bool {
    lines.get(i + 1).is_some_and(|next| starts.iter().any(|start| next.trim_start().starts_with(start)))
}

fn precedes_function(lines: &[&str], i: usize) -> bool {
    precedes(lines, i, &["pub fn ", "fn ", EXPORT, "#[tactic(", "#[inline"])
}

/// Whether a clause begins here: one of two words, a name or none, and a brace.
fn opens_clause(line: &str) -> bool {
    let rest = line.strip_prefix("requires ").or(line.strip_prefix("ensures "));
    let name = rest.and_then(|rest| rest.split_once('{')).map(|(name, _)| name.trim_end());
    name.is_some_and(|name| name.chars().all(|c| c.is_ascii_alphanumeric() || c == '_'))
}

fn braces(line: &str) -> i32 {
    line.chars().map(|c| i32::from(c == '{') - i32::from(c == '}')).sum()
}

/// Whether the line before the i-th ends a function's parameters and its type.
fn ends_parameters(lines: &[&str], i: usize) -> bool {
    let before = lines[..i].last().map_or("", |line| line.trim());
    let one_line = ["fn ", "pub fn ", "pub extern \"C\" fn "].iter().any(|start| before.starts_with(start));
    let last_of_many = before.starts_with(')');
    (one_line || last_of_many) && (before.ends_with(')') || before.contains(") -> "))
}

/// Whether the line, but for its comment, has nothing of proofs, and nothing that Rattle has not.
fn is_plain(line: &str) -> bool {
    let code = line.split("//").next().unwrap_or("").replace("extern \"C\"", "extern");
    let words = code.split(|c: char| !c.is_ascii_alphanumeric() && c != '_');
    line.is_ascii()
        && !code.contains(['"', '#', '\\', '`', '@', '$', '~'])
        && !code.contains("/*")
        && !words.into_iter().any(|word| ["ghost", "requires", "ensures", "unsafe", "macro_rules", "Model"].contains(&word))
}

// ---- The functions for C

struct Declaration {
    name: String,
    /// Type and name of each.
    parameters: Vec<(String, String)>,
}

/// The declarations of a header, whose comments are blocks: uint32_t NAME(TYPE NAME, ..);
fn declarations(header: &str) -> Result<Vec<Declaration>> {
    let code: String = header.split("/*").map(|part| part.split_once("*/").map_or(part, |(_, code)| code)).collect();
    let mut found = Vec::new();
    for part in code.split("\nuint32_t ").skip(1) {
        let declared = part.split(';').next().unwrap_or("");
        let (name, rest) = declared.split_once('(').ok_or_else(|| format!("include/blockheap.h: {declared}"))?;
        let list = rest.strip_suffix(')').ok_or_else(|| format!("include/blockheap.h: {declared}"))?;
        found.push(Declaration { name: name.to_string(), parameters: list.split(',').map(type_and_name).collect() });
    }
    Ok(found)
}

fn type_and_name(parameter: &str) -> (String, String) {
    let words = parameter.split_whitespace().collect::<Vec<_>>().join(" ");
    let name_at = words.rfind([' ', '*']).map_or(0, |i| i + 1);
    (words[..name_at].trim().to_string(), words[name_at..].to_string())
}

impl Declaration {
    /// The text that lib.rs must have for it.
    fn part(&self) -> Result<String> {
        let mut taken = Vec::new();
        let mut given = Vec::new();
        for (kind, name) in &self.parameters {
            let (rust, value) = match kind.as_str() {
                "uint32_t" => ("u32", name.clone()),
                "uint64_t" => ("u64", name.clone()),
                "const uint8_t *" => ("*const u8", format!("from_raw_parts({name}, {name}_len)")),
                "uint8_t *" => ("*mut u8", format!("from_raw_parts_mut({name}, {name}_len)")),
                "uint32_t *" => ("*mut u32", format!("&mut *{name}")),
                "int32_t *" => ("*mut i32", format!("&mut *{name}")),
                "size_t" if name.ends_with("_len") => ("usize", String::new()),
                _ => return Err(format!("include/blockheap.h: {} takes a {kind}, which it does not know", self.name)),
            };
            taken.push(format!("{name}: {rust}"));
            given.push(value);
        }
        given.retain(|value| !value.is_empty());
        let name = &self.name;
        Ok(format!(
            "#[no_mangle]\npub unsafe extern \"C\" fn {name}({}) -> u32 {{\n    {ENTRY_CRATE}::{name}({})\n}}",
            taken.join(", "),
            given.join(", ")
        ))
    }
}

// ---- The root

fn check_root(head: &str, crates: &[Crate], header: &[Declaration], root: &str) -> Result<()> {
    let rest = root.strip_prefix(head).ok_or("lib.rs: it does not begin as head.rs")?;
    let rest = rest.strip_prefix('\n').and_then(|rest| rest.strip_suffix('\n')).ok_or("lib.rs: it ends behind head.rs")?;
    let mut expected = BTreeSet::new();
    for c in crates {
        expected.insert(module_part(c, crates));
    }
    for declaration in header {
        expected.insert(declaration.part()?);
    }
    for part in rest.split("\n\n") {
        if !expected.remove(part) {
            return Err(format!("lib.rs: a part that is not expected, or twice:\n{part}"));
        }
    }
    match expected.first() {
        Some(part) => Err(format!("lib.rs: a part is missing:\n{part}")),
        None => Ok(()),
    }
}

fn module_part(c: &Crate, crates: &[Crate]) -> String {
    let uses =
        crates.iter().filter(|other| c.needs.contains(&other.name)).map(|other| format!("    use crate::{};\n", other.name));
    format!(
        "mod {0} {{\n    #[cfg(casts)]\n    use crate::widths::*;\n    use crate::std;\n{1}    \
         include!(\"{0}.rs\");\n}}",
        c.name,
        uses.collect::<String>()
    )
}
