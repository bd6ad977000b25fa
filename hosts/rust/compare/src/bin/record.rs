//! Records calls on the library that is linked. usage: record FILE
//!
//! It ends with status 1, and writes no file, if the library goes wrong or if a pair of a call and a refusal number, a
//! situation or a size of a heap was not reached. BLOCKHEAP_CALLS asks for more random calls.

use compare::{recording, wanted};

const CALLS: u64 = 30_000;

fn main() -> Result<(), String> {
    let is_name = |word: &std::ffi::OsString| !word.to_string_lossy().starts_with('-');
    let name = std::env::args_os().nth(1).filter(is_name).ok_or("usage: record FILE")?;
    let path = std::path::PathBuf::from(name);
    let (record, coverage) = recording::record(wanted("BLOCKHEAP_CALLS", CALLS))?;
    let file = record.file();
    std::fs::write(&path, &file).map_err(|error| format!("{}: {error}", path.display()))?;
    println!("{}", coverage.table());
    println!("{} calls recorded in {} bytes", record.calls, file.len());
    Ok(())
}
