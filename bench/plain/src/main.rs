//! A plain machine for load rules: it reads, verifies and runs the same files as the proved one, with nothing proved.

mod bench;
mod file;
mod heap;
mod machine;
mod set;
mod shell;
mod verify;

use std::process::ExitCode;

const USAGE: &str = "usage: plain shell
       plain bench run FILE CLASS NAME STEPS [VALUE...] [--heap slot|cell] [--allowance F,P,T]... [--again]
       plain bench verify FILE N
       plain bench read FILE N";

fn main() -> ExitCode {
    let words: Vec<String> = std::env::args().skip(1).collect();
    let outcome = match words.first().map(String::as_str) {
        Some("shell") if words.len() == 1 => shell::talk().map_err(|e| e.to_string()),
        Some("bench") => bench::measure(&words[1..]),
        _ => Err(USAGE.to_string()),
    };
    match outcome {
        Ok(()) => ExitCode::SUCCESS,
        Err(message) => {
            eprintln!("{message}");
            ExitCode::FAILURE
        }
    }
}
