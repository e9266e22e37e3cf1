//! A driver around the unchanged Rust original: it prints what the original
//! answers, for comparison with the port.

mod built;
mod charts;
mod list;
mod math;
mod measures;
mod numbers;
mod runs;
mod streams;
mod texts;

use std::io::{Read, Write};
use std::process::ExitCode;

const USAGE: &str = "\
usage: judge numbers           numbers at every change of length
       judge charts measures   the chart list for `judge measures`
       judge charts texts      the chart list for `judge texts`
       judge measures < LIST   counts, tokens, segments, share, alike
       judge texts < LIST      counts, number of tokens, the seven texts
       judge runs              run symbols
";

fn main() -> ExitCode {
    let words: Vec<String> = std::env::args().skip(1).collect();
    let words: Vec<&str> = words.iter().map(String::as_str).collect();
    let answer = match words[..] {
        ["numbers"] => Ok(numbers::print()),
        ["charts", "measures"] => charts::for_measures(),
        ["charts", "texts"] => charts::for_texts(),
        ["measures"] => read_input().and_then(|list| measures::print(&list)),
        ["texts"] => read_input().and_then(|list| texts::print(&list)),
        ["runs"] => Ok(runs::print()),
        _ => {
            eprint!("{USAGE}");
            return ExitCode::from(2);
        }
    };
    match answer.and_then(|text| write_output(&text)) {
        Ok(()) => ExitCode::SUCCESS,
        Err(message) => {
            eprintln!("judge: {message}");
            ExitCode::FAILURE
        }
    }
}

fn read_input() -> Result<String, String> {
    let mut text = String::new();
    std::io::stdin()
        .read_to_string(&mut text)
        .map_err(|error| format!("standard input: {error}"))?;
    Ok(text)
}

fn write_output(text: &str) -> Result<(), String> {
    let mut out = std::io::stdout();
    out.write_all(text.as_bytes())
        .and_then(|()| out.flush())
        .map_err(|error| format!("standard output: {error}"))
}
