//! The command line of the reference implementation.

#![forbid(unsafe_code)]

mod args;
mod commands;
mod failure;
mod files;
mod table;

use std::io::Write;
use std::process::ExitCode;

use failure::{Answer, Failure};

fn main() -> ExitCode {
    match told().and_then(|text| print(&text)) {
        Ok(()) => ExitCode::SUCCESS,
        Err(failure) => {
            eprintln!("bm-ref: {failure}");
            ExitCode::from(failure.status())
        }
    }
}

fn print(text: &str) -> Result<(), Failure> {
    let mut out = std::io::stdout().lock();
    let written = out.write_all(text.as_bytes()).and_then(|()| out.flush());
    written.map_err(|error| Failure::File(format!("standard output: {error}")))
}

/// The text that the command prints.
fn told() -> Answer {
    let mut args = Vec::new();
    for arg in std::env::args_os().skip(1) {
        let arg = arg.into_string();
        args.push(arg.map_err(|arg| Failure::wrong(format!("argument {arg:?} is not UTF-8")))?);
    }
    let args: Vec<&str> = args.iter().map(String::as_str).collect();
    match args[..] {
        [] => Err(Failure::wrong("a command is missing")),
        ["help" | "--help" | "-h"] | ["help", "--help" | "-h"] => Ok(table::help()),
        ["help", name] => table::command(name).map(|command| command.help()),
        ["help", _, more, ..] => Err(Failure::wrong(format!("unexpected argument '{more}'"))),
        [name, ref given @ ..] => table::command(name)?.answer(given),
    }
}
