//! The command `aspda`: programs and sets as text or bytes, and the library's operations on them.

mod arguments;
mod assembly;
mod commands;
mod expansion;
mod files;
#[path = "../../limits.rs"]
mod limits;
mod text;

use arguments::{Asked, Failure};
use commands::Outcome;
use std::env;
use std::io::{self, Write};
use std::process::ExitCode;

fn main() -> ExitCode {
    match answer() {
        Ok(true) => ExitCode::SUCCESS,
        Ok(false) => ExitCode::FAILURE,
        Err(Failure { message, status }) => {
            eprintln!("aspda: {message}");
            ExitCode::from(status)
        }
    }
}

/// Prints the answer to the command line, and says whether it is a success.
fn answer() -> Result<bool, Failure> {
    match arguments::parse(env::args_os().skip(1).collect())? {
        Asked::Help(text) => print(Outcome { output: text.into(), is_success: true }, 1),
        Asked::Run(request) => {
            let status = request.failure;
            let outcome = commands::run(&request).map_err(|message| Failure { message, status })?;
            print(outcome, status)
        }
    }
}

/// Prints what goes to standard output; `status` is the exit status if that fails.
fn print(Outcome { output, is_success }: Outcome, status: u8) -> Result<bool, Failure> {
    let mut stdout = io::stdout().lock();
    let written = stdout.write_all(&output).and_then(|()| stdout.flush());
    written.map_err(|error| Failure { message: format!("standard output: {error}"), status })?;
    Ok(is_success)
}
