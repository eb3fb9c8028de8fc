//! check [LANGUAGE]: checks the body on standard input, writes the problem details of what is wrong
//! to standard output, and ends with the status of the check. Where a device fails it ends with 10.
//!
//! Of a library that takes a schema it is check SCHEMA [LANGUAGE], with the file of one. The details of
//! a schema that is none are written too, and it ends with 10.
use std::env;
use std::ffi::OsString;
// begin: of a schema
use std::fs;
// end: of a schema
use std::io::{self, Read, Write};
use std::process::ExitCode;

// begin: of a schema
use order_check::Validator;
// end: of a schema
use order_check::{Checker, Options, Problem};

const FAILED: u8 = 10;

/// Writes the details of a problem.
fn tell(problem: &Problem) -> io::Result<()> {
    io::stdout().write_all(problem.details().as_bytes())?;
    io::stdout().flush()
}

/// The status of the check of the body on standard input.
fn check(mut words: impl Iterator<Item = OsString>) -> io::Result<u8> {
    let mut checker = Checker::new();
    // begin: of a schema
    let schema = fs::read(words.next().unwrap_or_default())?;
    if let Err(problem) = checker.check(&schema) {
        tell(&problem)?;
        return Ok(FAILED);
    }
    let mut checker = Validator::new(&schema).map_err(io::Error::other)?;
    // end: of a schema
    let language = words.next().unwrap_or_default();
    let mut body = Vec::new();
    io::stdin().read_to_end(&mut body)?;
    let options = Options::new().language(language.to_str().unwrap_or_default());
    let Err(problem) = checker.check_with(&body, options) else {
        return Ok(0);
    };
    tell(&problem)?;
    Ok(match problem {
        Problem::Faults(_) => 1,
        Problem::NoJson(_) => 2,
        Problem::OutOfMemory => 3,
    })
}

fn main() -> ExitCode {
    ExitCode::from(check(env::args_os().skip(1)).unwrap_or(FAILED))
}
