//! Reads a sign-up in JSON on each line by the library into a type, and prints `ok` or the problem details. By the name `listing` it prints
//! the faults in lines and then `--`.
use std::collections::BTreeMap;
use std::env;
use std::hint::black_box;
use std::io::{self, BufWriter, Read, Write};

use serde::Deserialize;
use signup_serde::{Checker, Options};

#[allow(dead_code)]
#[derive(Deserialize)]
struct SignUp {
    username: String,
    display: String,
    email: String,
    age: Option<u8>,
    phone: Option<String>,
    tags: Vec<String>,
    address: Address,
    settings: BTreeMap<String, Setting>,
}

#[allow(dead_code)]
#[derive(Deserialize)]
struct Address {
    street: String,
    city: String,
    zip: String,
    ip: String,
}

#[allow(dead_code)]
#[derive(Deserialize)]
struct Setting {
    value: i32,
}

fn main() -> io::Result<()> {
    let mut text = String::new();
    io::stdin().read_to_string(&mut text)?;
    let mut out = BufWriter::new(io::stdout().lock());
    let mut checker = Checker::new();
    let lists = env::args().next().is_some_and(|name| name.ends_with("listing"));
    for line in text.lines() {
        match checker.check_with::<SignUp>(line.as_bytes(), Options::new()) {
            Ok(value) => {
                black_box(&value);
                out.write_all(b"ok\n")?
            }
            Err(faults) if lists => write!(out, "{faults}--\n")?,
            Err(faults) => writeln!(out, "{}", faults.details())?,
        }
    }
    out.flush()
}
