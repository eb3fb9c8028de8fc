//! Bodies of a file, most of them spoiled, beside what a program in C answers to them, in the folder that ORDER_BODIES names.
use std::fmt::Write;
use std::num::NonZeroUsize;
use std::{env, fs};

use order_serde::{Checker, Fault, Faults, Options};
use serde::Deserialize;
use serde_json::{Value, from_slice, json};

#[derive(Debug, PartialEq, Deserialize)]
struct Order {
    customer: String,
    lines: Vec<Line>,
}

#[derive(Debug, PartialEq, Deserialize)]
struct Line {
    code: String,
    count: u8,
}

fn piece<'b>(left: &mut &'b [u8], len: usize) -> &'b [u8] {
    let (found, rest) = left.split_at(len);
    *left = rest;
    found
}

fn number(left: &mut &[u8]) -> usize {
    u32::from_le_bytes(piece(left, 4).try_into().unwrap()) as usize
}

/// What a member of `errors` says of a fault.
fn said(fault: &Fault) -> Value {
    let params: serde_json::Map<_, _> = fault
        .parameters
        .iter()
        .map(|(name, value)| (name.to_string(), json!(value)))
        .collect();
    json!({"pointer": fault.pointer, "detail": fault.message, "code": fault.code, "params": params})
}

/// The faults are those of the answer: the details, and the place of each.
fn compare(faults: &Faults, answer: &[u8]) {
    let mut text = faults.details().to_owned();
    for place in faults.iter().filter_map(|it| it.place) {
        write!(text, " {}:{}", place.line, place.column).unwrap();
    }
    assert_eq!(text.as_bytes(), answer);
    let details: Value = serde_json::from_str(faults.details()).unwrap();
    if faults.http_status() == 422 {
        let all: Vec<_> = faults.iter().map(|it| said(&it)).collect();
        assert_eq!(json!(all), details["errors"]);
        assert_eq!(faults.more(), details.get("detail").is_some());
    }
}

#[test]
fn bodies_have_the_answers_of_c() {
    let Ok(folder) = env::var("ORDER_BODIES") else {
        return;
    };
    let [bodies, answers] =
        ["bodies", "answers"].map(|it| fs::read(format!("{folder}/{it}")).unwrap());
    let (mut bodies, mut answers) = (bodies.as_slice(), answers.as_slice());
    let (mut checker, mut counts) = (Checker::new(), [0; 3]);
    while !bodies.is_empty() {
        let [len, most, tag] = [(); 3].map(|_| number(&mut bodies));
        let body = piece(&mut bodies, len);
        let [status, len] = [(); 2].map(|_| number(&mut answers));
        let answer = piece(&mut answers, len);
        let most = NonZeroUsize::new(most).filter(|it| it.get() < u32::MAX as usize);
        let options = Options::new()
            .most(most.unwrap_or(NonZeroUsize::MAX))
            .language(&"cs"[..tag])
            .places();
        counts[status] += 1;
        match checker.check_with::<Value>(body, options) {
            Ok(value) => {
                let text = body.strip_prefix(b"\xEF\xBB\xBF").unwrap_or(body);
                assert_eq!((status, &*value), (0, &from_slice(text).unwrap()));
                assert_eq!(*value, from_slice::<Value>(answer).unwrap());
                let order = checker.check_with::<Order>(body, options).unwrap();
                assert_eq!(*order, from_slice(text).unwrap());
            }
            Err(faults) => {
                assert_eq!(faults.http_status(), [200, 422, 400][status]);
                compare(&faults, answer);
            }
        }
    }
    println!("{counts:?} bodies by their statuses");
}
