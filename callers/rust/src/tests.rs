//! What holds of every library.
use std::num::NonZeroUsize;
use std::thread;

use crate::{Checker, Options, Problem, check, check_with, is_valid};

fn is_no_json(found: Result<(), Problem>) -> bool {
    matches!(found, Err(Problem::NoJson(_)))
}

#[test]
fn bytes_that_are_no_json_text_have_details() {
    let problem = check(b"{,}").unwrap_err();
    assert_eq!(problem.http_status(), 400);
    assert!(problem.details().contains("line 1"));
    assert!(problem.to_string().contains(problem.details()));
}

#[test]
fn no_bytes_are_no_json_text() {
    assert!(is_no_json(check(b"")));
    assert_eq!(is_valid(b""), Ok(false));
}

#[test]
fn a_checker_answers_as_a_single_call_does() {
    let mut checker = Checker::default();
    checker.reserve(100).unwrap();
    for body in ["{,}", "", "nope", "{,}"] {
        assert_eq!(checker.check(body.as_bytes()), check(body.as_bytes()));
    }
}

#[test]
fn options_are_kept_apart_from_bodies() {
    let options = Options::default().most(NonZeroUsize::MIN).language("");
    assert!(is_no_json(check_with(b"{,}", options)));
    assert!(is_no_json(check_with(b"{,}", options.language("cs"))));
}

#[test]
fn a_checker_is_sent_to_a_thread() {
    let mut checker = Checker::new();
    assert!(is_no_json(checker.check(b"{,}")));
    thread::spawn(move || assert!(is_no_json(checker.check(b"{,}"))))
        .join()
        .unwrap();
}
