//! What validators say in Rust.
use std::num::NonZeroUsize;
use std::thread;

use schema_check::{Checker, Faults, Options, Part, Place, Problem, Validator, check, is_valid};

const WRONG: &str = concat!(
    "{\"type\":\"object\",\n \"properties\":{\"a\":{\"type\":\"strin\"}},\n",
    " \"pattern\":1,\"minProperties\":2,\"maxProperties\":1}"
);

fn by(schema: &str) -> Validator {
    Validator::new(schema.as_bytes()).ok().expect("a schema")
}

fn not_by(schema: &str) -> Faults {
    Validator::new(schema.as_bytes()).err().expect("no schema")
}

fn codes(faults: &Faults) -> Vec<&str> {
    faults.iter().map(|it| it.code).collect()
}

#[test]
fn a_schema_at_fault_is_rejected_with_places() {
    let faults = not_by(WRONG);
    let at = |line, column| Some(Place { line, column });
    let told: Vec<_> = faults.iter().map(|it| (it.pointer, it.place)).collect();
    assert_eq!(
        told,
        [
            ("/pattern", at(3, 2)),
            ("/properties/a/type", at(2, 28)),
            ("/maxProperties", at(3, 48))
        ]
    );
    assert_eq!(faults.http_status(), 422);
    assert_eq!(faults.to_string().lines().count(), 3);
    assert!(faults.to_string().starts_with("pattern: not known here\n"));
}

#[test]
fn what_is_no_json_text_is_no_schema() {
    for text in ["", "{"] {
        assert_eq!(not_by(text).http_status(), 400);
    }
    assert!(Validator::new(b"\xff").is_err());
}

#[test]
fn validators_judge_by_their_schemas() {
    let mut text = by(r#"{"type":"string","maxLength":3}"#);
    let mut number = by(r#"{"minimum":1}"#);
    text.reserve(100).unwrap();
    for _ in 0..3 {
        let long = text.value(br#""long""#).unwrap_err();
        assert_eq!(codes(&long), ["length_greater_than"]);
        assert_eq!(long.to_string(), "length is greater than 3\n");
        assert_eq!(
            codes(&number.value(b"0").unwrap_err()),
            ["range_lower_than"]
        );
        assert!(
            matches!(text.check(b"1"), Err(Problem::Faults(details)) if details.contains("422"))
        );
        assert_eq!(text.check(br#""x""#), Ok(()));
        assert!(matches!(text.check(b"nope"), Err(Problem::NoJson(_))));
        assert_eq!(text.is_valid(br#""x""#), Ok(true));
        assert_eq!([text.is_valid(b"1"), number.is_valid(b"0")], [Ok(false); 2]);
        let parts: Vec<_> = number.value(b"[1,-2]").unwrap().collect();
        assert_eq!(parts, [Part::List(2), Part::Whole(1), Part::Negative(-2)]);
    }
}

#[test]
fn options_are_for_faults() {
    let mut both = by(r#"{"items":{"minimum":2}}"#);
    let one = Options::new().most(NonZeroUsize::MIN).places();
    let found = both.value_with(b"[ 1,1]", one).unwrap_err();
    assert!(found.more());
    assert_eq!(
        found.iter().next().unwrap().place,
        Some(Place { line: 1, column: 3 })
    );
    let german = Options::new().language("de-AT");
    let Err(Problem::Faults(lines)) = both.list_with("[3,1]", german) else {
        panic!("there are faults")
    };
    assert_eq!(lines.lines().next(), Some("[1]: Wert ist kleiner als 2"));
    assert!(both.list("[4]").is_ok() && both.check_with(b"[]", german).is_ok());
}

#[test]
fn a_clone_is_for_another_thread() {
    let validator = by(r#"{"maxLength":3}"#);
    let all: Vec<_> = (0..4)
        .map(|_| {
            let mut mine = validator.clone();
            thread::spawn(move || {
                (0..100).all(|_| mine.check(br#""x""#).is_ok() && mine.check(br#""long""#).is_err())
            })
        })
        .collect();
    assert!(all.into_iter().all(|it| it.join().unwrap()));
}

#[test]
fn functions_judge_schemas() {
    assert_eq!((check(b"true"), is_valid(b"{}")), (Ok(()), Ok(true)));
    assert_eq!(is_valid(b"1"), Ok(false));
    assert!(Checker::new().check(WRONG.as_bytes()).is_err());
}
