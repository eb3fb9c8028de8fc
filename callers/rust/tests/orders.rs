//! What the library says of orders.
use std::num::NonZeroUsize;
use std::thread;

use order_check::{Checker, Options, Place, Problem, check, check_with, is_valid};

const GOOD: &str =
    r#"{"customer":"Ada","lines":[{"code":"P1","count":1},{"code":"P22","count":99}]}"#;
const BAD: &str = r#"{"customer":"","lines":[{"code":"X","count":0},{"code":"P","count":100}]}"#;

/// The details of a faulty body.
fn faults(found: Result<(), Problem>) -> String {
    match found {
        Err(Problem::Faults(details)) => details,
        other => panic!("{other:?}"),
    }
}

#[test]
fn a_valid_order_has_no_problem() {
    assert_eq!(check(GOOD.as_bytes()), Ok(()));
    assert_eq!(is_valid(GOOD.as_bytes()), Ok(true));
}

#[test]
fn a_faulty_order_has_details() {
    let problem = check(BAD.as_bytes()).unwrap_err();
    assert_eq!(problem.http_status(), 422);
    assert_eq!(problem.details().matches("\"pointer\"").count(), 4);
    assert_eq!(is_valid(BAD.as_bytes()), Ok(false));
}

#[test]
fn options_choose_the_language_and_the_number_of_faults() {
    let czech = Options::new().language("cs");
    assert!(faults(check_with(BAD.as_bytes(), czech)).contains("délka je menší než 1"));
    let one = faults(check_with(
        BAD.as_bytes(),
        Options::new().most(NonZeroUsize::MIN),
    ));
    assert!(
        one.contains(r#""detail":"there are more""#) && one.matches("\"pointer\"").count() == 1
    );
}

#[test]
fn faults_have_places_where_they_are_asked_for() {
    let body = "{\"customer\":\"\",\n \"lines\":[],\"é\":1,\"x\":1}".as_bytes();
    let mut checker = Checker::new();
    let found = checker.value_with(body, Options::new().places()).unwrap_err();
    let places: Vec<_> = found.iter().filter_map(|it| it.place).collect();
    let wanted = [(1, 13), (2, 10), (2, 13), (2, 19)];
    assert_eq!(places, wanted.map(|(line, column)| Place { line, column }));
    let found = checker.value(body).unwrap_err();
    assert!(found.iter().all(|it| it.place.is_none()));
}

#[test]
fn faults_are_listed_in_lines() {
    let lines = faults(Checker::new().list(BAD));
    assert_eq!(
        lines,
        "customer: length is lower than 1\n\
         lines[0].code: value does not begin with \"P\"\n\
         lines[0].count: lower than 1\n\
         lines[1].count: greater than 99\n"
    );
    assert_eq!(Checker::new().list(GOOD), Ok(()));
}

#[test]
fn details_longer_than_the_room_of_a_first_call_are_whole() {
    let lines = vec![r#"{"code":"X","count":0}"#; 41].join(",");
    let body = format!(r#"{{"customer":"","lines":[{lines}]}}"#);
    let details = faults(check(body.as_bytes()));
    assert_eq!(details.matches("\"pointer\"").count(), 83);
    assert!(details.ends_with("}]}"));
}

#[test]
fn each_of_64_threads_has_a_checker() {
    thread::scope(|scope| {
        for _ in 0..64 {
            scope.spawn(|| {
                let mut checker = Checker::new();
                for body in [GOOD, BAD, "nope", ""].repeat(250) {
                    assert_eq!(checker.check(body.as_bytes()), check(body.as_bytes()));
                }
            });
        }
    });
}
