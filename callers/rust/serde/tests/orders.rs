//! What is made of orders.
use std::borrow::Cow;

use order_serde::{Checker, Fault, Faults, Options, Valid, check, check_with};
use serde::Deserialize;

const GOOD: &str =
    r#"{"customer":"Ada","lines":[{"code":"P1","count":1},{"count":99,"code":"P\"2"}]}"#;
const BAD: &str = r#"{"customer":"","lines":[{"code":"X","count":0}],"x":1}"#;

#[derive(Debug, PartialEq, Deserialize)]
#[serde(deny_unknown_fields)]
struct Order {
    customer: String,
    lines: Vec<Line>,
    note: Option<String>,
}

#[derive(Debug, PartialEq, Deserialize)]
struct Line {
    code: String,
    count: u32,
}

#[derive(Debug, PartialEq, Deserialize)]
struct Lent<'b> {
    customer: &'b str,
    #[serde(borrow)]
    lines: Vec<LentLine<'b>>,
}

#[derive(Debug, PartialEq, Deserialize)]
struct LentLine<'b> {
    #[serde(borrow)]
    code: Cow<'b, str>,
    count: u32,
}

#[derive(Debug, PartialEq, Deserialize)]
struct AllLent<'b> {
    #[serde(borrow)]
    lines: Vec<Code<'b>>,
}

#[derive(Debug, PartialEq, Deserialize)]
struct Code<'b> {
    code: &'b str,
}

fn faults<T: std::fmt::Debug>(found: Result<Valid<T>, Faults>) -> Faults {
    found.expect_err("the body has faults")
}

#[test]
fn a_valid_body_is_a_value() {
    let order: Valid<Order> = check(GOOD.as_bytes()).unwrap();
    assert_eq!(order.customer, "Ada");
    assert_eq!(*order, serde_json::from_str(GOOD).unwrap());
    assert_eq!(order.into_inner().lines.len(), 2);
}

#[test]
fn texts_are_borrowed() {
    let order = check::<Lent>(GOOD.as_bytes()).unwrap();
    assert!(
        GOOD.as_bytes()
            .as_ptr_range()
            .contains(&order.customer.as_ptr())
    );
    assert!(matches!(order.lines[0].code, Cow::Borrowed("P1")) && order.lines[1].code == "P\"2");
    let misfit = faults(check::<AllLent>(GOOD.as_bytes()));
    assert_eq!((misfit.http_status(), misfit.details()), (500, ""));
    let mut texts = Vec::new();
    let order = Checker::new()
        .check_in::<AllLent>(GOOD.as_bytes(), Options::new(), &mut texts)
        .unwrap();
    assert_eq!(order.lines[1].code, "P\"2");
}

#[test]
fn a_faulty_body_has_faults() {
    let found = faults(check::<Order>(BAD.as_bytes()));
    assert_eq!(
        (found.http_status(), found.more(), found.iter().count()),
        (422, false, 4)
    );
    let third = Fault {
        pointer: "/lines/0/count",
        message: "lower than 1",
        code: "range_lower_than",
        parameters: vec![("min", "1")],
        place: None,
    };
    assert_eq!(found.iter().nth(2), Some(third));
    assert_eq!(
        found.to_string(),
        "customer: length is lower than 1\nlines[0].code: value does not begin with \"P\"\nlines[0].count: lower than 1\nx: not known here\n"
    );
    assert!(
        found
            .details()
            .starts_with(r#"{"title":"the order has faults","status":422"#)
    );
}

#[test]
fn options_choose_the_faults() {
    let options = Options::new().most(2.try_into().unwrap()).language("cs");
    let found = faults(check_with::<Order>(BAD.as_bytes(), options));
    assert_eq!((found.iter().count(), found.more()), (2, true));
    assert_eq!(found.iter().next().unwrap().message, "délka je menší než 1");
    assert!(found.to_string().ends_with("there are more\n"));
}

#[test]
fn bytes_that_are_no_json_text_have_a_fault() {
    for body in ["", "{,}", "\u{0}"] {
        let found = faults(check::<Order>(body.as_bytes()));
        let all: Vec<_> = found.iter().collect();
        assert_eq!(
            (found.http_status(), all.len(), all[0].code),
            (400, 1, "no_json")
        );
        assert!(all[0].message.contains("line 1") && found.to_string().contains(all[0].message));
    }
}

#[test]
fn a_type_that_does_not_fit_is_told_by_name() {
    let found = faults(check::<Line>(GOOD.as_bytes()));
    let fault = found.iter().next().unwrap();
    assert_eq!(
        (found.http_status(), fault.code, fault.message),
        (500, "misfit", "missing field `code`")
    );
}

#[test]
fn a_checker_keeps_nothing_of_a_body() {
    let mut checker = Checker::new();
    let many = format!(
        r#"{{"customer":"Ada","lines":[{}]}}"#,
        vec![r#"{"code":"P\u0031","count":1}"#; 50].join(",")
    );
    for body in [GOOD, BAD, "nope", &many, GOOD] {
        let kept = checker.check_with::<Order>(body.as_bytes(), Options::new());
        let fresh = check::<Order>(body.as_bytes());
        assert_eq!(kept.as_ref().ok(), fresh.as_ref().ok());
        assert_eq!(
            kept.err().map(|it| it.to_string()),
            fresh.err().map(|it| it.to_string())
        );
    }
}
