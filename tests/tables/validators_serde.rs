//! What a validator makes of bodies with serde.
#![cfg(test)]
use std::collections::BTreeMap;

use schema_serde::{Options, Validator};

fn by(schema: &str) -> Validator {
    Validator::new(schema.as_bytes()).ok().expect("a schema")
}

#[test]
fn a_body_that_meets_the_schema_is_a_value() {
    let mut member = by(r#"{"required":["at"]}"#);
    let found = member.check::<BTreeMap<&str, Vec<f64>>>(br#"{"at":[1,2.5]}"#);
    assert_eq!(found.unwrap()["at"], [1.0, 2.5]);
    let misfit = member.check::<bool>(br#"{"at":1}"#).unwrap_err();
    assert_eq!(misfit.http_status(), 500);
    let mut texts = Vec::new();
    let found = by("{}").check_in::<&str>(br#""\u0041""#, Options::new(), &mut texts);
    assert_eq!(*found.unwrap(), "A");
}

#[test]
fn faults_are_those_of_the_schema() {
    let german = Options::new().language("de");
    let mut member = by(r#"{"required":["at"]}"#);
    let faults = member.clone().check::<bool>(b"{}").unwrap_err();
    assert_eq!(faults.to_string(), "at: missing\n");
    let faults = member.check_with::<bool>(b"{}", german).unwrap_err();
    assert_eq!(faults.to_string(), "at: fehlt\n");
}

#[test]
fn a_schema_at_fault_is_rejected() {
    let faults = Validator::new(br#"{"pattern":1}"#).err().unwrap();
    assert_eq!(faults.iter().next().unwrap().place.unwrap().column, 2);
}
