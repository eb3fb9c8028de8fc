//! A package as a file describes it, whose values have one of several forms without a tag.
//@ --spelled Package
use garde::Validate;
use serde::Deserialize;
use std::collections::BTreeMap;

/// One text or many.
#[derive(Debug, Deserialize, Validate)]
#[serde(untagged)]
pub enum Authors {
    One(#[garde(length(min = 1))] String),
    Many(#[garde(length(max = 9), inner(ascii))] Vec<String>),
}

/// A number or a text, or nothing.
#[derive(Debug, Deserialize, Validate)]
#[serde(untagged)]
pub enum Port {
    #[serde(rename = "number", alias = "nr")]
    Number(#[garde(range(min = 1))] u16),
    Name(#[garde(alphanumeric)] String),
    Unset,
}

/// A version alone, or an object with more; a path is one too.
#[derive(Debug, Deserialize, Validate)]
#[serde(untagged)]
pub enum Dependency {
    Version(#[garde(prefix("^"))] String),
    Git {
        #[garde(length(min = 1))]
        git: String,
        #[garde(skip)]
        branch: Option<String>,
    },
    Path {
        #[garde(length(min = 1))]
        path: String,
        #[garde(skip)]
        version: Option<String>,
    },
    Detailed {
        #[garde(skip)]
        version: String,
        #[garde(skip)]
        #[serde(default)]
        optional: bool,
    },
}

/// Which license it has.
#[derive(Clone, Copy, Debug, Deserialize)]
pub enum Known {
    #[serde(rename = "MIT")]
    Mit,
    #[serde(rename = "Apache-2.0")]
    Apache,
}

/// A license that is known, or the name of another one.
#[derive(Debug, Deserialize, Validate)]
#[serde(untagged)]
pub enum License {
    Listed(#[garde(skip)] Known),
    Other(#[garde(length(max = 30))] String),
}

/// A step of a script: the member `run` says by its type what it is.
#[derive(Debug, Deserialize, Validate)]
#[serde(untagged)]
pub enum Step {
    Shell {
        #[garde(length(min = 1))]
        run: String,
    },
    Command {
        #[garde(length(min = 1))]
        run: Vec<String>,
        #[garde(skip)]
        quiet: Option<bool>,
    },
}

/// A package.
#[derive(Debug, Deserialize, Validate)]
pub struct Package {
    #[garde(dive)]
    pub authors: Authors,
    #[garde(dive)]
    pub port: Port,
    #[garde(dive)]
    pub dependencies: BTreeMap<String, Dependency>,
    #[garde(dive)]
    pub license: Option<License>,
    #[garde(dive)]
    pub steps: Vec<Step>,
}
