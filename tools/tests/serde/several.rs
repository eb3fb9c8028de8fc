//! Bounds in a part of the context, parts that some modules see, two patterns of a field, one of them
//! with escapes, a tuple of eight fields, and fields of a variant named as words of the statements.
use garde::Validate;
use serde::Deserialize;

/// What is known at run time alone.
pub struct Bounds {
    pub texts: Texts,
}

/// Of texts.
pub(crate) struct Texts {
    pub(in crate::notes) longest: usize,
}

/// A note.
#[derive(Deserialize, Validate)]
#[garde(context(Bounds as bounds))]
pub struct Note {
    #[garde(length(max = bounds.texts.longest))]
    pub text: String,
    #[garde(if(cond = bounds.texts.longest > 9, ascii))]
    pub title: String,
}

/// A word.
#[derive(Deserialize, Validate)]
pub struct Word {
    #[garde(pattern("^[a-z\\.\'\"]+$"), pattern("[.]$"))]
    pub text: String,
}

/// A row of readings.
#[derive(Deserialize, Validate)]
pub struct Row(
    #[garde(range(max = 1))] pub u8,
    #[garde(range(max = 2))] pub u8,
    #[garde(range(max = 3))] pub u8,
    #[garde(range(max = 4))] pub u8,
    #[garde(range(max = 5))] pub u8,
    #[garde(range(max = 6))] pub u8,
    #[garde(range(max = 7))] pub u8,
    #[garde(range(max = 8))] pub u8,
);

/// What happened.
#[derive(Default, Deserialize, Validate)]
pub enum Change {
    #[default]
    Nothing,
    Put {
        #[garde(ascii)]
        item: String,
        #[garde(range(max = 9))]
        field: u8,
    },
    Take(#[garde(range(max = 8))] u8),
}
