//! Rules under conditions.
use garde::Validate;

/// What a printer takes.
#[derive(Clone, Copy)]
pub struct Press {
    pub strict: bool,
}

/// A page, which says itself what is asked of its content.
#[derive(Validate)]
#[garde(context(Press as press))]
pub struct Page {
    #[garde(skip)]
    pub plain: bool,
    #[garde(skip)]
    pub short: bool,
    #[garde(if(cond = self.plain, ascii), if(cond = self.short, length(min = 10, max = 100)), required)]
    pub content: Option<String>,
    #[garde(if(cond = !press.strict, inner(length(max = 4))), if(cond = press.strict, length(min = 1)))]
    pub notes: Vec<String>,
    #[garde(if(cond = self.plain && !self.short, prefix("p-"), length(max = 6)))]
    pub title: String,
    #[garde(if(cond = self.plain || self.short, ascii))]
    pub author: String,
    #[garde(if(cond = self.content.is_some(), length(min = 1)))]
    pub source: String,
    #[garde(if(cond = self.number >= 10, ascii), length(min = 1))]
    pub volume: String,
    #[garde(range(max = 99))]
    pub number: u16,
}
