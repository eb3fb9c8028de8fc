use garde::Validate;

#[derive(Validate)]
#[garde(context(Patterns))]
pub struct Bad {
    #[garde(pattern("a+"))] //~ a pattern in quotes under a context of one's own: add a field of type `Regex` to it, and write `pattern(ctx.FIELD)`
    pub name: String,
}
