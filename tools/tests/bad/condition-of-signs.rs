use garde::Validate;

#[derive(Validate)]
pub struct Bad {
    #[garde(if(cond = self.other > self.more, ascii))] //~ a comparison of a number with a sign and one without, or of a sum of such: compare numbers of one type
    pub name: String,
    #[garde(skip)]
    pub other: i8,
    #[garde(skip)]
    pub more: u8,
}
