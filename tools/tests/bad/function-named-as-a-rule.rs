use garde::Validate;

#[derive(Validate)]
pub struct Bad {
    #[garde(custom(unique))] //~ `unique`, which is a rule here and a function of this file: give the function another name
    pub tags: Vec<String>,
}

fn unique(tags: &Vec<String>, _: &()) -> garde::Result {
    Ok(())
}
