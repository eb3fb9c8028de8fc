use garde::Validate;

#[derive(Validate)]
pub struct Bad<'a> {
    #[garde(matches(password))] //~ `matches` of `&'a str`: it is written of two texts, options of texts or numbers without a sign, each of one type, so compare others by a rule of your own, by `custom`
    pub again: &'a str,
    #[garde(skip)]
    pub password: &'a str,
    #[garde(skip)]
    pub mail: Option<String>,
    #[garde(matches(mail))] //~ `matches` of `String` and `Option<String>`: it is written of two texts, options of texts or numbers without a sign, each of one type, so compare others by a rule of your own, by `custom`
    pub mail_once: String,
}
