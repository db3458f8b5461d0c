//! Why a call or a line of a script is refused.

#[derive(Clone, Copy, PartialEq, Eq, Debug)]
pub enum Refusal {
    DefinedCell,
    UndefinedCell,
    TextLength,
    /// The length of the longest beginning that also begins a legal text.
    NotInLanguage(u8),
    NotANumber,
    NotAText,
    LineTooLong,
    UnknownLine,
    BadFirstLine,
    ScriptTooLong,
}

impl Refusal {
    pub fn number(self) -> u8 {
        match self {
            Refusal::DefinedCell => 2,
            Refusal::UndefinedCell => 4,
            Refusal::TextLength => 5,
            Refusal::NotInLanguage(_) => 6,
            Refusal::NotANumber => 7,
            Refusal::NotAText => 8,
            Refusal::LineTooLong => 18,
            Refusal::UnknownLine => 19,
            Refusal::BadFirstLine => 20,
            Refusal::ScriptTooLong => 21,
        }
    }
}
