//! Why a line has no other answer than an error (docs/REQUESTS.md, "Errors").

#[derive(Clone, Copy, Debug, PartialEq, Eq)]
pub enum Fault {
    Long,
    Request,
    Words,
    Number,
    Bits,
    Hex,
    /// The line was a request, and the call wrote where it may not.
    Output,
}

impl Fault {
    /// The word that is answered after `error`.
    pub fn word(self) -> &'static str {
        match self {
            Fault::Long => "long",
            Fault::Request => "request",
            Fault::Words => "words",
            Fault::Number => "number",
            Fault::Bits => "bits",
            Fault::Hex => "hex",
            Fault::Output => "output",
        }
    }
}
