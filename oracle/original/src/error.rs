// The error type is not among the published files. This one has the cases that they name, and the conversions
// that their `?` asks for.

/// Why reading or writing failed
#[derive(Debug)]
pub enum Error {
    /// The bytes break a rule of the format, which the text names
    Malformed(String),
    /// An operation has another number of operands
    OperandMismatch,
    /// An operand is of the other kind
    OperandTypeMismatch,
    /// A read or write passes the end
    Scroll(scroll::Error),
    /// A name is not UTF-8
    Utf8(std::str::Utf8Error),
    /// A length does not fit its field
    Length(std::num::TryFromIntError),
    /// A file could not be read
    Io(std::io::Error),
}

impl From<scroll::Error> for Error {
    fn from(error: scroll::Error) -> Error {
        Error::Scroll(error)
    }
}

impl From<std::str::Utf8Error> for Error {
    fn from(error: std::str::Utf8Error) -> Error {
        Error::Utf8(error)
    }
}

impl From<std::num::TryFromIntError> for Error {
    fn from(error: std::num::TryFromIntError) -> Error {
        Error::Length(error)
    }
}

impl From<std::io::Error> for Error {
    fn from(error: std::io::Error) -> Error {
        Error::Io(error)
    }
}
