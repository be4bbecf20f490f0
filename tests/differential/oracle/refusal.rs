//! Refusals with 01's numbers, from the reference's errors.

use crate::protocol::ProtocolError;
use crate::protocol::nvxs::{RecordError, SessionError};

/// 01's record of a refusal; number 0: none.
#[derive(Clone, Default, PartialEq)]
pub struct Refusal {
    pub number: u8,
    pub a: u64,
    pub b: u64,
    pub c: u64,
    pub expected: [u8; 16],
    pub actual: [u8; 16],
}

impl Refusal {
    /// A refusal with figures.
    pub fn new(number: u8, a: u64, b: u64, c: u64) -> Self {
        Self { number, a, b, c, ..Self::default() }
    }

    /// A refusal without figures.
    pub fn bare(number: u8) -> Self {
        Self::new(number, 0, 0, 0)
    }
}

/// 1 to 9.
pub fn of_record(error: &RecordError) -> Refusal {
    let one = |number, a: u64| Refusal::new(number, a, 0, 0);
    match error {
        RecordError::Magic(magic) => one(1, u32::from_le_bytes(*magic).into()),
        RecordError::Version(version) => one(2, (*version).into()),
        RecordError::Type(code) => one(3, (*code).into()),
        RecordError::Flags(flags) => one(4, (*flags).into()),
        RecordError::Length { record_type, length } => {
            Refusal::new(5, record_type.code().into(), *length as u64, 0)
        }
        RecordError::BootstrapIdentity(record_type) => one(6, record_type.code().into()),
        RecordError::ErrorCode(value) => one(7, (*value).into()),
        RecordError::ReceiveWindow(value) => one(8, (*value).into()),
        RecordError::Credit(value) => one(9, (*value).into()),
    }
}

/// 1 to 20.
pub fn of_session(error: &SessionError) -> Refusal {
    match error {
        SessionError::Record(error) => of_record(error),
        SessionError::Unexpected(t) => Refusal::new(10, t.code().into(), 0, 0),
        SessionError::MissingIdentity(t) => Refusal::new(11, t.code().into(), 0, 0),
        SessionError::Instance { expected, actual } => Refusal {
            expected: *expected,
            actual: *actual,
            ..Refusal::bare(12)
        },
        SessionError::Epoch { expected, actual } => Refusal::new(13, *expected, *actual, 0),
        SessionError::StaleEpoch { current, actual } => Refusal::new(14, *current, *actual, 0),
        SessionError::Sequence { expected, actual } => Refusal::new(15, *expected, *actual, 0),
        SessionError::SequenceOverflow(t) => Refusal::new(16, t.code().into(), 0, 0),
        SessionError::Window { window, outstanding, length } => {
            Refusal::new(17, (*window).into(), (*outstanding).into(), (*length).into())
        }
        SessionError::Credit { outstanding, bytes } => {
            Refusal::new(18, (*outstanding).into(), (*bytes).into(), 0)
        }
        SessionError::Truncated { buffered } => Refusal::new(19, *buffered as u64, 0, 0),
        SessionError::InvalidState => Refusal::bare(20),
    }
}

/// The texts of outer.rs and the numbers that stand for them.
const TEXTS: [(&str, u8); 6] = [
    ("exceeds the outer protocol limit", 24),
    ("invalid outer record", 25),
    ("oversized outer record", 26),
    ("invalid receive window", 27),
    ("invalid byte count", 28),
    ("not four bytes", 29),
];

/// 24 to 29.
pub fn of_outer(error: &ProtocolError) -> Refusal {
    let found = TEXTS.iter().find(|(text, _)| error.message().contains(text));
    Refusal::bare(found.expect("a text of outer.rs").1)
}
