//! What was wrong with a call.
use std::ffi::{c_char, CStr};
use std::{fmt, io};

use crate::ffi::ClientError;
use crate::tb_embed::Status;

/// Why a call returned nothing. [`Error::may_be_sent`] says whether the request may have been
/// executed.
#[derive(Debug)]
#[non_exhaustive]
pub enum Error {
    /// A value is out of range: `field` names it.
    Invalid { field: String, text: String },
    /// The session's last request has no reply yet.
    InDoubt { text: String },
    /// There is nothing to send again.
    NothingInDoubt,
    /// The client or transport was closed.
    Closed,
    /// No address could be connected to in time. `is_final`: one side does not trust the other, now
    /// and later.
    CannotConnect { text: String, is_final: bool },
    /// No reply came. `told` is the name that the server gave, or empty.
    ReplyLost { told: String, text: String },
    /// The same, and the server said to come later.
    Busy { told: String, text: String },
    /// What came is no reply to this request.
    BadReply { text: String },
    /// A refusal, which says nothing of an earlier sending.
    Refused { status: Status },
    /// The caller's own limit ended the call, or the caller left.
    Cancelled { sent: bool, text: String },
    /// The system refused a file.
    File { source: io::Error, text: String },
    /// Out of memory.
    NoMemory { sent: bool },
    /// tbd, which serves an opened file, ended by the fault `told`. A later call starts it again.
    ProgramEnded {
        told: String,
        status: u8,
        sent: bool,
        text: String,
    },
    /// The file is open elsewhere: by the process `owner`, if the system says so.
    Locked { owner: Option<i64>, text: String },
    /// tbd is not there, or does not start.
    CannotStart { text: String },
    /// The ledger's last time is far ahead of this computer's clock.
    ClockJumped { text: String },
}

impl Error {
    /// Whether the request may have been sent. If not, nothing changed.
    pub fn may_be_sent(&self) -> bool {
        match self {
            Error::ReplyLost { .. }
            | Error::Busy { .. }
            | Error::BadReply { .. }
            | Error::Refused { .. } => true,
            Error::Cancelled { sent, .. }
            | Error::NoMemory { sent }
            | Error::ProgramEnded { sent, .. } => *sent,
            _ => false,
        }
    }

    /// The error of a code of the library.
    pub(crate) fn of(error: &ClientError) -> Error {
        let (text, told) = (text_of(&error.text), text_of(&error.told));
        match error.code {
            1 => Error::Invalid {
                field: text_of(&error.field),
                text,
            },
            2 => Error::InDoubt { text },
            3 => Error::NothingInDoubt,
            4 => Error::Closed,
            5 => Error::CannotConnect {
                text,
                is_final: error.is_final,
            },
            6 => Error::ReplyLost { told, text },
            7 => Error::Busy { told, text },
            8 => Error::BadReply { text },
            9 => Error::Refused {
                status: Status::from_number(error.status.into()),
            },
            10 => Error::Cancelled {
                sent: error.sent,
                text,
            },
            11 => Error::File {
                source: io::Error::from_raw_os_error(error.system),
                text,
            },
            14 => Error::ProgramEnded {
                told,
                status: error.status,
                sent: error.sent,
                text,
            },
            15 => Error::Locked {
                owner: (error.owner != 0).then_some(error.owner),
                text,
            },
            16 => Error::CannotStart { text },
            17 => Error::ClockJumped { text },
            _ => Error::NoMemory { sent: error.sent },
        }
    }

    /// A text that C cannot take.
    pub(crate) fn with_zero(field: &str) -> Error {
        Error::Invalid {
            field: field.into(),
            text: "has a zero byte".into(),
        }
    }
}

fn text_of(bytes: &[c_char]) -> String {
    unsafe { CStr::from_ptr(bytes.as_ptr()) }
        .to_string_lossy()
        .into_owned()
}

impl fmt::Display for Error {
    fn fmt(&self, f: &mut fmt::Formatter<'_>) -> fmt::Result {
        match self {
            Error::Invalid { field, text } => write!(f, "{field}: {text}"),
            Error::NothingInDoubt => f.write_str("there is nothing to send again"),
            Error::Closed => f.write_str("it was closed: nothing of this call was sent"),
            Error::Refused { status } => write!(f, "the request was refused: {status}"),
            Error::NoMemory { .. } => f.write_str("out of memory"),
            Error::InDoubt { text }
            | Error::CannotConnect { text, .. }
            | Error::ReplyLost { text, .. }
            | Error::Busy { text, .. }
            | Error::BadReply { text }
            | Error::Cancelled { text, .. }
            | Error::File { text, .. }
            | Error::ProgramEnded { text, .. }
            | Error::Locked { text, .. }
            | Error::CannotStart { text }
            | Error::ClockJumped { text } => f.write_str(text),
        }
    }
}

impl std::error::Error for Error {
    fn source(&self) -> Option<&(dyn std::error::Error + 'static)> {
        match self {
            Error::File { source, .. } => Some(source),
            _ => None,
        }
    }
}
