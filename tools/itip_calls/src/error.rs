//! Why a call gives no value.

use hex::FromHexError;
use itip_desk::DeskError;
use itip_lines::{LineCause, LineError, LineRefusal};
use itip_message::{MessageCause, MessageRefusal, ReadError};
use itip_notation::NotationError;
use itip_recur::RecurError;
use itip_streams::StreamFault;
use itip_todo::{TodoCause, TodoError};
use itip_view::{BadWindow, ViewError};
use itip_world::Cause;
use std::alloc::{AllocError, AllocFailed, Global};
use std::{fmt, io};
use thiserror::Error;

/// Why a call gives no value: a fault, which is its answer, or what ends the run.
#[derive(Debug, Drop, Error)]
pub(crate) enum CallError {
    #[error("no memory")]
    NoMemory,
    #[error("reading or writing failed")]
    Io,
    #[error("a line is no call in hexadecimal")]
    Line,
    /// No call has this word, or it does not take these arguments.
    #[error("no such call")]
    NoSuchCall,
    /// A rule that is not worked out.
    #[error("opaque")]
    Opaque,
    /// A to-do that does not recur.
    #[error("single")]
    Single,
    /// More occurrences than are listed, by the number of the refusal.
    #[error("31")]
    TooMany,
    #[error("{0}")]
    Lines(ShownLines),
    #[error("{0:?}")]
    Todo(TodoCause),
    #[error("{0}")]
    Message(ShownMessage),
    #[error("{0:?}")]
    Desk(DeskError),
    #[error("{0:?}")]
    World(Cause),
    #[error("{0:?}")]
    Window(BadWindow),
    #[error("{0:?}")]
    View(ViewError),
    #[error("{0:?}")]
    Script(StreamFault),
}

/// The cause, and the line that is no content line or not UTF-8.
#[derive(Clone, Copy, Debug)]
pub(crate) struct ShownLines(pub(crate) LineRefusal);

impl fmt::Display for ShownLines {
    fn fmt<W: fmt::Write>(&self, f: &mut fmt::Formatter<W>) -> fmt::Result {
        let LineRefusal { cause, line } = self.0;
        match (cause, line) {
            (LineCause::BadLine | LineCause::NotUtf8, Some(line)) => write!(f, "{cause:?}({line})"),
            _ => write!(f, "{cause:?}"),
        }
    }
}

/// The cause that the reader of lines, of to-dos or of messages gives.
#[derive(Clone, Copy, Debug)]
pub(crate) struct ShownMessage(pub(crate) MessageRefusal);

impl fmt::Display for ShownMessage {
    fn fmt<W: fmt::Write>(&self, f: &mut fmt::Formatter<W>) -> fmt::Result {
        match self.0.cause {
            MessageCause::Lines(cause) => {
                let shown = ShownLines(LineRefusal {
                    cause,
                    line: self.0.line,
                });
                write!(f, "{shown}")
            }
            MessageCause::Todo(cause) => write!(f, "{cause:?}"),
            MessageCause::Misfit(cause) => write!(f, "{cause:?}"),
            MessageCause::ManyTodos | MessageCause::LargeForm => f.write_str("TooMany"),
            cause => write!(f, "{cause:?}"),
        }
    }
}

impl CallError {
    /// The fault as an answer. What ends the run is given back.
    pub(crate) fn into_answer(self, alloc: Global) -> Result<Vec<u8>, CallError> {
        match self {
            CallError::NoMemory | CallError::Io | CallError::Line => Err(self),
            fault => Ok(format!(in alloc; "{fault}")?.into_bytes()),
        }
    }
}

impl From<AllocError> for CallError {
    fn from(_: AllocError) -> CallError {
        CallError::NoMemory
    }
}

impl<T: Drop> From<AllocFailed<T>> for CallError {
    fn from(_: AllocFailed<T>) -> CallError {
        CallError::NoMemory
    }
}

impl From<io::Error> for CallError {
    fn from(error: io::Error) -> CallError {
        match error.kind() {
            io::ErrorKind::OutOfMemory => CallError::NoMemory,
            _ => CallError::Io,
        }
    }
}

impl From<FromHexError> for CallError {
    fn from(error: FromHexError) -> CallError {
        match error {
            FromHexError::OutOfMemory => CallError::NoMemory,
            _ => CallError::Line,
        }
    }
}

impl From<NotationError> for CallError {
    fn from(error: NotationError) -> CallError {
        match error {
            NotationError::NoMemory => CallError::NoMemory,
            NotationError::NoValue => CallError::NoSuchCall,
        }
    }
}

impl From<LineError> for CallError {
    fn from(error: LineError) -> CallError {
        match error {
            LineError::NoMemory => CallError::NoMemory,
            LineError::Refused(refusal) => CallError::Lines(ShownLines(refusal)),
        }
    }
}

impl From<TodoError> for CallError {
    fn from(error: TodoError) -> CallError {
        match error {
            TodoError::NoMemory => CallError::NoMemory,
            TodoError::Refused(refusal) => CallError::Todo(refusal.cause),
        }
    }
}

impl From<RecurError> for CallError {
    fn from(error: RecurError) -> CallError {
        match error {
            RecurError::NoMemory => CallError::NoMemory,
            RecurError::TooMany => CallError::TooMany,
        }
    }
}

impl From<ReadError> for CallError {
    fn from(error: ReadError) -> CallError {
        match error {
            ReadError::NoMemory => CallError::NoMemory,
            ReadError::Refused(refusal) => CallError::Message(ShownMessage(refusal)),
        }
    }
}

impl From<DeskError> for CallError {
    fn from(error: DeskError) -> CallError {
        match error {
            DeskError::NoMemory => CallError::NoMemory,
            fault => CallError::Desk(fault),
        }
    }
}

impl From<Cause> for CallError {
    fn from(cause: Cause) -> CallError {
        match cause {
            Cause::NoMemory => CallError::NoMemory,
            fault => CallError::World(fault),
        }
    }
}

impl From<BadWindow> for CallError {
    fn from(fault: BadWindow) -> CallError {
        CallError::Window(fault)
    }
}

impl From<ViewError> for CallError {
    fn from(error: ViewError) -> CallError {
        match error {
            ViewError::NoMemory => CallError::NoMemory,
            fault => CallError::View(fault),
        }
    }
}

impl From<StreamFault> for CallError {
    fn from(fault: StreamFault) -> CallError {
        match fault {
            StreamFault::Memory => CallError::NoMemory,
            fault => CallError::Script(fault),
        }
    }
}
