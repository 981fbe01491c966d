//! Why nothing more was measured.

use itip_desk::DeskError;
use itip_message::ReadError;
use itip_recur::RecurError;
use itip_running::LiveError;
use itip_view::{BadWindow, ViewError};
use std::alloc::{AllocError, AllocFailed};
use std::io;
use thiserror::Error;

/// Why nothing more was measured.
#[derive(Debug, Drop, Error)]
pub(crate) enum BenchError {
    #[error("the words are a topic and a size")]
    Words,
    #[error("no memory")]
    Memory,
    #[error("a list was refused")]
    Refused,
    #[error("{0}")]
    Io(#[from] io::Error),
    #[error("{0}")]
    Read(#[from] ReadError),
    #[error("{0}")]
    Desk(#[from] DeskError),
    #[error("{0}")]
    Window(#[from] BadWindow),
    #[error("{0}")]
    View(#[from] ViewError),
    #[error("{0}")]
    Recur(#[from] RecurError),
    #[error("{0}")]
    Live(#[from] LiveError),
}

impl From<AllocError> for BenchError {
    fn from(_: AllocError) -> BenchError {
        BenchError::Memory
    }
}

impl<T: Drop> From<AllocFailed<T>> for BenchError {
    fn from(_: AllocFailed<T>) -> BenchError {
        BenchError::Memory
    }
}
