//! Stand-in: the two errors that the canvas gives.
#[derive(Debug)]
pub enum WieError {
    FatalError(String),
    Unimplemented(String),
}

pub type Result<T> = std::result::Result<T, WieError>;
