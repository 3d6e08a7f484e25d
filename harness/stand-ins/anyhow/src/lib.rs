//! An error is its message.

use std::fmt;

#[derive(Debug)]
pub struct Error {
    pub message: String,
}

impl Error {
    pub fn msg(message: impl fmt::Display) -> Error {
        Error {
            message: message.to_string(),
        }
    }

    pub fn context(self, context: impl fmt::Display) -> Error {
        Error::msg(format_args!("{context}: {}", self.message))
    }
}

impl<E: std::error::Error> From<E> for Error {
    fn from(error: E) -> Error {
        Error::msg(error)
    }
}

#[macro_export]
macro_rules! anyhow {
    ($($message:tt)*) => {
        $crate::Error::msg(format_args!($($message)*))
    };
}
