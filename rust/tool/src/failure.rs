//! Why a command was not carried out, and the exit status for it.

use mfs::Refusal;

/// Why a command, or a part of it, was not carried out.
pub enum Failure {
    /// A call refused, on the image that is shown so.
    Refused {
        /// The image's path.
        image: String,
        /// Why.
        refusal: Refusal,
        /// What is said behind it in brackets: which of several names it was, what was looked at, or what can be done.
        remark: Option<String>,
    },
    /// The command line is none that the tool takes; a line on how it is used follows.
    Usage {
        /// What is wrong.
        words: String,
        /// How it is used.
        usage: String,
    },
    /// A file could not be read or written, or the like.
    Trouble(String),
}

impl Failure {
    /// A failure about a file.
    pub fn about(file: &str, words: impl std::fmt::Display) -> Failure {
        Failure::Trouble(format!("{file}: {words}"))
    }

    /// The exit status for it.
    pub fn status(&self) -> u8 {
        match self {
            Failure::Refused { .. } => 1,
            Failure::Usage { .. } | Failure::Trouble(_) => 2,
        }
    }

    /// The text for standard error.
    pub fn text(&self) -> String {
        match self {
            Failure::Refused { image, refusal, remark } => match remark {
                Some(remark) => format!("mfs: {image}: {refusal} ({remark})\n"),
                None => format!("mfs: {image}: {refusal}\n"),
            },
            Failure::Usage { words, usage } => format!("mfs: {words}\n{usage}\n"),
            Failure::Trouble(words) => format!("mfs: {words}\n"),
        }
    }
}
