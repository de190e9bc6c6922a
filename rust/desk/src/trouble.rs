//! What goes wrong outside of the tables: usage, files, folders. Status 2.

use std::fmt;
use std::io::{self, ErrorKind};
use std::path::Path;

/// A sentence that helps.
#[derive(Debug, Clone)]
pub struct Trouble {
    sentence: String,
    /// What was looked for is not there; it may have been moved meanwhile.
    pub gone: bool,
}

impl Trouble {
    pub fn new(sentence: impl Into<String>) -> Trouble {
        Trouble { sentence: sentence.into(), gone: false }
    }

    /// Something that should be there is not.
    pub fn missing(sentence: impl Into<String>) -> Trouble {
        Trouble { sentence: sentence.into(), gone: true }
    }

    /// What was found in tables does not fit what was answered from them.
    pub fn not_shown() -> Trouble {
        Trouble::new("The store's tables do not show what was answered from them.")
    }

    pub fn reading(path: &Path, error: &io::Error) -> Trouble {
        let why = match error.kind() {
            ErrorKind::NotFound => "it is not there. Is the name spelt right?".into(),
            ErrorKind::PermissionDenied => {
                "you may not read it. Ask its owner for the right to read, or for a copy.".into()
            }
            ErrorKind::IsADirectory => "it is a folder and not a file.".into(),
            _ => format!("{error}."),
        };
        let sentence = format!("{} cannot be read: {why}", path.display());
        Trouble { sentence, gone: error.kind() == ErrorKind::NotFound }
    }

    pub fn writing(path: &Path, error: &io::Error) -> Trouble {
        let why = match error.kind() {
            ErrorKind::NotFound => "the folder it should stand in is not there. Make it first.".into(),
            ErrorKind::NotADirectory => "what should be a folder above it is a file.".into(),
            ErrorKind::PermissionDenied => {
                "you may not write there. Ask the folder's owner, or take another folder.".into()
            }
            ErrorKind::ReadOnlyFilesystem => "that disk can only be read. Take another folder.".into(),
            ErrorKind::StorageFull | ErrorKind::QuotaExceeded => {
                "the disk is full. Make room on it, or take another folder.".into()
            }
            ErrorKind::FileTooLarge => {
                "a file may not be that large here (`ulimit -f`). Raise the limit, or take another disk."
                    .into()
            }
            _ => format!("{error}."),
        };
        Trouble::new(format!("{} cannot be written: {why}", path.display()))
    }

    /// The same, with another sentence behind it.
    pub fn and(self, more: &str) -> Trouble {
        Trouble { sentence: format!("{} {more}", self.sentence), gone: self.gone }
    }
}

impl fmt::Display for Trouble {
    fn fmt(&self, out: &mut fmt::Formatter) -> fmt::Result {
        out.write_str(&self.sentence)
    }
}
