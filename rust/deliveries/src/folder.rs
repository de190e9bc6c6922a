//! Deliveries as folders of files.

use std::path::Path;
use std::{fs, io};

use crate::{FILES, NAMES};

/// Writes the files into the folder by their names; absent files are left out.
pub fn write(files: &[&[u8]; FILES], folder: &Path) -> io::Result<()> {
    fs::create_dir_all(folder)?;
    for (name, file) in NAMES.iter().zip(files) {
        let path = folder.join(name);
        match file.is_empty() {
            false => fs::write(path, file)?,
            // An earlier delivery in the folder may have had the file.
            true if path.exists() => fs::remove_file(path)?,
            true => (),
        }
    }
    Ok(())
}
