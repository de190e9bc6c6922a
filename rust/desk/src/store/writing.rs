//! Writing a store: all or nothing, one process at a time.

use std::fs::{self, File, TryLockError};
use std::io::{self, stderr, IsTerminal};
use std::path::{Path, PathBuf};

use super::contents::{self, Contents};
use super::{journal, note, seen, tables_file, Store};
use crate::disk::{put, sync_folder, write_synced};
use crate::files::{Texts, NAMES};
use crate::loading::Rooms;
use crate::progress::Progress;
use crate::tables::Tables;
use crate::trouble::Trouble;

/// The store's lock; let go when dropped, or when the process ends.
pub struct Lock(File);

impl Lock {
    /// Waits for the lock to write.
    pub fn taken(root: &Path) -> Result<Lock, Trouble> {
        let path = root.join("lock");
        let trouble = |error: &io::Error| Trouble::writing(&path, error);
        let file = open_lock(&path).map_err(|error| trouble(&error))?;
        match file.try_lock() {
            Ok(()) => return Ok(Lock(file)),
            Err(TryLockError::WouldBlock) if stderr().is_terminal() => {
                note("another program is writing this store; waiting for it.")
            }
            Err(TryLockError::WouldBlock) => (),
            Err(TryLockError::Error(error)) => return Err(trouble(&error)),
        }
        file.lock().map_err(|error| trouble(&error))?;
        Ok(Lock(file))
    }

    /// The lock to write, if it is free.
    pub fn if_free(root: &Path) -> Result<Option<Lock>, Trouble> {
        let path = root.join("lock");
        let file = open_lock(&path).map_err(|error| Trouble::writing(&path, &error))?;
        match file.try_lock() {
            Ok(()) => Ok(Some(Lock(file))),
            Err(TryLockError::WouldBlock) => Ok(None),
            Err(TryLockError::Error(error)) => Err(Trouble::writing(&path, &error)),
        }
    }

    /// Waits until nobody writes.
    pub fn shared(root: &Path) -> Option<Lock> {
        let file = File::open(root.join("lock")).ok()?;
        file.lock_shared().ok()?;
        Some(Lock(file))
    }
}

impl Drop for Lock {
    fn drop(&mut self) {
        // The end of the file's life would do it too.
        let _ = self.0.unlock();
    }
}

fn open_lock(path: &Path) -> io::Result<File> {
    File::options().read(true).write(true).create(true).truncate(false).open(path)
}

/// Whether a store that is there already may be replaced.
#[derive(Clone, Copy, PartialEq)]
pub enum Replacing {
    Allowed,
    Forbidden,
}

/// Keeps a loaded delivery in a store: a new one, or in the place of the old.
pub fn keep(
    root: &Path,
    texts: &Texts,
    rooms: Rooms,
    tables: &Tables,
    replacing: Replacing,
    progress: &Progress,
) -> Result<(), Trouble> {
    let new = match fs::create_dir(root) {
        Ok(()) => true,
        Err(error) if error.kind() == io::ErrorKind::AlreadyExists => false,
        Err(error) => return Err(Trouble::writing(root, &error)),
    };
    let kept = keep_in(root, texts, rooms, tables, replacing, progress);
    // Another program may have made its store here meanwhile.
    if kept.is_err() && new && !contents::is_there(root) {
        let _ = fs::remove_file(root.join("lock"));
        let _ = fs::remove_dir(root);
    }
    kept
}

fn keep_in(
    root: &Path,
    texts: &Texts,
    rooms: Rooms,
    tables: &Tables,
    replacing: Replacing,
    progress: &Progress,
) -> Result<(), Trouble> {
    only_a_store(root)?;
    let _lock = Lock::taken(root)?;
    // Another program may have made a store here while this one waited.
    if replacing == Replacing::Forbidden && contents::is_there(root) {
        return Err(Trouble::new(format!(
            "{} is a store already{}. Give another folder, or `--replace` to put this delivery into its place.",
            root.display(),
            amendments_in(root)
        )));
    }
    let others = contents::numbers(root)?;
    let contents = Contents::of(others.iter().max().unwrap_or(&0) + 1, texts, rooms);
    let folder = contents.folder(root);
    let written = write_delivery(root, &contents, texts, tables, progress);
    let counts = written.and_then(|()| make_current(root, &contents));
    if let Err(trouble) = counts {
        let _ = fs::remove_dir_all(&folder);
        return Err(trouble.and("Nothing was changed."));
    }
    // The new store counts from here on. What is left over does no harm.
    let parent = root.parent().filter(|parent| !parent.as_os_str().is_empty());
    let _ = sync_folder(parent.unwrap_or(Path::new(".")));
    for other in others {
        let _ = fs::remove_dir_all(root.join(other.to_string()));
    }
    Ok(())
}

/// From here on a delivery in the store is the one that counts.
pub(super) fn make_current(root: &Path, contents: &Contents) -> Result<(), Trouble> {
    let (from, to) = (root.join("current.new"), root.join(contents::NAME));
    let done = write_synced(&from, &[contents.written().as_bytes()], |_| ()).and_then(|()| put(&from, &to));
    done.map_err(|error| {
        let _ = fs::remove_file(&from);
        Trouble::writing(&to, &error)
    })
}

fn amendments_in(root: &Path) -> String {
    let count = contents::find(root).ok().and_then(|contents| journal::read(&contents.folder(root), 0).ok());
    match count.map_or(0, |entries| entries.len()) {
        0 => String::new(),
        1 => ", with 1 amendment".into(),
        more => format!(", with {more} amendments"),
    }
}

/// A folder with anything else than a store's own files is not written to.
fn only_a_store(root: &Path) -> Result<(), Trouble> {
    let entries = fs::read_dir(root).map_err(|error| match error.kind() {
        io::ErrorKind::NotADirectory => Trouble::new(format!(
            "{} is a file. Give a folder for the store, or the name of one that is not there yet.",
            root.display()
        )),
        _ => Trouble::reading(root, &error),
    })?;
    let own = |name: &str| matches!(name, "current" | "current.new" | "lock") || name.parse::<u64>().is_ok();
    let foreign = entries.flatten().find(|entry| !entry.file_name().to_str().is_some_and(own));
    match foreign {
        None => Ok(()),
        Some(entry) => Err(Trouble::new(format!(
            "{} has other files in it ({}), so no store is made there. Give another folder, or the name of one that is not there yet.",
            root.display(),
            entry.file_name().to_string_lossy()
        ))),
    }
}

fn write_delivery(
    root: &Path,
    contents: &Contents,
    texts: &Texts,
    tables: &Tables,
    progress: &Progress,
) -> Result<(), Trouble> {
    let folder = contents.folder(root);
    let files = folder.join("delivery");
    let journal = journal::folder(&folder);
    let make = |path: &PathBuf| fs::create_dir(path).map_err(|error| Trouble::writing(path, &error));
    [&folder, &files, &journal].into_iter().try_for_each(make)?;

    let words: usize = tables.lent().iter().map(|table| table.len()).sum();
    let bar = progress.bytes("saving", contents.bytes() + 8 * words as u64);
    for (name, text) in NAMES.iter().zip(&texts.0).filter(|(_, text)| !text.is_empty()) {
        bar.at(name);
        let path = files.join(name);
        write_synced(&path, &[text], |more| bar.more(more))
            .map_err(|error| Trouble::writing(&path, &error))?;
    }
    bar.at("tables");
    tables_file::write(&tables_file::path(&folder), tables, 0, |more| bar.more(more))?;
    let copy = folder.join(contents::COPY);
    write_synced(&copy, &[contents.written().as_bytes()], |_| ())
        .map_err(|error| Trouble::writing(&copy, &error))?;
    let sync = |path: &&PathBuf| sync_folder(path).map_err(|error| Trouble::writing(path, &error));
    [&files, &journal, &folder].iter().try_for_each(sync)
}

impl Store {
    /// Puts the tables into the place of those on the disk.
    pub(super) fn save_tables(&mut self, progress: &Progress) -> Result<(), Trouble> {
        self.write_new_tables(progress)?;
        self.take_new_tables()
    }

    fn new_tables(&self) -> PathBuf {
        self.folder().join("tables.new")
    }

    fn write_new_tables(&self, progress: &Progress) -> Result<(), Trouble> {
        let path = self.new_tables();
        let words: usize = self.tables.lent().iter().map(|table| table.len()).sum();
        let bar = progress.bytes("saving", 8 * words as u64);
        let written = tables_file::write(&path, &self.tables, self.amendments, |more| bar.more(more));
        written.inspect_err(|_| drop(fs::remove_file(&path)))
    }

    fn take_new_tables(&mut self) -> Result<(), Trouble> {
        let to = tables_file::path(&self.folder());
        put(&self.new_tables(), &to).map_err(|error| Trouble::writing(&to, &error))?;
        self.stamp.tables = seen(&to);
        Ok(())
    }

    /// Keeps an accepted amendment: the new tables beside the old ones, the
    /// amendment into the journal, which is the moment it counts from, the new
    /// tables into their place.
    pub(super) fn keep_amendment(
        &mut self,
        service: u64,
        block: &[u8],
        progress: &Progress,
    ) -> Result<(), Trouble> {
        let nothing = "The amendment is not kept, and the store is as it was.";
        self.write_new_tables(progress).map_err(|trouble| trouble.and(nothing))?;
        let folder = self.folder();
        let (number, to) = (self.amendments, journal::path(&folder, self.amendments));
        let from = to.with_extension("new");
        let entered = journal::write(&from, number, service, block)
            .and_then(|()| put(&from, &to).map_err(|error| Trouble::writing(&to, &error)));
        if let Err(trouble) = entered {
            for left in [&from, &to, &self.new_tables()] {
                let _ = fs::remove_file(left);
            }
            return Err(trouble.and(nothing));
        }
        if let Err(trouble) = self.take_new_tables() {
            // The journal has it: who reads next makes the tables again.
            note(&format!("The amendment is kept, but its tables are not: {trouble}"));
        }
        Ok(())
    }
}
