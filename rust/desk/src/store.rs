//! A store: a folder that keeps a delivery, its tables and its amendments.
//!
//! ```text
//! STORE/current            which delivery counts: its number, its files' lengths, sums and rooms
//! STORE/lock               held while the store is written
//! STORE/1/delivery/..      the files as they came
//! STORE/1/contents         a copy of `current`
//! STORE/1/tables           the eleven tables, and how many amendments they have
//! STORE/1/journal/1, 2, .. the accepted amendments
//! ```
//!
//! The delivery and its journal are what counts; the tables can be made again
//! from them. An amendment is accepted at the moment its file is in the journal.

mod contents;
mod journal;
mod tables_file;
mod writing;

use std::fs::{self, File};
use std::io;
use std::os::unix::fs::MetadataExt;
use std::path::{Path, PathBuf};
use std::thread;

use proved::{Answer, Refusal};

use crate::files::place::TIMETBLS;
use crate::files::{latin, Texts, FILES, NAMES};
use crate::loading::load_texts;
use crate::progress::Progress;
use crate::tables::Tables;
use crate::trouble::Trouble;

use contents::Contents;
pub use writing::{keep, Lock, Replacing};

/// The number of tables that are not sound.
const NOT_SOUND: Refusal = Refusal(16);

pub struct Store {
    root: PathBuf,
    contents: Contents,
    pub tables: Tables,
    /// How many amendments the tables have.
    pub amendments: u64,
    /// The sum that the tables should have, until it was looked at.
    to_be_summed: Option<u64>,
    stamp: Stamp,
    /// Whether this process holds the store's lock.
    pub locked: bool,
}

/// Tells whether another process has written the store since: by `current` and
/// by the tables. None where that is not known.
#[derive(Clone, Copy, PartialEq)]
struct Stamp {
    current: Option<Seen>,
    tables: Option<Seen>,
}

/// A file's number on the disk, and when it was written.
type Seen = (u64, i64, i64);

fn seen(path: &Path) -> Option<Seen> {
    fs::metadata(path).ok().map(|data| (data.ino(), data.mtime(), data.mtime_nsec()))
}

impl Stamp {
    const UNKNOWN: Stamp = Stamp { current: None, tables: None };

    fn of(root: &Path, tables: &Path) -> Stamp {
        Stamp { current: seen(&root.join(contents::NAME)), tables: seen(tables) }
    }
}

/// Says a sentence that is no answer.
pub fn note(sentence: &str) {
    eprintln!("note: {sentence}");
}

impl Store {
    /// Reads a store. Its tables' sum is looked at with the first question.
    pub fn read(root: &Path, progress: &Progress) -> Result<Store, Trouble> {
        // Another process may put a new delivery into the store meanwhile: the
        // old one's folder is then gone, and the new one is read.
        const TRIES: usize = 5;
        let mut tried = Store::read_once(root, progress, false);
        for _ in 1..TRIES {
            match &tried {
                Err(trouble) if trouble.gone && root.is_dir() => {
                    tried = Store::read_once(root, progress, false)
                }
                _ => break,
            }
        }
        tried
    }

    /// Whether there is a store, or what there is in its place.
    pub fn is_at(root: &Path) -> Result<(), Trouble> {
        contents::find(root).map(drop)
    }

    /// Reads a store whose lock is held.
    pub fn read_locked(root: &Path, progress: &Progress) -> Result<Store, Trouble> {
        Store::read_once(root, progress, true)
    }

    fn read_once(root: &Path, progress: &Progress, locked: bool) -> Result<Store, Trouble> {
        // As it was before it was read: what is written from here on is noticed.
        let current = seen(&root.join(contents::NAME));
        let contents = contents::find(root)?;
        let folder = contents.folder(root);
        let mut stamp = Stamp { current, tables: seen(&tables_file::path(&folder)) };
        if locked && !contents::is_written(root, &contents) {
            writing::make_current(root, &contents)?;
            stamp = Stamp::of(root, &tables_file::path(&folder));
        }
        let read = {
            let work = progress.step("reading");
            work.at("tables");
            tables_file::read(&folder)
        };
        let mut store = Store {
            root: root.into(),
            contents,
            tables: Tables::default(),
            amendments: 0,
            to_be_summed: None,
            stamp,
            locked,
        };
        match read {
            Ok(read) if read.lengths() == store.contents.lengths() => {
                (store.tables, store.amendments, store.to_be_summed) =
                    (read.tables, read.amendments, Some(read.sum));
            }
            Ok(read) => {
                store.amendments = read.amendments;
                store.remake("The store's tables are those of another delivery", progress)?
            }
            Err(unread) => {
                store.amendments = unread.amendments;
                store.remake(&unread.why, progress)?
            }
        }
        if journal::has(&store.folder(), store.amendments + 1) {
            store.catch_up(progress)?;
        }
        if store.amendments > 0 && !journal::has(&store.folder(), store.amendments) {
            note(&format!(
                "amendment {} is missing in the store's journal. The tables have it, and answers are right; but \
                 should they be damaged, they cannot be made again.",
                store.amendments
            ));
        }
        Ok(store)
    }

    /// The journal has more than the tables: a process is about to put new ones
    /// into their place, or was stopped before it did.
    fn catch_up(&mut self, progress: &Progress) -> Result<(), Trouble> {
        if !self.locked {
            let waited = Lock::shared(&self.root);
            let tables = seen(&tables_file::path(&self.folder()));
            let read = tables_file::read(&self.folder());
            drop(waited);
            if let Ok(read) = read {
                if read.lengths() == self.contents.lengths()
                    && !journal::has(&self.folder(), read.amendments + 1)
                {
                    (self.tables, self.amendments, self.to_be_summed) =
                        (read.tables, read.amendments, Some(read.sum));
                    self.stamp.tables = tables;
                    return Ok(());
                }
            }
        }
        self.remake("The store's tables lack the last amendment", progress)
    }

    fn folder(&self) -> PathBuf {
        self.contents.folder(&self.root)
    }

    /// Whether another process has written the store since it was read.
    pub fn is_stale(&self) -> bool {
        Stamp::of(&self.root, &tables_file::path(&self.folder())) != self.stamp
    }

    /// Puts a question to the tables. Where they turn out to be damaged or not
    /// sound they are made again, and the question is put again.
    pub fn ask<T: Send>(
        &mut self,
        progress: &Progress,
        question: impl Fn(&Tables) -> Result<T, Refusal> + Sync,
    ) -> Result<Result<T, Refusal>, Trouble> {
        Ok(self.ask_beside(progress, question, |_| ())?.0)
    }

    /// The same, and what is shown beside the answer, which is looked up in the
    /// same tables meanwhile.
    pub fn ask_beside<T: Send, S: Send>(
        &mut self,
        progress: &Progress,
        question: impl Fn(&Tables) -> Result<T, Refusal> + Sync,
        shown: impl Fn(&Tables) -> S + Sync,
    ) -> Result<(Result<T, Refusal>, S), Trouble> {
        let tables = &self.tables;
        let answered = match self.to_be_summed {
            None => (question(tables), shown(tables)),
            // The question and what is shown are safe for any tables: all is done
            // at once, and counts where the tables are found to be right.
            Some(sum) => {
                let (answer, beside) = thread::scope(|scope| {
                    let summing = scope.spawn(|| (tables_file::sum(tables) == sum).then(|| shown(tables)));
                    (question(tables), summing.join().unwrap_or(None))
                });
                let Some(beside) = beside else {
                    self.remake("The store's tables are damaged", progress)?;
                    return self.ask_beside(progress, question, shown);
                };
                self.to_be_summed = None;
                (answer, beside)
            }
        };
        if let (Err(NOT_SOUND), _) = answered {
            self.remake("The store's tables are not sound", progress)?;
            return Ok((question(&self.tables), shown(&self.tables)));
        }
        Ok(answered)
    }

    /// Finds the tables sound, made again where need be.
    pub fn sound(&mut self, progress: &Progress) -> Result<(), Trouble> {
        self.sound_beside(progress, |_| ())
    }

    /// What is shown of tables that are found sound.
    pub fn sound_beside<S: Send>(
        &mut self,
        progress: &Progress,
        shown: impl Fn(&Tables) -> S + Sync,
    ) -> Result<S, Trouble> {
        let sound = |tables: &Tables| match proved::is_sound(tables.lent()) {
            true => Ok(()),
            false => Err(NOT_SOUND),
        };
        match self.ask_beside(progress, sound, shown)? {
            (Ok(()), shown) => Ok(shown),
            (Err(_), _) => Err(self.refused("its tables are not sound, also after they were made again")),
        }
    }

    /// The copy of a file of the delivery, if it is as it came.
    pub fn text(&self, file: usize) -> Result<Vec<u8>, Trouble> {
        self.contents.text(&self.root, file)
    }

    fn texts(&self, progress: &Progress) -> Result<Texts, Trouble> {
        let bar = progress.bytes("reading", self.contents.bytes());
        let mut texts: [Vec<u8>; FILES] = Default::default();
        for (file, text) in texts.iter_mut().enumerate() {
            bar.at(NAMES[file]);
            *text = self.text(file)?;
            bar.more(text.len() as u64);
        }
        Ok(Texts(texts))
    }

    /// Makes the tables again from the delivery and its journal.
    fn remake(&mut self, why: &str, progress: &Progress) -> Result<(), Trouble> {
        let made = self.made_again(progress);
        let (tables, amendments) = made.map_err(|trouble| match trouble.gone && self.is_stale() {
            // A new delivery was put into the store meanwhile.
            true => trouble,
            false => self
                .refused(&format!("{}, and they cannot be made again: {trouble}", why.to_lowercase_first())),
        })?;
        (self.tables, self.amendments, self.to_be_summed) = (tables, amendments, None);
        let saved = match self.locked {
            true => self.save_tables(progress),
            false => match Lock::if_free(&self.root) {
                Ok(Some(_lock)) if !journal::has(&self.folder(), amendments + 1) => {
                    self.save_tables(progress)
                }
                // Another process writes: it leaves tables that are right.
                Ok(_) => Ok(()),
                Err(trouble) => Err(trouble),
            },
        };
        let kept = match saved {
            Ok(()) => String::new(),
            Err(trouble) => format!(" They could not be kept: {trouble}"),
        };
        note(&format!(
            "{why}; they were made again from the delivery and its {}.{kept}",
            journal::counted(amendments)
        ));
        Ok(())
    }

    /// By the law of amendments the tables are those of a load of the edited text.
    fn made_again(&self, progress: &Progress) -> Result<(Tables, u64), Trouble> {
        let mut texts = self.texts(progress)?;
        let entries = journal::read(&self.folder(), self.amendments)?;
        let amendments = entries.len() as u64;
        texts.0[TIMETBLS] = journal::edited(&texts.0[TIMETBLS], &entries)?;
        let work = progress.step("checking");
        work.at("the delivery with its amendments");
        let (answer, tables) = load_texts(texts.slices(), &self.contents.rooms);
        match answer.is_accepted() {
            true => Ok((tables, amendments)),
            false => Err(Trouble::new(format!("the store's delivery is refused {}", short(&answer)))),
        }
    }

    fn refused(&self, why: &str) -> Trouble {
        Trouble::new(format!("The store {} cannot be used: {why}", self.root.display())).and(
            "Where that cannot be mended, open the delivery again into a new store, and amend it again; accepted \
             amendments are in the store's journal folder.",
        )
    }

    /// The lines of a service as they stand now.
    pub fn lines(&self, service: u64) -> Result<Result<Vec<u8>, Refusal>, Trouble> {
        let block = journal::last_of(&self.folder(), self.amendments, service)?.unwrap_or_default();
        let text = match block.is_empty() {
            true => self.text(TIMETBLS)?,
            false => Vec::new(),
        };
        Ok(proved::lines_now(&text, &block, service).map(<[u8]>::to_vec))
    }

    /// Amends the tables; an accepted amendment is kept, all or nothing. The
    /// lock is held, and the tables are those of the journal's end.
    pub fn amend(&mut self, service: u64, block: &[u8], progress: &Progress) -> Result<Answer, Trouble> {
        // Tables that are damaged are made again before anything is written to them.
        self.ask(progress, |_| Ok(()))?.unwrap_or(());
        let mut answer = self.amended(service, block, progress);
        if answer.number == NOT_SOUND.0 {
            self.remake("The store's tables are not sound", progress)?;
            answer = self.amended(service, block, progress);
        }
        if answer.is_accepted() {
            self.amendments += 1;
            let kept = self.keep_amendment(service, block, progress);
            if kept.is_err() {
                // These tables have what the store does not have.
                self.stamp = Stamp::UNKNOWN;
            }
            kept?;
        }
        Ok(answer)
    }

    fn amended(&mut self, service: u64, block: &[u8], progress: &Progress) -> Answer {
        let _work = progress.step("checking");
        proved::amend(self.tables.lent_mut().into(), service, block)
    }
}

/// Answers a refusal as the check program does.
fn short(answer: &Answer) -> String {
    let file = NAMES.get((answer.file as usize).wrapping_sub(1)).copied().unwrap_or("");
    format!("{} {file} {} {}", answer.number, answer.ordinal, answer.line)
}

trait LowercaseFirst {
    fn to_lowercase_first(&self) -> String;
}

impl LowercaseFirst for str {
    fn to_lowercase_first(&self) -> String {
        let mut letters = self.chars();
        letters.next().map_or(String::new(), |first| first.to_lowercase().chain(letters).collect())
    }
}

/// Opens a file that is read or locked, with a sentence where that fails.
fn opened(path: &Path) -> Result<File, Trouble> {
    File::open(path).map_err(|error| Trouble::reading(path, &error))
}

/// A file's bytes as text, for the store's own small files.
fn read_small(path: &Path) -> io::Result<String> {
    fs::read(path).map(|bytes| latin(&bytes))
}
