//! Names beside codes, from the store's copies of the delivery's files.

use std::collections::{HashMap, HashSet};

use crate::explain::questions::code;
use crate::files::place::*;
use crate::files::{latin, lines};
use crate::records::{number, pack, STATION_ROW};
use crate::store::{note, Store};
use crate::trouble::Trouble;

/// The texts that names are in. A file that is damaged gives none.
pub struct Names {
    stations: Option<Vec<u8>>,
}

impl Names {
    pub fn of(store: &Store) -> Result<Names, Trouble> {
        Ok(Names { stations: text(store, STATIONS)? })
    }

    /// The name of a station, without the blanks behind it.
    pub fn station(&self, packed: u64) -> Option<String> {
        let name = proved::name(self.stations.as_deref()?, packed).ok()?;
        Some(latin(name).trim_end().to_string())
    }

    /// The names of several stations, by one pass over the file.
    pub fn of_all(&self, wanted: HashSet<u64>) -> HashMap<u64, String> {
        let mut names = HashMap::new();
        let rows = lines(self.stations.as_deref().unwrap_or_default()).skip(1).map(|line| line.text);
        for row in rows.filter(|row| row.len() == STATION_ROW.length) {
            let code = pack(&row[2..9]);
            if wanted.contains(&code) {
                names.entry(code).or_insert_with(|| latin(&row[43..73]).trim_end().to_string());
            }
        }
        names
    }

    /// Code and name.
    pub fn both(&self, packed: u64) -> String {
        match self.station(packed) {
            Some(name) if !name.is_empty() => format!("{} {name}", code(packed)),
            _ => code(packed),
        }
    }
}

fn text(store: &Store, file: usize) -> Result<Option<Vec<u8>>, Trouble> {
    match store.text(file) {
        Ok(text) => Ok(Some(text)),
        // The store was replaced meanwhile, and is read again.
        Err(trouble) if trouble.gone && store.is_stale() => Err(trouble),
        Err(trouble) => {
            note(&format!("names are left out: {trouble}"));
            Ok(None)
        }
    }
}

/// The names of companies and modes.
pub struct Operators {
    companies: Option<Vec<u8>>,
    modes: Option<Vec<u8>>,
}

impl Operators {
    pub fn of(store: &Store) -> Result<Operators, Trouble> {
        Ok(Operators { companies: text(store, COMPANY)?, modes: text(store, TRNSMODE)? })
    }

    pub fn company(&self, wanted: u64) -> Option<String> {
        self.code_and_name(wanted).map(|(_, name)| name)
    }

    /// A company's own code and its name.
    pub fn code_and_name(&self, wanted: u64) -> Option<(String, String)> {
        let mut rows = lines(self.companies.as_deref()?).skip(1).map(|line| line.text);
        let row = rows.find(|row| row.get(..3).and_then(number) == Some(wanted))?;
        let told = |part: &[u8]| latin(part).trim_end().to_string();
        Some((told(row.get(4..14)?), told(row.get(15..45)?)))
    }

    pub fn mode(&self, wanted: u64) -> Option<String> {
        let mut rows = lines(self.modes.as_deref()?).skip(1).map(|line| line.text);
        let row = rows.find(|row| row.get(..4).map(pack) == Some(wanted))?;
        Some(latin(row.get(5..35)?).trim_end().to_string())
    }
}

#[cfg(test)]
mod tests {
    use super::*;
    use crate::explain::questions::packed;

    /// One pass finds the names that the proved `name` finds one by one.
    #[test]
    fn names_of_all() {
        let row = |code: &str, name: &str| {
            format!("1,{code:<7},05,99,NL  ,0001,00,000000,000000,{name:<30}\r\n").into_bytes()
        };
        let stations = [
            // A first line is none, also where it looks like one.
            row("A", "first line"),
            row("B", "Blackpool"),
            row("", "no code"),
            b"1,C      ,05\r\n".to_vec(),
            row("D", ""),
            row("B", "a second time"),
            row("E", "longer than its columns, and so no row"),
            row("F", "G\u{fc}tersloh").iter().filter(|&&byte| byte != 0xc3).copied().collect(),
            b"1,H      ,05,99,NL  ,0001,00,000000,000000,no CR LF                      ".to_vec(),
        ];
        let names = Names { stations: Some(stations.concat()) };
        let codes = ["A", "B", "", "C", "D", "E", "F", "H", "J"].map(packed);
        let of_all = names.of_all(codes.into_iter().collect());
        assert!(codes.iter().all(|code| of_all.get(code).cloned() == names.station(*code)), "{of_all:?}");
        assert_eq!(of_all.get(&packed("B")).map(String::as_str), Some("Blackpool"));
        assert_eq!(of_all.len(), 5, "{of_all:?}");
        let none = Names { stations: None };
        assert!(none.of_all(codes.into_iter().collect()).is_empty());
    }
}
