//! The functions of the archive that this program is linked with.

use crate::{AmendedTables, Files, Keys, LentTables, Side, Tables, Words};

/// Calls a function of the archive: what is only read comes first, then what is
/// written, perhaps more of both, each slice as a pointer and a length, then all
/// else.
macro_rules! call {
    ($function:ident($(read $($read:ident)*, written $($written:ident)*),+; $($other:expr),*)) => {
        // SAFETY: each pointer comes with the length of the slice that it was
        // taken from, the slices and arrays outlive the call, and what is
        // written is borrowed by the caller alone.
        unsafe {
            $function(
                $(
                    $($read.as_ptr(), $read.len(),)*
                    $($written.as_mut_ptr(), $written.len(),)*
                )+
                $($other),*
            )
        }
    };
}

/// Calls a function that is lent a loaded store.
macro_rules! ask {
    ($function:ident, $tables:ident, $($other:expr),*) => {{
        let [delivery, company, country, trnsmode, timezone, stations, footnote, timetbls, changes, xfootnote, xchanges] =
            $tables;
        call!($function(
            read delivery company country trnsmode timezone stations footnote timetbls changes xfootnote xchanges,
            written;
            $($other),*
        ))
    }};
}

pub fn load(files: Files, tables: Tables, answer: &mut Words) {
    let [delivery, company, country, trnsmode, timezone, stations, footnote, timetbls, changes, xfootnote, xchanges] =
        files;
    let [t_delivery, t_company, t_country, t_trnsmode, t_timezone, t_stations, t_footnote, t_timetbls, t_changes, t_xfootnote, t_xchanges] =
        tables;
    call!(calyxcabin_load(
        read delivery company country trnsmode timezone stations footnote timetbls changes xfootnote xchanges,
        written t_delivery t_company t_country t_trnsmode t_timezone t_stations t_footnote t_timetbls t_changes
            t_xfootnote t_xchanges;
        answer
    ))
}

pub fn amend(tables: AmendedTables, service: u64, block: &[u8], answer: &mut Words) {
    let AmendedTables { before, timetbls, behind } = tables;
    let [delivery, company, country, trnsmode, timezone, stations, footnote] = before;
    let [changes, xfootnote, xchanges] = behind;
    call!(calyxcabin_amend(
        read delivery company country trnsmode timezone stations footnote,
        written timetbls,
        read changes xfootnote xchanges,
        written;
        service,
        block.as_ptr(),
        block.len(),
        answer
    ))
}

pub fn is_sound(tables: LentTables) -> u64 {
    ask!(calyxcabin_is_sound, tables,)
}

pub fn running_day(tables: LentTables, service: u64, leg: u64, date: u64, answer: &mut [u64; 2]) {
    ask!(calyxcabin_running_day, tables, service, leg, date, answer)
}

pub fn stop_time(
    tables: LentTables,
    service: u64,
    stop: u64,
    date: u64,
    answer: &mut [u64; 4],
    minutes: &mut [i32; 4],
) {
    ask!(calyxcabin_stop_time, tables, service, stop, date, answer, minutes)
}

pub fn change(tables: LentTables, from: Side, to: Side, answer: &mut [u64; 7], gap: &mut [i32; 1]) {
    ask!(
        calyxcabin_change,
        tables,
        from.service,
        from.stop,
        from.date,
        to.service,
        to.stop,
        to.date,
        answer,
        gap
    )
}

pub fn sheet(tables: LentTables, questions: &[u64], answers: &mut [u64]) -> u64 {
    let [delivery, company, country, trnsmode, timezone, stations, footnote, timetbls, changes, xfootnote, xchanges] =
        tables;
    call!(calyxcabin_sheet(
        read delivery company country trnsmode timezone stations footnote timetbls changes xfootnote xchanges
            questions,
        written answers;
    ))
}

pub fn name(stations: &[u8], short: u64, answer: &mut [u64; 3]) {
    call!(calyxcabin_name(read stations, written; short, answer))
}

pub fn lines_now(text: &[u8], block: &[u8], service: u64, answer: &mut [u64; 4]) {
    call!(calyxcabin_lines_now(read text block, written; service, answer))
}

pub fn rank(keys: Keys) -> u64 {
    let Keys { from_company, from_mode, to_company, to_mode } = keys;
    // SAFETY: four numbers are handed over and one comes back.
    unsafe { calyxcabin_rank(from_company, from_mode, to_company, to_mode) }
}

extern "C" {
    fn calyxcabin_load(
        delivery: *const u8,
        delivery_len: usize,
        company: *const u8,
        company_len: usize,
        country: *const u8,
        country_len: usize,
        trnsmode: *const u8,
        trnsmode_len: usize,
        timezone: *const u8,
        timezone_len: usize,
        stations: *const u8,
        stations_len: usize,
        footnote: *const u8,
        footnote_len: usize,
        timetbls: *const u8,
        timetbls_len: usize,
        changes: *const u8,
        changes_len: usize,
        xfootnote: *const u8,
        xfootnote_len: usize,
        xchanges: *const u8,
        xchanges_len: usize,
        t_delivery: *mut u64,
        t_delivery_len: usize,
        t_company: *mut u64,
        t_company_len: usize,
        t_country: *mut u64,
        t_country_len: usize,
        t_trnsmode: *mut u64,
        t_trnsmode_len: usize,
        t_timezone: *mut u64,
        t_timezone_len: usize,
        t_stations: *mut u64,
        t_stations_len: usize,
        t_footnote: *mut u64,
        t_footnote_len: usize,
        t_timetbls: *mut u64,
        t_timetbls_len: usize,
        t_changes: *mut u64,
        t_changes_len: usize,
        t_xfootnote: *mut u64,
        t_xfootnote_len: usize,
        t_xchanges: *mut u64,
        t_xchanges_len: usize,
        answer: *mut Words,
    );

    fn calyxcabin_amend(
        delivery: *const u64,
        delivery_len: usize,
        company: *const u64,
        company_len: usize,
        country: *const u64,
        country_len: usize,
        trnsmode: *const u64,
        trnsmode_len: usize,
        timezone: *const u64,
        timezone_len: usize,
        stations: *const u64,
        stations_len: usize,
        footnote: *const u64,
        footnote_len: usize,
        timetbls: *mut u64,
        timetbls_len: usize,
        changes: *const u64,
        changes_len: usize,
        xfootnote: *const u64,
        xfootnote_len: usize,
        xchanges: *const u64,
        xchanges_len: usize,
        service: u64,
        block: *const u8,
        block_len: usize,
        answer: *mut Words,
    );

    fn calyxcabin_is_sound(
        delivery: *const u64,
        delivery_len: usize,
        company: *const u64,
        company_len: usize,
        country: *const u64,
        country_len: usize,
        trnsmode: *const u64,
        trnsmode_len: usize,
        timezone: *const u64,
        timezone_len: usize,
        stations: *const u64,
        stations_len: usize,
        footnote: *const u64,
        footnote_len: usize,
        timetbls: *const u64,
        timetbls_len: usize,
        changes: *const u64,
        changes_len: usize,
        xfootnote: *const u64,
        xfootnote_len: usize,
        xchanges: *const u64,
        xchanges_len: usize,
    ) -> u64;

    fn calyxcabin_running_day(
        delivery: *const u64,
        delivery_len: usize,
        company: *const u64,
        company_len: usize,
        country: *const u64,
        country_len: usize,
        trnsmode: *const u64,
        trnsmode_len: usize,
        timezone: *const u64,
        timezone_len: usize,
        stations: *const u64,
        stations_len: usize,
        footnote: *const u64,
        footnote_len: usize,
        timetbls: *const u64,
        timetbls_len: usize,
        changes: *const u64,
        changes_len: usize,
        xfootnote: *const u64,
        xfootnote_len: usize,
        xchanges: *const u64,
        xchanges_len: usize,
        service: u64,
        leg: u64,
        date: u64,
        answer: *mut [u64; 2],
    );

    fn calyxcabin_stop_time(
        delivery: *const u64,
        delivery_len: usize,
        company: *const u64,
        company_len: usize,
        country: *const u64,
        country_len: usize,
        trnsmode: *const u64,
        trnsmode_len: usize,
        timezone: *const u64,
        timezone_len: usize,
        stations: *const u64,
        stations_len: usize,
        footnote: *const u64,
        footnote_len: usize,
        timetbls: *const u64,
        timetbls_len: usize,
        changes: *const u64,
        changes_len: usize,
        xfootnote: *const u64,
        xfootnote_len: usize,
        xchanges: *const u64,
        xchanges_len: usize,
        service: u64,
        stop: u64,
        date: u64,
        answer: *mut [u64; 4],
        minutes: *mut [i32; 4],
    );

    fn calyxcabin_change(
        delivery: *const u64,
        delivery_len: usize,
        company: *const u64,
        company_len: usize,
        country: *const u64,
        country_len: usize,
        trnsmode: *const u64,
        trnsmode_len: usize,
        timezone: *const u64,
        timezone_len: usize,
        stations: *const u64,
        stations_len: usize,
        footnote: *const u64,
        footnote_len: usize,
        timetbls: *const u64,
        timetbls_len: usize,
        changes: *const u64,
        changes_len: usize,
        xfootnote: *const u64,
        xfootnote_len: usize,
        xchanges: *const u64,
        xchanges_len: usize,
        from_service: u64,
        from_stop: u64,
        from_date: u64,
        to_service: u64,
        to_stop: u64,
        to_date: u64,
        answer: *mut [u64; 7],
        gap: *mut [i32; 1],
    );

    fn calyxcabin_sheet(
        delivery: *const u64,
        delivery_len: usize,
        company: *const u64,
        company_len: usize,
        country: *const u64,
        country_len: usize,
        trnsmode: *const u64,
        trnsmode_len: usize,
        timezone: *const u64,
        timezone_len: usize,
        stations: *const u64,
        stations_len: usize,
        footnote: *const u64,
        footnote_len: usize,
        timetbls: *const u64,
        timetbls_len: usize,
        changes: *const u64,
        changes_len: usize,
        xfootnote: *const u64,
        xfootnote_len: usize,
        xchanges: *const u64,
        xchanges_len: usize,
        questions: *const u64,
        questions_len: usize,
        answers: *mut u64,
        answers_len: usize,
    ) -> u64;

    fn calyxcabin_name(stations: *const u8, stations_len: usize, short: u64, answer: *mut [u64; 3]);

    fn calyxcabin_lines_now(
        text: *const u8,
        text_len: usize,
        block: *const u8,
        block_len: usize,
        service: u64,
        answer: *mut [u64; 4],
    );

    fn calyxcabin_rank(from_company: u64, from_mode: u64, to_company: u64, to_mode: u64) -> u64;
}
