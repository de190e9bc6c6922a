//! One question through both programs, with answers in one form.

use deliveries::clocks::CameTo;
use deliveries::{questions, Question};
use proved::{Change, LocalMinutes, Reason, ReferenceMinutes, Running, Source, StopTimes, Time, Verdict};
use second::sound::Unsound;
use second::{Refusal, Store};

use crate::{Files, Tables};

/// What the second program finds of tables.
pub type Examined = Result<Store, Unsound>;

/// What questions are asked of.
#[derive(Clone, Copy)]
pub struct Lent<'a> {
    pub tables: &'a Tables,
    pub stations: &'a [u8],
    pub timetbls: &'a [u8],
}

impl<'a> Lent<'a> {
    pub fn new(tables: &'a Tables, files: Files<'a>) -> Lent<'a> {
        let text = |file: second::File| files[file.index()];
        Lent { tables, stations: text(second::File::Stations), timetbls: text(second::File::TimeTbls) }
    }
}

/// The two sides of a change.
pub type Sides = (questions::Side, questions::Side);

/// An answer, or the number of a refusal.
pub type Answered = Result<Answer, u64>;

#[derive(Clone, Copy, Debug, PartialEq, Eq)]
pub enum Answer {
    Running(Running),
    StopTimes(StopTimes),
    Change(Change),
    /// Of a text: where it begins and ends there.
    Part {
        of: Text,
        from: usize,
        to: usize,
    },
}

#[derive(Clone, Copy, Debug, PartialEq, Eq)]
pub enum Text {
    Stations,
    Timetbls,
    Block,
}

/// Asks the proved crates, which test the tables each time.
pub fn asked_of_proved(question: &Question, lent: Lent) -> Answered {
    let tables = lent.tables.each_ref().map(Vec::as_slice);
    let answer = match *question {
        Question::RunningDay { service, leg, date } => {
            proved::running_day(tables, service, leg, date).map(Answer::Running)
        }
        Question::StopTime { service, stop, date } => {
            proved::stop_time(tables, service, stop, date).map(Answer::StopTimes)
        }
        Question::Change { from, to } => {
            proved::change(tables, proved_side(from), proved_side(to)).map(Answer::Change)
        }
        Question::Name { short_name } => {
            proved::name(lent.stations, short_name).map(|part| place_of(part, question, lent))
        }
        Question::LinesNow { service, ref block } => {
            proved::lines_now(lent.timetbls, block, service).map(|part| place_of(part, question, lent))
        }
    };
    answer.map_err(|proved::Refusal(number)| number)
}

pub fn proved_side(side: questions::Side) -> proved::Side {
    let questions::Side { service, stop, date } = side;
    proved::Side { service, stop, date }
}

/// Asks the proved crates for many changes by one call; 16 where the tables are not
/// sound.
pub fn sheet_of_proved(changes: &[Sides], tables: &Tables) -> Result<Vec<Answered>, u64> {
    let sides: Vec<_> = changes.iter().map(|&(from, to)| (proved_side(from), proved_side(to))).collect();
    let number = |proved::Refusal(number)| number;
    let answers = proved::sheet(tables.each_ref().map(Vec::as_slice), &sides).map_err(number)?;
    Ok(answers.into_iter().map(|answer| answer.map(Answer::Change).map_err(number)).collect())
}

/// Asks the second program for them one at a time.
pub fn changes_of_second(changes: &[Sides], tables: &Tables, examined: &Examined) -> Vec<Answered> {
    // Changes are lent no texts.
    let lent = Lent { tables, stations: &[], timetbls: &[] };
    let ask = |&(from, to): &Sides| asked_of_second(&Question::Change { from, to }, lent, examined);
    changes.iter().map(ask).collect()
}

/// Asks the second program, which has examined the tables before.
pub fn asked_of_second(question: &Question, lent: Lent, examined: &Examined) -> Answered {
    let side = |side: questions::Side| second::questions::Side {
        service: side.service,
        stop: side.stop,
        date: side.date,
    };
    let store = examined.as_ref().map_err(|_| second::Fault::NotSound.nowhere());
    let answer = match *question {
        Question::RunningDay { service, leg, date } => {
            store.and_then(|store| second::running_day(store, service, leg, date)).map(running)
        }
        Question::StopTime { service, stop, date } => {
            store.and_then(|store| second::stop_time(store, service, stop, date)).map(stop_times)
        }
        Question::Change { from, to } => {
            store.and_then(|store| second::change(store, side(from), side(to))).map(change)
        }
        Question::Name { short_name } => {
            second::name(lent.stations, short_name).map(|part| place_of(part, question, lent))
        }
        Question::LinesNow { service, ref block } => {
            second::lines_now(lent.timetbls, block, service).map(|part| place_of(part, question, lent))
        }
    };
    answer.map_err(|refusal: Refusal| u64::from(refusal.number))
}

fn running(runs: bool) -> Answer {
    Answer::Running(if runs { Running::Runs } else { Running::Rests })
}

fn stop_times(times: second::questions::StopTime) -> Answer {
    let both = |local: Option<second::LocalMinutes>, reference: Option<second::ReferenceMinutes>| {
        let time = |(local, reference): (second::LocalMinutes, second::ReferenceMinutes)| Time {
            local: LocalMinutes(local.0),
            reference: ReferenceMinutes(reference.0),
        };
        local.zip(reference).map(time)
    };
    let second::questions::StopTime { station, local, reference } = times;
    Answer::StopTimes(StopTimes {
        station,
        arrival: both(local.arrival, reference.arrival),
        departure: both(local.departure, reference.departure),
    })
}

fn change(change: second::questions::Change) -> Answer {
    let second::questions::Change { verdict, gap, source, needed } = change;
    Answer::Change(Change {
        verdict: match verdict {
            second::questions::Verdict::No(why) => Verdict::No(reason(why)),
            second::questions::Verdict::Yes => Verdict::Yes,
            second::questions::Verdict::Unsettled => Verdict::Unsettled,
        },
        gap,
        source: source.map(|source| match source {
            second::questions::Source::Changes => Source::Changes,
            second::questions::Source::Stations => Source::Stations,
            second::questions::Source::XChanges => Source::XChanges,
        }),
        needed: needed.map(u64::from),
    })
}

fn reason(reason: second::questions::Reason) -> Reason {
    use second::questions::Reason as Second;
    match reason {
        Second::SameServiceAndDate => Reason::SameServiceAndDate,
        Second::FromDoesNotRun => Reason::FromDoesNotRun,
        Second::ToDoesNotRun => Reason::ToDoesNotRun,
        Second::StationsDiffer => Reason::StationsDiffer,
        Second::NobodyAlights => Reason::NobodyAlights,
        Second::NobodyBoards => Reason::NobodyBoards,
        Second::PairImpossible => Reason::PairImpossible,
        Second::NoChangesHere => Reason::NoChangesHere,
        Second::GapTooShort => Reason::GapTooShort,
    }
}

/// Where a part stands: equal bytes elsewhere are another answer.
fn place_of(part: &[u8], question: &Question, lent: Lent) -> Answer {
    let block: &[u8] = match question {
        Question::LinesNow { block, .. } => block,
        _ => &[],
    };
    let texts = [(Text::Stations, lent.stations), (Text::Timetbls, lent.timetbls), (Text::Block, block)];
    let within = |text: &[u8]| {
        let from = part.as_ptr().addr().checked_sub(text.as_ptr().addr())?;
        (from < text.len()).then_some((from, from + part.len()))
    };
    let found = texts.into_iter().find_map(|(of, text)| Some((of, within(text)?)));
    let (of, (from, to)) = found.expect("a part of a lent text");
    Answer::Part { of, from, to }
}

/// What a question came to, as `deliveries::tally` names it.
pub fn outcome(question: &Question, answered: &Answered) -> String {
    let asked = match question {
        Question::RunningDay { .. } => "running day",
        Question::StopTime { .. } => "stop time",
        Question::Change { .. } => "change",
        Question::Name { .. } => "name",
        Question::LinesNow { .. } => "lines now",
    };
    let came_to = match answered {
        Err(number) => format!("refused {number}"),
        Ok(Answer::Running(Running::Runs)) => "runs".into(),
        Ok(Answer::Running(Running::Rests)) => "rests".into(),
        Ok(Answer::StopTimes(times)) => calls(times).into(),
        Ok(Answer::Change(change)) => judged(change),
        Ok(Answer::Part { of: Text::Stations, .. }) => "there".into(),
        Ok(Answer::Part { of: Text::Timetbls, .. }) => "of the text".into(),
        Ok(Answer::Part { of: Text::Block, .. }) => "of the block".into(),
    };
    format!("{asked}: {came_to}")
}

/// What an answer came to, as far as clocks are concerned.
pub fn came_to(answered: &Answered) -> Option<CameTo> {
    match answered {
        Ok(Answer::StopTimes(_)) => Some(CameTo::Times),
        Ok(Answer::Change(change)) => change.gap.map(|_| CameTo::Times),
        Err(15) => Some(CameTo::NoPeriod),
        _ => None,
    }
}

/// The needed time, where it is that of an exception.
pub fn by_exception(answered: &Answered) -> Option<u64> {
    match answered {
        Ok(Answer::Change(change)) if change.source == Some(Source::XChanges) => change.needed,
        _ => None,
    }
}

fn calls(times: &StopTimes) -> &'static str {
    match (times.arrival, times.departure) {
        (Some(_), Some(_)) => "arrival and departure",
        (None, Some(_)) => "no arrival",
        (Some(_), None) => "no departure",
        (None, None) => "neither",
    }
}

fn judged(change: &Change) -> String {
    let verdict = match change.verdict {
        Verdict::Yes => "Yes",
        Verdict::Unsettled => "Unsettled",
        Verdict::No(Reason::SameServiceAndDate) => "No, same service and date",
        Verdict::No(Reason::FromDoesNotRun) => "No, A does not run",
        Verdict::No(Reason::ToDoesNotRun) => "No, B does not run",
        Verdict::No(Reason::StationsDiffer) => "No, stations differ",
        Verdict::No(Reason::NobodyAlights) => "No, nobody alights",
        Verdict::No(Reason::NobodyBoards) => "No, nobody boards",
        Verdict::No(Reason::PairImpossible) => "No, pair 00",
        Verdict::No(Reason::NoChangesHere) => "No, flag 0",
        Verdict::No(Reason::GapTooShort) => "No, gap below needed",
    };
    let source = match change.source {
        None => "",
        Some(Source::Changes) => ", by CHANGES",
        Some(Source::Stations) => ", by STATIONS",
        Some(Source::XChanges) => ", by XCHANGES",
    };
    let border = match change.spare() {
        Some(-1) => ", a minute",
        Some(0) => ", gap just needed",
        _ => "",
    };
    format!("{verdict}{source}{border}")
}

/// What soundness came to, as `deliveries::tally` names it.
pub fn soundness(examined: &Examined) -> String {
    match examined {
        Ok(_) => "sound".into(),
        Err(Unsound::NoSuchLine) => "a row stands for no line".into(),
        Err(Unsound::Refused(refusal)) => format!("rule {}", refusal.number),
        Err(Unsound::OtherTables) => "unused places or derived words".into(),
    }
}
