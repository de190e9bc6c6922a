//! The desk's card: the rank of every pattern with many keys, and of every two
//! patterns the one that counts. The order is worked out by hand: the from company
//! weighs most, the to mode least.

use std::io;

use compare::answers::{Answer, Answered, Lent, Sides};
use compare::{by_second, lengths_of};
use deliveries::questions::Side;
use deliveries::tables::{ANY_COMPANY, ANY_MODE};
use deliveries::{Case, Question, Rng, FILES};
use proved::{Change, Keys, Source, Verdict};

use crate::comparison::{shown, Comparison};
use crate::sheets::Known;

/// Companies that are named: at the limits of their three digits, beyond them, and
/// such as a careless look takes for the wildcard.
const COMPANIES: [u64; 14] = [
    1,
    999,
    100,
    0,
    1_000,
    0x2a,
    ANY_COMPANY - 1,
    ANY_COMPANY + 1,
    ANY_MODE,
    ANY_COMPANY << 40,
    ANY_COMPANY | 1 << 24,
    ANY_COMPANY | 1 << 32,
    ANY_COMPANY | 1 << 63,
    u64::MAX,
];

/// The same of modes: `IC  `, `    `, `*  *`, ` *  ` and others.
const MODES: [u64; 14] = [
    0x4943_2020,
    0x2020_2020,
    0x2a20_202a,
    0x202a_2020,
    0xffff_ffff,
    0,
    0x2a,
    ANY_MODE - 1,
    ANY_MODE + 1,
    ANY_COMPANY,
    ANY_MODE << 32,
    ANY_MODE | 1 << 32,
    ANY_MODE | 1 << 63,
    u64::MAX,
];

/// So many keys of each pattern are any words.
const ANY_WORDS: usize = 1_000;

/// The card: the patterns from all wildcards to none, the last key changing
/// fastest, as which of the four keys are named.
fn card() -> impl Iterator<Item = [bool; 4]> {
    let either = [false, true];
    either.into_iter().flat_map(move |from_company| {
        either.into_iter().flat_map(move |from_mode| {
            either.into_iter().flat_map(move |to_company| {
                either.into_iter().map(move |to_mode| [from_company, from_mode, to_company, to_mode])
            })
        })
    })
}

/// Compares everything; answers what is wrong.
pub fn compare_all(comparison: &mut Comparison) -> io::Result<Vec<String>> {
    let mut complaints = Vec::new();
    let mut ranks = 0;
    for (place, named) in card().enumerate() {
        for names in many_names() {
            ranks += 1;
            let keys = keys(named, names);
            let rank = comparison.compare_rank(&format!("rank-{place}-{ranks}"), keys)?;
            if rank != place as u64 {
                complaints.push(format!("The rank of {keys:?} is {rank}, not {place}."));
            }
        }
    }
    println!("{ranks} ranks of sixteen patterns.");
    complaints.extend(compare_pairs(comparison)?);
    Ok(complaints)
}

fn keys([from_company, from_mode, to_company, to_mode]: [bool; 4], names: [u64; 4]) -> Keys {
    let word = |named: bool, name: u64, any: u64| if named { name } else { any };
    Keys {
        from_company: word(from_company, names[0], ANY_COMPANY),
        from_mode: word(from_mode, names[1], ANY_MODE),
        to_company: word(to_company, names[2], ANY_COMPANY),
        to_mode: word(to_mode, names[3], ANY_MODE),
    }
}

/// Every company with every mode four times on the from side, each beside a to side
/// by chance; and any words.
fn many_names() -> impl Iterator<Item = [u64; 4]> {
    let sides = COMPANIES.into_iter().flat_map(|company| MODES.into_iter().map(move |mode| [company, mode]));
    let sides: Vec<[u64; 2]> = sides.collect();
    let mut rng = Rng::new(3);
    let chosen: Vec<[u64; 4]> = (0..sides.len() * 4)
        .map(|at| {
            let ([a, b], [c, d]) = (sides[at % sides.len()], *rng.pick(&sides));
            [a, b, c, d]
        })
        .collect();
    // The wildcards themselves name nothing; a random word is none of them.
    let any: Vec<[u64; 4]> = (0..ANY_WORDS).map(|_| [(); 4].map(|()| rng.word() >> rng.below(24))).collect();
    chosen.into_iter().chain(any)
}

/// On 1 to 3 January 2015 a train of company 100, mode IC, arrives at 10:00, and one
/// of company 200, mode ST, leaves 17 hours later. Footnote 1 holds on the 2nd and
/// the 3rd, footnote 2 on the 1st and the 2nd.
const FIRST_LINE: &str = "@100,01012015,03012015,0001,Of two exceptions             \n";
const ACCEPTED: &str = "accepted 3 2";
const GAP: i32 = 1_020;
const ROOM: usize = 20;

/// The keys of an exception that fits both trains.
fn exception([from_company, from_mode, to_company, to_mode]: [bool; 4], time: u64, footnote: u64) -> String {
    let (from_company, to_company) =
        (if from_company { "100" } else { "*  " }, if to_company { "200" } else { "*  " });
    let (from_mode, to_mode) =
        (if from_mode { "IC  " } else { "*   " }, if to_mode { "ST  " } else { "*   " });
    format!("-{from_company},{from_mode},{to_company},{to_mode},{time:03},{footnote:05}\n")
}

/// Two exceptions, and the times that count on 1, 2 and 3 January: that of the second
/// alone, that of one of the two, that of the first alone.
struct Pair {
    name: String,
    case: Case,
    times: [u64; 3],
}

/// Every two patterns in both orders, each with the larger time and with as large
/// a one; the pattern that comes later on the card counts, and of one pattern twice
/// the larger time.
fn pairs() -> impl Iterator<Item = Pair> {
    let both = card().enumerate().flat_map(|first| card().enumerate().map(move |second| (first, second)));
    both.flat_map(|((first_place, first), (second_place, second))| {
        [(30, 40), (40, 30), (30, 30), (0, 999)].map(|(first_time, second_time)| {
            let counts = match first_place.cmp(&second_place) {
                std::cmp::Ordering::Less => second_time,
                std::cmp::Ordering::Equal => first_time.max(second_time),
                std::cmp::Ordering::Greater => first_time,
            };
            let rows = exception(first, first_time, 1) + &exception(second, second_time, 2);
            Pair {
                name: format!("card-{first_place}-{second_place}-{first_time}-{second_time}"),
                case: Case { files: files(&rows), rooms: [ROOM; FILES] },
                times: [second_time, counts, first_time],
            }
        })
    })
}

/// From one train to the other on a day of January.
fn change(day: u64) -> Sides {
    let side = |service, stop| Side { service, stop, date: day * 1_000_000 + 12_015 };
    (side(1, 2), side(2, 1))
}

/// What a change comes to by an exception's time.
fn answer(time: u64) -> Answered {
    let verdict = if time == 999 { Verdict::Unsettled } else { Verdict::Yes };
    let change = Change { verdict, gap: Some(GAP), source: Some(Source::XChanges), needed: Some(time) };
    Ok(Answer::Change(change))
}

/// For every two patterns the three days on one sheet.
pub fn known() -> impl Iterator<Item = Known> {
    pairs().map(|Pair { name, case, times }| Known {
        name,
        tables: by_second(case.texts(), &lengths_of(&case.rooms)).tables,
        changes: [1, 2, 3].map(change).to_vec(),
        answers: times.map(answer).to_vec(),
    })
}

fn compare_pairs(comparison: &mut Comparison) -> io::Result<Vec<String>> {
    let mut complaints = Vec::new();
    let mut count = 0;
    for pair in pairs() {
        complaints.extend(compare_pair(comparison, &pair)?);
        count += 1;
    }
    println!("{count} changes to which two exceptions apply, every two patterns in both orders.");
    Ok(complaints)
}

fn compare_pair(comparison: &mut Comparison, pair: &Pair) -> io::Result<Option<String>> {
    let Pair { name, case, times: [_, time, _] } = pair;
    let lengths = lengths_of(&case.rooms);
    let loaded = comparison.compare(name, case.texts(), lengths)?;
    if shown(loaded) != ACCEPTED {
        return Ok(Some(format!("{name} is `{}`, not `{ACCEPTED}`.", shown(loaded))));
    }
    let tables = by_second(case.texts(), &lengths).tables;
    let examined = comparison.compare_soundness(name, &tables)?;
    let (from, to) = change(2);
    let question = Question::Change { from, to };
    let answered =
        comparison.compare_answers(name, &question, Lent::new(&tables, case.texts()), &examined)?;
    let expected = answer(*time);
    Ok((answered != expected).then(|| format!("{name} is {answered:?}, not {expected:?}.")))
}

fn files(exceptions: &str) -> [Vec<u8>; FILES] {
    let company = |number: u64| format!("{number},{number:<10},{number:<30},0400\n");
    let block = |number: u64, company: u64, mode: &str, stops: &str| {
        format!(
            "#{number:08}\n%{company},00001,       ,000,999,{:30}\n-00000,000,999\n&{mode},000,999\n{stops}",
            ""
        )
    };
    let station = |name: &str| format!("1,{name},05,00,NL  ,0001,00,000000,000000,{name:30}\n");
    let rows = [
        String::new(),
        company(100) + &company(200),
        format!("NL  ,1,{:30}\n", "Nederland"),
        format!("IC  ,{:30}\nST  ,{:30}\n", "Intercity", "Stoptrein"),
        "#0001\n+01,01012015,31122015\n".into(),
        station("home   ") + &station("pier   "),
        "#00000\n111\n".into(),
        block(1, 100, "IC  ", ">home   ,0900\n<pier   ,1000\n")
            + &block(2, 200, "ST  ", ">pier   ,2700\n<home   ,2800\n"),
        String::new(),
        "#00001\n011\n#00002\n110\n".into(),
        format!("#pier   \n{exceptions}"),
    ];
    rows.map(|rows| (FIRST_LINE.to_string() + &rows).replace('\n', "\r\n").into_bytes())
}
