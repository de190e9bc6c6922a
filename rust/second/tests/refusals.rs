//! Loads and refusals, on both sides of every rule's border.

mod common;

use common::{accepted, pad, place, refused, service_number, station, Sample, HEADER};
use second::File;
use second::File::*;

#[test]
fn the_sample_is_accepted() {
    let store = Sample::new().load().unwrap();
    assert_eq!((store.answer().days, store.answer().services), (7, 3));
}

#[test]
fn the_example_of_document_01() {
    let mut sample = Sample::example();
    let answer = sample.load().unwrap().answer();
    assert_eq!((answer.days, answer.services), (800, 1));
    sample.set(TimeTbls, 7, "<xyz    ,0830");
    assert_eq!(place(&sample.load()), Some((9, 8, 1, 6)));
}

#[test]
fn p3_a_span_of_801_days() {
    let mut sample = Sample::example();
    for file in File::ALL.into_iter().take(8) {
        sample.set(file, 1, &HEADER.replace("07012015", "11032017"));
    }
    assert_eq!(place(&sample.load()), Some((5, 1, 0, 1)));
}

// Tests 1, 3 and 2.

#[test]
fn the_longest_file() {
    let mut sample = Sample::new();
    sample.files[Changes.index()] = vec![b' '; 268_435_456];
    sample.files[Company.index()].clear();
    assert_eq!(place(&sample.load()), Some((1, 9, 0, 0)));
    sample.files[Changes.index()].pop();
    assert_eq!(place(&sample.load()), Some((3, 2, 0, 0)));
    sample.files[Company.index()] = Sample::new().files[Company.index()].clone();
    assert_eq!(place(&sample.load()), Some((7, 9, 0, 1)));
}

#[test]
fn needed_files() {
    for (file, number) in File::ALL.into_iter().zip(1..=8) {
        refused((3, number, 0, 0), |s| s.files[file.index()].clear());
    }
    accepted(|s| s.files[Changes.index()].clear());
    accepted(|s| s.files[XChanges.index()].clear());
    refused((3, 10, 0, 0), |s| s.files[XFootnote.index()].clear());
    accepted(|s| {
        s.files[XFootnote.index()].clear();
        s.files[XChanges.index()].clear();
    });
}

#[test]
fn absence_comes_before_room_and_room_before_lines() {
    refused((3, 8, 0, 0), |s| {
        s.rooms[Delivery.index()] = 0;
        s.files[TimeTbls.index()].clear();
    });
    refused((2, 8, 0, 0), |s| {
        s.rooms[TimeTbls.index()] = 28;
        s.set(Company, 2, "");
    });
}

#[test]
fn rooms_count_the_first_line() {
    let lines = [1, 3, 3, 3, 6, 6, 7, 29, 6, 5, 5];
    accepted(|s| s.rooms = lines);
    for file in File::ALL {
        refused((2, file.number(), 0, 0), |s| {
            s.rooms = lines;
            s.rooms[file.index()] -= 1;
        });
    }
    accepted(|s| {
        s.files[Changes.index()].clear();
        s.rooms[Changes.index()] = 0;
    });
    refused((2, 1, 0, 0), |s| {
        s.rooms[Delivery.index()] = 1;
        s.files[Delivery.index()].push(b'x');
    });
}

#[test]
fn files_with_only_their_first_line_are_present() {
    accepted(|s| {
        for file in [Changes, XFootnote, XChanges] {
            s.keep_lines(file, 1);
        }
    });
    refused((9, 11, 0, 3), |s| s.keep_lines(XFootnote, 1));
    refused((9, 1, 0, 1), |s| s.keep_lines(Company, 1));
    accepted(|s| {
        for file in [Country, TrnsMode, TimeZone, Stations, Footnote, TimeTbls, Changes, XFootnote, XChanges]
        {
            s.keep_lines(file, 1);
        }
    });
}

// First lines.

#[test]
fn a_first_line_begins_with_at() {
    for file in File::ALL {
        let number = file.number();
        refused((7, number, 0, 1), |s| s.put_at(file, 1, 1, b"x"));
        refused((7, number, 0, 1), |s| s.set(file, 1, ""));
        refused((7, number, 0, 1), |s| s.files[file.index()] = b"x".to_vec());
        refused((4, number, 0, 1), |s| s.files[file.index()] = b"@".to_vec());
    }
}

#[test]
fn the_layout_of_a_first_line() {
    for file in File::ALL {
        let number = file.number();
        for column in [5, 14, 23, 28] {
            refused((4, number, 0, 1), |s| s.put_at(file, 1, column, b"."));
        }
        for byte in [31, 127, 159, 10, 13, 0] {
            refused((4, number, 0, 1), |s| s.put_at(file, 1, 30, &[byte]));
        }
        refused((4, number, 0, 1), |s| s.set(file, 1, &HEADER[..57]));
        refused((4, number, 0, 1), |s| s.set(file, 1, &format!("{HEADER} ")));
        refused((4, number, 0, 1), |s| s.files[file.index()] = HEADER.into());
    }
}

#[test]
fn first_lines_are_equal_before_they_are_values() {
    for file in File::ALL.into_iter().skip(1) {
        let number = file.number();
        refused((6, number, 0, 1), |s| s.put_at(file, 1, 58, b"x"));
        refused((6, number, 0, 1), |s| s.put_at(file, 1, 2, b"x"));
        refused((6, number, 0, 1), |s| s.put_at(file, 1, 24, b"0002"));
    }
    accepted(|s| {
        for file in File::ALL {
            s.put_at(file, 1, 29, &[32, 126, 160, 255, b',']);
        }
    });
}

#[test]
fn the_values_of_deliverys_line() {
    let value =
        |column: usize, bytes: &'static [u8]| move |s: &mut Sample| s.put_at(Delivery, 1, column, bytes);
    for (column, bytes) in [
        (2, &b" 00"[..]),
        (6, b"00012015"),
        (6, b"29022015"),
        (6, b"01011599"),
        (6, b"08012015"),
        (15, b"31122014"),
        (15, b"07132015"),
        (24, b"000x"),
    ] {
        refused((5, 1, 0, 1), value(column, bytes));
    }
    // A right line that differs is only seen at the next file.
    refused((6, 2, 0, 1), value(6, b"07012015"));
    refused((6, 2, 0, 1), value(24, b"9999"));
}

#[test]
fn delivery_has_one_line() {
    refused((7, 1, 0, 2), |s| s.push(Delivery, HEADER));
    refused((7, 1, 0, 2), |s| s.push(Delivery, ""));
    refused((7, 1, 0, 2), |s| s.files[Delivery.index()].push(1));
    refused((5, 1, 0, 1), |s| {
        s.put_at(Delivery, 1, 24, b"x");
        s.push(Delivery, "x");
    });
}

#[test]
fn deliverys_company_is_looked_up_after_company() {
    let unknown = |s: &mut Sample| {
        for file in File::ALL {
            s.put_at(file, 1, 2, b"101");
        }
    };
    refused((9, 1, 0, 1), unknown);
    refused((5, 2, 0, 3), |s| {
        unknown(s);
        s.put_at(Company, 3, 1, b"00x");
    });
    refused((9, 1, 0, 1), |s| {
        unknown(s);
        s.set(Country, 1, "x");
    });
    refused((9, 1, 0, 1), |s| {
        for file in File::ALL {
            s.put_at(file, 1, 2, b"000");
        }
    });
}

// COMPANY, COUNTRY, TRNSMODE, STATIONS.

#[test]
fn rows_have_no_letters() {
    for (file, commas) in [
        (Company, &[4, 15, 46][..]),
        (Country, &[5, 7]),
        (TrnsMode, &[5]),
        (Stations, &[2, 10, 13, 16, 21, 26, 29, 36, 43]),
    ] {
        let number = file.number();
        for &column in commas {
            refused((4, number, 0, 3), |s| s.put_at(file, 3, column, b"0"));
        }
        refused((4, number, 0, 2), |s| s.insert(file, 2, ""));
        refused((4, number, 0, 2), |s| s.set(file, 2, HEADER));
        refused((4, number, 0, 3), |s| {
            let longer = [s.line(file, 3), b" ".to_vec()].concat();
            s.set(file, 3, std::str::from_utf8(&longer).unwrap());
        });
        refused((4, number, 0, 3), |s| {
            let shorter = s.line(file, 3);
            s.set(file, 3, std::str::from_utf8(&shorter[..shorter.len() - 1]).unwrap());
        });
        for lost in [1, 2] {
            refused((4, number, 0, 3), |s| {
                s.keep_lines(file, 3);
                let length = s.files[file.index()].len();
                s.files[file.index()].truncate(length - lost);
            });
        }
    }
}

#[test]
fn company_values() {
    let number = |bytes: &'static [u8]| move |s: &mut Sample| s.put_at(Company, 3, 1, bytes);
    refused((5, 2, 0, 3), number(b"000"));
    refused((5, 2, 0, 3), number(b" 20"));
    refused((8, 2, 0, 3), number(b"100"));
    let turn = |bytes: &'static [u8]| move |s: &mut Sample| s.put_at(Company, 3, 47, bytes);
    accepted(turn(b"2359"));
    refused((5, 2, 0, 3), turn(b"2400"));
    refused((5, 2, 0, 3), turn(b"2260"));
    refused((5, 2, 0, 3), turn(b"04 0"));
}

#[test]
fn company_is_unique_three_ways() {
    refused((8, 2, 0, 3), |s| s.put_at(Company, 3, 5, b"NS        "));
    accepted(|s| s.put_at(Company, 3, 5, b"ns        "));
    accepted(|s| s.put_at(Company, 3, 5, b" NS       "));
    refused((8, 2, 0, 3), |s| s.put_at(Company, 3, 16, pad("Spoorwegen", 30).as_bytes()));
    accepted(|s| s.put_at(Company, 3, 5, &[b' '; 10]));
    refused((8, 2, 0, 3), |s| {
        s.put_at(Company, 2, 5, &[b' '; 10]);
        s.put_at(Company, 3, 5, &[b' '; 10]);
    });
    // A value comes before a duplicate.
    refused((5, 2, 0, 3), |s| {
        s.put_at(Company, 3, 1, b"100");
        s.put_at(Company, 3, 47, b"9999");
    });
}

#[test]
fn country_rows() {
    refused((5, 3, 0, 3), |s| s.put_at(Country, 3, 1, b"    "));
    refused((5, 3, 0, 3), |s| s.put_at(Country, 3, 6, b"2"));
    refused((5, 3, 0, 3), |s| s.put_at(Country, 3, 6, b" "));
    refused((8, 3, 0, 3), |s| s.put_at(Country, 3, 1, b"NL  "));
    refused((8, 3, 0, 3), |s| s.put_at(Country, 3, 8, pad("Nederland", 30).as_bytes()));
    // A code may begin with a letter of other files; a changed code is then
    // missed by the station that names it.
    refused((9, 6, 0, 5), |s| s.put_at(Country, 3, 1, b"@   "));
    accepted(|s| {
        s.put_at(Country, 3, 1, b"#,@ ");
        s.put_at(Stations, 5, 17, b"#,@ ");
    });
    refused((9, 6, 0, 2), |s| s.put_at(Country, 2, 1, b" NL "));
}

#[test]
fn mode_rows() {
    refused((5, 4, 0, 3), |s| s.put_at(TrnsMode, 3, 1, b"    "));
    refused((8, 4, 0, 3), |s| s.put_at(TrnsMode, 3, 1, b"IC  "));
    refused((8, 4, 0, 3), |s| s.put_at(TrnsMode, 3, 6, pad("Intercity", 30).as_bytes()));
    accepted(|s| s.put_at(TrnsMode, 3, 6, &[b' '; 30]));
    accepted(|s| s.push(TrnsMode, &format!("*   ,{}", pad("Star", 30))));
}

#[test]
fn at_most_64_modes() {
    let modes = |s: &mut Sample, count: usize| {
        for mode in 3..=count {
            s.push(TrnsMode, &format!("m{mode:03},{mode:030}"));
        }
    };
    accepted(|s| modes(s, 64));
    refused((5, 4, 0, 66), |s| modes(s, 65));
    // The 65th is 5 even where it is also a duplicate, but its layout is first.
    refused((5, 4, 0, 66), |s| {
        modes(s, 64);
        s.push(TrnsMode, &format!("IC  ,{}", pad("Intercity", 30)));
    });
    refused((4, 4, 0, 66), |s| {
        modes(s, 64);
        s.push(TrnsMode, "IC  ");
    });
}

#[test]
fn station_rows() {
    let field =
        |column: usize, bytes: &'static [u8]| move |s: &mut Sample| s.put_at(Stations, 6, column, bytes);
    refused((5, 6, 0, 6), field(1, b" "));
    accepted(field(1, b"7"));
    refused((5, 6, 0, 6), field(3, b"       "));
    refused((5, 6, 0, 6), field(11, b" 5"));
    refused((5, 6, 0, 6), field(17, b"    "));
    refused((5, 6, 0, 6), field(22, b"000 "));
    refused((8, 6, 0, 6), field(3, b"asd    "));
    refused((9, 6, 0, 6), field(17, b"F   "));
    refused((9, 6, 0, 6), field(22, b"0002"));
    for unread in [14, 27] {
        accepted(field(unread, b"x,"));
        refused((4, 6, 0, 6), field(unread, b"x\x1f"));
    }
    for unread in [30, 37] {
        accepted(field(unread, b"-12,\xff "));
        refused((4, 6, 0, 6), field(unread, b"-12,\x80 "));
    }
    // Names need not be unique, and may be blank.
    accepted(|s| {
        s.put_at(Stations, 6, 44, &[b' '; 30]);
        s.put_at(Stations, 5, 44, &[b' '; 30]);
    });
    // A duplicate comes before a reference, a value before both.
    refused((8, 6, 0, 6), |s| {
        s.put_at(Stations, 6, 3, b"asd    ");
        s.put_at(Stations, 6, 17, b"F   ");
    });
    refused((5, 6, 0, 6), |s| {
        s.put_at(Stations, 6, 3, b"asd    ");
        s.put_at(Stations, 6, 1, b"x");
    });
    refused((9, 6, 0, 7), |s| s.push(Stations, &station(1, "new", 1, "B", "0000")));
    accepted(|s| s.push(Stations, &station(1, "new", 1, "D", "0001")));
}

// TIMEZONE.

#[test]
fn timezone_order() {
    // 1 @, 2 #0000, 3 +, 4 #0001, 5 +, 6 -
    refused((7, 5, 0, 2), |s| s.remove(TimeZone, 2));
    refused((7, 5, 0, 2), |s| s.insert(TimeZone, 2, "-"));
    refused((4, 5, 0, 2), |s| s.insert(TimeZone, 2, "x"));
    refused((4, 5, 0, 2), |s| s.insert(TimeZone, 2, ""));
    refused((7, 5, 0, 3), |s| s.insert(TimeZone, 3, "@"));
    refused((7, 5, 0, 7), |s| s.push(TimeZone, "#0002"));
    refused((7, 5, 0, 2), |s| s.remove(TimeZone, 3));
    // The group's last line is tested first, the line that came too soon not at all.
    refused((5, 5, 0, 2), |s| {
        s.remove(TimeZone, 3);
        s.put_at(TimeZone, 2, 2, b"x");
    });
    refused((7, 5, 0, 2), |s| s.set(TimeZone, 3, "#broken"));
    refused((8, 5, 0, 7), |s| s.push(TimeZone, "#0000"));
    refused((4, 5, 0, 7), |s| s.push(TimeZone, "#00000"));
}

#[test]
fn timezone_values() {
    let field =
        |column: usize, bytes: &'static [u8]| move |s: &mut Sample| s.put_at(TimeZone, 6, column, bytes);
    accepted(field(2, b"99"));
    refused((5, 5, 0, 6), field(2, b"+1"));
    refused((5, 5, 0, 6), field(5, b"31022015"));
    refused((5, 5, 0, 6), field(14, b"04012015"));
    accepted(field(14, b"05012015"));
    refused((4, 5, 0, 6), field(4, b"."));
    refused((4, 5, 0, 6), field(13, b"."));
    refused((5, 5, 0, 4), |s| s.put_at(TimeZone, 4, 2, b" "));
    accepted(|s| s.put_at(TimeZone, 6, 1, b"+"));
}

#[test]
fn periods_of_a_zone_share_no_day() {
    let first = |bytes: &'static [u8]| move |s: &mut Sample| s.put_at(TimeZone, 6, 5, bytes);
    refused((8, 5, 0, 6), first(b"03012015"));
    accepted(first(b"04012015"));
    refused((8, 5, 0, 6), first(b"01011999"));
    // Neither before, nor within, nor around, whatever the order.
    accepted(|s| s.push(TimeZone, "+02,31122014,31122014"));
    accepted(|s| s.push(TimeZone, "+02,04012015,04012015"));
    accepted(|s| s.push(TimeZone, "+02,08012015,31129999"));
    refused((8, 5, 0, 7), |s| s.push(TimeZone, "+02,31122014,01012015"));
    refused((8, 5, 0, 7), |s| s.push(TimeZone, "+02,02012015,02012015"));
    refused((8, 5, 0, 7), |s| s.push(TimeZone, "+02,04012015,05012015"));
    refused((8, 5, 0, 7), |s| s.push(TimeZone, "+02,01011600,31129999"));
    refused((8, 5, 0, 7), |s| s.push(TimeZone, "-01,05012015,07012015"));
    // Another zone's periods do not count.
    accepted(|s| {
        s.push(TimeZone, "#0002");
        s.push(TimeZone, "+02,01011600,31129999");
    });
}

// FOOTNOTE and XFOOTNOTE.

#[test]
fn footnote_order() {
    // FOOTNOTE 1 @, 2 #00000, 3 vector, 4 #00001, .., 7 vector
    // XFOOTNOTE 1 @, 2 #00007, 3 vector, 4 #00008, 5 vector
    for (file, last) in [(Footnote, 7), (XFootnote, 5)] {
        let number = file.number();
        refused((7, number, 0, 2), |s| s.remove(file, 2));
        refused((7, number, 0, 2), |s| s.insert(file, 2, "0"));
        refused((7, number, 0, 2), |s| s.insert(file, 2, "@"));
        refused((4, number, 0, 2), |s| s.insert(file, 2, "2"));
        refused((4, number, 0, 2), |s| s.insert(file, 2, ""));
        refused((7, number, 0, 2), |s| s.remove(file, 3));
        refused((7, number, 0, 2), |s| s.set(file, 3, "#"));
        refused((7, number, 0, 3), |s| s.set(file, 3, "@"));
        refused((4, number, 0, 3), |s| s.set(file, 3, "2111111"));
        refused((4, number, 0, 3), |s| s.set(file, 3, ""));
        refused((4, number, 0, 3), |s| s.set(file, 3, " 111111"));
        refused((7, number, 0, 4), |s| s.insert(file, 4, "1111111"));
        refused((7, number, 0, 4), |s| s.insert(file, 4, "1"));
        refused((7, number, 0, last + 1), |s| s.push(file, "#99999"));
        refused((5, number, 0, last + 1), |s| s.push(file, "#9999x"));
        refused((7, number, 0, last - 1), |s| s.keep_lines(file, last as usize - 1));
    }
}

#[test]
fn footnote_values() {
    for file in [Footnote, XFootnote] {
        let number = file.number();
        refused((5, number, 0, 3), |s| s.put_at(file, 3, 2, b"2"));
        refused((5, number, 0, 3), |s| s.put_at(file, 3, 7, b" "));
        refused((4, number, 0, 3), |s| s.put_at(file, 3, 7, b"\t"));
        refused((4, number, 0, 3), |s| s.set(file, 3, "111111"));
        refused((4, number, 0, 3), |s| s.set(file, 3, "11111111"));
        refused((4, number, 0, 3), |s| s.set(file, 3, "11111112"));
        refused((8, number, 0, 4), |s| {
            let first = s.line(file, 2);
            s.put_at(file, 4, 1, &first);
        });
        refused((5, number, 0, 4), |s| s.put_at(file, 4, 2, b" "));
        refused((4, number, 0, 4), |s| s.set(file, 4, "#0000"));
    }
    // The two files number their footnotes apart.
    accepted(|s| {
        s.push(XFootnote, "#00000");
        s.push(XFootnote, "0000000");
    });
    refused((9, 8, 1, 4), |s| s.put_at(TimeTbls, 5, 2, b"00007"));
    refused((9, 11, 0, 3), |s| s.put_at(XChanges, 3, 24, b"00001"));
}

// TIMETBLS; the lines of the sample are listed in its source.

#[test]
fn lines_before_the_first_block() {
    refused((7, 8, 0, 2), |s| s.remove(TimeTbls, 2));
    refused((7, 8, 0, 2), |s| s.insert(TimeTbls, 2, "@"));
    refused((7, 8, 0, 2), |s| s.insert(TimeTbls, 2, "?"));
    refused((4, 8, 0, 2), |s| s.insert(TimeTbls, 2, ""));
    refused((4, 8, 0, 2), |s| s.insert(TimeTbls, 2, "x"));
}

#[test]
fn order_within_a_block() {
    // Leaving out the only record of a kind.
    refused((7, 8, 2, 2), |s| s.remove(TimeTbls, 18));
    refused((7, 8, 2, 3), |s| s.remove(TimeTbls, 19));
    refused((7, 8, 2, 4), |s| s.remove(TimeTbls, 20));
    refused((7, 8, 2, 5), |s| s.remove(TimeTbls, 21));
    // Without `<` the block ends at the next `#`.
    refused((7, 8, 2, 5), |s| s.remove(TimeTbls, 22));
    refused((7, 8, 3, 6), |s| s.remove(TimeTbls, 29));
    refused((7, 8, 2, 1), |s| s.insert(TimeTbls, 18, "#"));
    refused((7, 8, 4, 1), |s| s.push(TimeTbls, "#00000004"));
    // Kinds that come back.
    refused((7, 8, 1, 5), |s| s.insert(TimeTbls, 6, &service_number("100", "000", "999")));
    refused((7, 8, 1, 6), |s| s.insert(TimeTbls, 7, "-00000,001,002"));
    refused((7, 8, 1, 8), |s| s.insert(TimeTbls, 9, "&IC  ,001,002"));
    refused((7, 8, 1, 9), |s| s.insert(TimeTbls, 10, "*ABCD,001,999,00001"));
    refused((7, 8, 1, 9), |s| s.insert(TimeTbls, 10, ">asd    ,0800"));
    refused((7, 8, 1, 9), |s| s.insert(TimeTbls, 10, "@"));
    refused((4, 8, 1, 9), |s| s.insert(TimeTbls, 10, "x"));
    refused((4, 8, 1, 9), |s| s.insert(TimeTbls, 10, ""));
    // Any number of attributes, or none.
    accepted(|s| s.insert(TimeTbls, 9, "*   x,001,001,00001"));
    accepted(|s| s.remove(TimeTbls, 8));
}

#[test]
fn platforms_follow_stops_once() {
    refused((7, 8, 1, 10), |s| s.insert(TimeTbls, 11, "?     ,     ,00001")); // after `?`
    refused((7, 8, 1, 11), |s| s.insert(TimeTbls, 12, "?     ,     ,00001")); // after `;`
    accepted(|s| s.insert(TimeTbls, 13, "?     ,     ,00001")); // after `+`
    accepted(|s| s.insert(TimeTbls, 14, "?     ,     ,00001")); // after `.`
    refused((7, 8, 1, 8), |s| s.insert(TimeTbls, 9, "?     ,     ,00001")); // after `*`
    accepted(|s| s.remove(TimeTbls, 10));
    accepted(|s| s.remove(TimeTbls, 16));
    refused((7, 8, 1, 16), |s| s.insert(TimeTbls, 17, "?     ,     ,00001"));
    refused((9, 8, 1, 9), |s| s.put_at(TimeTbls, 10, 14, b"00003"));
    refused((5, 8, 1, 9), |s| s.put_at(TimeTbls, 10, 14, b"0000 "));
    accepted(|s| s.put_at(TimeTbls, 10, 2, b",\xff   ,,    "));
    refused((4, 8, 1, 9), |s| s.put_at(TimeTbls, 10, 7, b" "));
    refused((4, 8, 1, 9), |s| s.put_at(TimeTbls, 10, 13, b" "));
}

#[test]
fn stray_lines_after_the_last_stop() {
    refused((7, 8, 1, 16), |s| s.insert(TimeTbls, 17, ".asd    ,1300"));
    refused((7, 8, 1, 16), |s| s.insert(TimeTbls, 17, "<"));
    refused((7, 8, 1, 16), |s| s.insert(TimeTbls, 17, "@"));
    refused((4, 8, 1, 16), |s| s.insert(TimeTbls, 17, ""));
    refused((4, 8, 1, 16), |s| s.insert(TimeTbls, 17, "x"));
    // Test 10 comes after all of them, and before the next block.
    refused((7, 8, 1, 16), |s| {
        s.insert(TimeTbls, 17, ";");
        s.put_at(TimeTbls, 5, 12, b"004");
    });
    refused((10, 8, 1, 1), |s| {
        s.insert(TimeTbls, 17, "#broken");
        s.put_at(TimeTbls, 5, 12, b"004");
    });
    refused((4, 8, 2, 1), |s| s.insert(TimeTbls, 17, "#broken"));
}

#[test]
fn services_are_unique_numbers() {
    refused((8, 8, 2, 1), |s| s.put_at(TimeTbls, 17, 9, b"1"));
    refused((8, 8, 3, 1), |s| s.put_at(TimeTbls, 23, 9, b"1"));
    refused((5, 8, 2, 1), |s| s.put_at(TimeTbls, 17, 2, b" "));
    refused((4, 8, 2, 1), |s| s.set(TimeTbls, 17, "#0000002"));
    refused((4, 8, 2, 1), |s| s.put_at(TimeTbls, 17, 2, b"\x1f"));
    refused((9, 9, 0, 3), |s| s.put_at(TimeTbls, 17, 2, b"99999999"));
}

#[test]
fn service_number_records() {
    let field =
        |column: usize, bytes: &'static [u8]| move |s: &mut Sample| s.put_at(TimeTbls, 4, column, bytes);
    refused((5, 8, 1, 3), field(2, b"2 0"));
    refused((9, 8, 1, 3), field(2, b"000"));
    refused((9, 8, 1, 3), field(2, b"300"));
    refused((5, 8, 1, 3), field(6, b"1234x"));
    accepted(field(12, b"abc,\xa0 ~"));
    refused((5, 8, 1, 3), field(20, b" 03"));
    refused((5, 8, 1, 3), field(24, b"99 "));
    accepted(field(28, b"Thalys, \xe9t\xe9"));
    for comma in [5, 11, 19, 23, 27] {
        refused((4, 8, 1, 3), field(comma, b" "));
    }
}

#[test]
fn validity_mode_and_attribute_records() {
    refused((9, 8, 1, 4), |s| s.put_at(TimeTbls, 5, 2, b"00003"));
    refused((5, 8, 1, 4), |s| s.put_at(TimeTbls, 5, 2, b"    0"));
    refused((4, 8, 1, 4), |s| s.put_at(TimeTbls, 5, 7, b"0"));
    refused((4, 8, 1, 4), |s| s.put_at(TimeTbls, 5, 11, b"0"));
    refused((9, 8, 1, 5), |s| s.put_at(TimeTbls, 6, 2, b"ic  "));
    refused((9, 8, 1, 5), |s| s.put_at(TimeTbls, 6, 2, b"*   "));
    refused((5, 8, 1, 5), |s| s.put_at(TimeTbls, 6, 2, b"    "));
    refused((4, 8, 1, 5), |s| s.put_at(TimeTbls, 6, 6, b"0"));
    accepted(|s| s.put_at(TimeTbls, 8, 2, b",\xff  "));
    refused((5, 8, 1, 7), |s| s.put_at(TimeTbls, 8, 2, b"    "));
    refused((9, 8, 1, 7), |s| s.put_at(TimeTbls, 8, 15, b"00003"));
    refused((5, 8, 1, 7), |s| s.put_at(TimeTbls, 8, 15, b"0000x"));
    refused((4, 8, 1, 7), |s| s.put_at(TimeTbls, 8, 14, b"0"));
    // A value is tested before a reference.
    refused((5, 8, 1, 4), |s| s.set(TimeTbls, 5, "-00003,0x1,999"));
}

#[test]
fn stop_records() {
    for (line, place) in [(9, 8), (13, 12), (15, 14)] {
        let time = |bytes: &'static [u8]| move |s: &mut Sample| s.put_at(TimeTbls, line, 10, bytes);
        accepted(time(b"0000"));
        accepted(time(b"9959"));
        refused((5, 8, 1, place), time(b"9960"));
        refused((5, 8, 1, place), time(b"9999"));
        refused((5, 8, 1, place), time(b"08 0"));
        refused((4, 8, 1, place), |s| s.put_at(TimeTbls, line, 9, b" "));
        refused((5, 8, 1, place), |s| s.put_at(TimeTbls, line, 2, b"       "));
        refused((9, 8, 1, place), |s| s.put_at(TimeTbls, line, 2, b"asd   x"));
    }
    refused((9, 8, 1, 10), |s| s.put_at(TimeTbls, 11, 2, b"nowhere"));
    refused((5, 8, 1, 10), |s| s.put_at(TimeTbls, 11, 2, b"       "));
    refused((4, 8, 1, 10), |s| s.set(TimeTbls, 11, ";shl    ,"));
}

#[test]
fn interval_records() {
    let times = |bytes: &'static [u8]| move |s: &mut Sample| s.put_at(TimeTbls, 12, 10, bytes);
    accepted(times(b"0829,0830"));
    refused((5, 8, 1, 11), times(b"0830,0830"));
    refused((5, 8, 1, 11), times(b"0831,0830"));
    accepted(times(b"9999,0000"));
    accepted(times(b"9959,9999"));
    refused((5, 8, 1, 11), times(b"9999,9999"));
    refused((5, 8, 1, 11), times(b"0829,9960"));
    refused((5, 8, 1, 11), times(b"9960,9999"));
    refused((4, 8, 1, 11), times(b"0829.0830"));
    refused((9, 8, 1, 11), |s| s.put_at(TimeTbls, 12, 2, b"nowhere"));
}

/// The sample's third service with this many stops, at file line 23: its `<`
/// is at line 23 + 3 + stops and so at line 4 + stops of its block.
fn with_stops(s: &mut Sample, stops: usize) {
    s.rooms = [2000; 11];
    s.keep_lines(TimeTbls, 26);
    s.push(TimeTbls, ">koln   ,1300");
    for _ in 0..stops - 2 {
        s.push(TimeTbls, ".ut     ,1400");
    }
    s.push(TimeTbls, "<asd    ,1530");
}

#[test]
fn at_most_998_stops() {
    accepted(|s| with_stops(s, 2));
    accepted(|s| with_stops(s, 998));
    refused((5, 8, 3, 1003), |s| with_stops(s, 999));
    refused((5, 8, 3, 1003), |s| with_stops(s, 1000));
    // The 999th stop is 5 before its reference, and passed stations are none.
    refused((5, 8, 3, 1003), |s| {
        with_stops(s, 999);
        s.set(TimeTbls, 25 + 1000, "<nowhere,1530");
    });
    refused((4, 8, 3, 1003), |s| {
        with_stops(s, 999);
        s.set(TimeTbls, 25 + 1000, "<nowhere,153");
    });
    accepted(|s| {
        with_stops(s, 998);
        s.insert(TimeTbls, 28, ";shl    ");
    });
}

#[test]
fn legs_are_tested_at_the_blocks_first_line() {
    // Service 1 has five stops: % 000-003 003-999, - 001-999, & 000-002 002-005.
    refused((10, 8, 1, 1), |s| s.put_at(TimeTbls, 3, 24, b"002"));
    refused((10, 8, 1, 1), |s| s.put_at(TimeTbls, 3, 24, b"004"));
    refused((10, 8, 1, 1), |s| s.put_at(TimeTbls, 5, 8, b"002"));
    refused((10, 8, 1, 1), |s| s.put_at(TimeTbls, 5, 12, b"006"));
    accepted(|s| s.put_at(TimeTbls, 5, 12, b"005"));
    refused((10, 8, 1, 1), |s| s.put_at(TimeTbls, 7, 11, b"004"));
    accepted(|s| s.put_at(TimeTbls, 7, 11, b"999"));
    refused((10, 8, 1, 1), |s| s.insert(TimeTbls, 6, "-00000,005,999"));
    // Attributes: 1 ≤ first ≤ last ≤ n.
    accepted(|s| s.put_at(TimeTbls, 8, 7, b"005,005"));
    accepted(|s| s.put_at(TimeTbls, 8, 7, b"999,999"));
    accepted(|s| s.put_at(TimeTbls, 8, 7, b"000,000"));
    refused((10, 8, 1, 1), |s| s.put_at(TimeTbls, 8, 7, b"003,002"));
    refused((10, 8, 1, 1), |s| s.put_at(TimeTbls, 8, 7, b"001,006"));
    // The block's own lines come first.
    refused((9, 8, 1, 15), |s| {
        s.put_at(TimeTbls, 5, 8, b"002");
        s.put_at(TimeTbls, 16, 14, b"00009");
    });
    refused((10, 8, 3, 1), |s| s.put_at(TimeTbls, 26, 11, b"002"));
}

// CHANGES.

#[test]
fn changes_order() {
    // 1 @, 2 #ut, 3 -, 4 -, 5 #ht, 6 -
    refused((7, 9, 0, 2), |s| s.remove(Changes, 2));
    refused((7, 9, 0, 2), |s| s.insert(Changes, 2, "-"));
    refused((7, 9, 0, 2), |s| s.insert(Changes, 2, "@"));
    refused((4, 9, 0, 2), |s| s.insert(Changes, 2, "+"));
    refused((4, 9, 0, 3), |s| s.insert(Changes, 3, ""));
    refused((7, 9, 0, 7), |s| s.push(Changes, HEADER));
    accepted(|s| s.keep_lines(Changes, 5));
    accepted(|s| s.push(Changes, "#asd    "));
    refused((8, 9, 0, 7), |s| s.push(Changes, "#ut     "));
    refused((9, 9, 0, 7), |s| s.push(Changes, "#nowhere"));
    refused((5, 9, 0, 7), |s| s.push(Changes, "#       "));
    refused((4, 9, 0, 7), |s| s.push(Changes, "#asd   "));
}

#[test]
fn changes_pairs() {
    for row in ["-00000001,00000001,00", "-00000001,00000002,01", "-00000003,00000002,02"] {
        accepted(|s| {
            s.push(Changes, "#asd    ");
            s.push(Changes, row);
        });
    }
    refused((5, 9, 0, 3), |s| s.put_at(Changes, 3, 20, b"03"));
    refused((5, 9, 0, 3), |s| s.put_at(Changes, 3, 20, b" 1"));
    refused((5, 9, 0, 3), |s| s.put_at(Changes, 3, 2, b"x"));
    refused((5, 9, 0, 3), |s| s.put_at(Changes, 3, 18, b"x"));
    refused((9, 9, 0, 3), |s| s.put_at(Changes, 3, 9, b"4"));
    refused((9, 9, 0, 3), |s| s.put_at(Changes, 3, 18, b"4"));
    refused((4, 9, 0, 3), |s| s.put_at(Changes, 3, 10, b"."));
    refused((4, 9, 0, 3), |s| s.put_at(Changes, 3, 19, b"."));
    refused((8, 9, 0, 7), |s| s.push(Changes, "-00000001,00000001,00"));
    accepted(|s| s.push(Changes, "-00000001,00000002,00"));
    refused((8, 9, 0, 4), |s| s.set(Changes, 4, "-00000001,00000002,02"));
}

// XCHANGES.

#[test]
fn xchanges_order() {
    // 1 @, 2 #asd, 3 -, 4 -, 5 #koln
    refused((7, 11, 0, 2), |s| s.remove(XChanges, 2));
    refused((4, 11, 0, 2), |s| s.insert(XChanges, 2, "*"));
    refused((7, 11, 0, 6), |s| s.push(XChanges, "@"));
    refused((8, 11, 0, 6), |s| s.push(XChanges, "#asd    "));
    refused((9, 11, 0, 6), |s| s.push(XChanges, "#nowhere"));
    accepted(|s| s.push(XChanges, "#ut     "));
}

#[test]
fn xchanges_keys() {
    let row = |text: &'static str| move |s: &mut Sample| s.push(XChanges, text);
    for fine in
        ["-*  ,*   ,*  ,*   ,000,00007", "-100,IC  ,200,ST  ,999,00008", "-100,*   ,*  ,*   ,010,00007"]
    {
        accepted(row(fine));
    }
    for value in [
        "- * ,*   ,*  ,*   ,000,00007",
        "-** ,*   ,*  ,*   ,000,00007",
        "-   ,*   ,*  ,*   ,000,00007",
        "-10 ,*   ,*  ,*   ,000,00007",
        "-*  ,    ,*  ,*   ,000,00007",
        "-*  ,*   ,* 1,*   ,000,00007",
        "-*  ,*   ,*  ,    ,000,00007",
        "-*  ,*   ,*  ,*   , 10,00007",
        "-*  ,*   ,*  ,*   ,010,0007 ",
    ] {
        refused((5, 11, 0, 6), row(value));
    }
    for reference in [
        "-000,*   ,*  ,*   ,000,00007",
        "-*  ,*   ,300,*   ,000,00007",
        "-*  ,X   ,*  ,*   ,000,00007",
        "-*  , *  ,*  ,*   ,000,00007",
        "-*  ,*   ,*  ,*x  ,000,00007",
        "-*  ,*   ,*  ,*   ,000,00009",
    ] {
        refused((9, 11, 0, 6), row(reference));
    }
    for comma in [5, 10, 14, 19, 23] {
        refused((4, 11, 0, 3), |s| s.put_at(XChanges, 3, comma, b"*"));
    }
}

#[test]
fn xchanges_rows_are_unique_by_keys_and_footnote() {
    // Row 3 is 100,*,*,* with 00007; the time does not count.
    refused((8, 11, 0, 4), |s| s.set(XChanges, 4, "-100,*   ,*  ,*   ,020,00007"));
    accepted(|s| s.set(XChanges, 4, "-100,*   ,*  ,*   ,010,00008"));
    accepted(|s| s.set(XChanges, 4, "-*  ,*   ,100,*   ,010,00007"));
    // A duplicate that names nothing is 9 at the first of the two.
    refused((9, 11, 0, 6), |s| {
        s.push(XChanges, "-300,*   ,*  ,*   ,010,00007");
        s.push(XChanges, "-300,*   ,*  ,*   ,010,00007");
    });
}
