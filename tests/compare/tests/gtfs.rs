//! stop_times.txt: imports and exports with results worked out by hand, on every side.

mod common;

use common::{each, file, CHANGE, RIDES};
use compare::calls::Side;

const HEADER: &str = "trip_id,arrival_time,departure_time,stop_id,stop_sequence\n";

/// Example J's rows.
const J: [&str; 8] = [
    "0,10:00:00,10:00:00,0,0",
    "0,10:20:00,10:25:00,1,1",
    "0,10:40:00,10:40:00,2,2",
    "1,10:22:00,10:22:00,1,0",
    "1,10:50:00,10:55:00,2,1",
    "1,11:30:00,11:30:00,0,2",
    "2,10:30:00,10:30:00,1,0",
    "2,10:42:00,10:42:00,2,1",
];

/// One trip of four rides.
const LONG: [&str; 5] = [
    "0,10:00:00,10:00:00,0,0",
    "0,10:10:00,10:15:00,1,1",
    "0,10:20:00,10:25:00,2,2",
    "0,10:30:00,10:35:00,0,3",
    "0,10:40:00,10:40:00,1,4",
];

/// More than any file or text here needs.
const ROOM: usize = 150_000;

fn text<R: AsRef<str>>(rows: &[R]) -> String {
    let lines = rows.iter().map(|row| format!("{}\n", row.as_ref()));
    HEADER.to_string() + &lines.collect::<String>()
}

/// J's text with another row, counted from 1.
fn j_with(row: usize, other: &str) -> String {
    with(&J, row, other)
}

fn with(rows: &[&str], row: usize, other: &str) -> String {
    let mut rows = rows.to_vec();
    rows[row - 1] = other;
    text(&rows)
}

fn bytes(numbers: &[u16]) -> Vec<u8> {
    numbers.iter().flat_map(|n| n.to_le_bytes()).collect()
}

/// An answer in words, and the bytes written. Past them the room is as it was.
fn told(answer: i64, room: Vec<u8>) -> (String, Vec<u8>) {
    let (number, value) = (answer & 65535, (answer >> 16) as usize);
    let (words, written) = match number {
        0 => (format!("{value} bytes"), value),
        _ => (format!("no {number} at {value}"), 0),
    };
    assert!(room[written..].iter().all(|&b| b == 0xa5), "{words}");
    (words, room[..written].to_vec())
}

fn import(side: &Side, text: &str, change: &[u8], len: usize) -> (String, Vec<u8>) {
    let mut room = vec![0xa5; len];
    let answer = (side.import)(text.as_bytes(), change, &mut room);
    told(answer, room)
}

fn export(side: &Side, file: &[u8], len: usize) -> (String, Vec<u8>) {
    let mut room = vec![0xa5; len];
    let answer = (side.export)(file, &mut room);
    told(answer, room)
}

/// On every side the text with J's change minutes gives these rides.
fn gives(text: &str, rides: &[[u16; 5]]) {
    each(|side| {
        let (words, made) = import(side, text, &bytes(&CHANGE), ROOM);
        assert_eq!(words, format!("{} bytes", 15 + 10 * rides.len()), "{text}");
        assert_eq!(made, file(&CHANGE, rides), "{text}");
    });
}

/// On every side it is refused so.
fn refuses(text: &str, refusal: &str) {
    refuses_with(text, &CHANGE, refusal);
}

fn refuses_with(text: &str, change: &[u16], refusal: &str) {
    each(|side| {
        let (words, _) = import(side, text, &bytes(change), ROOM);
        let shown = text.get(..2000).unwrap_or(text);
        assert_eq!(words, refusal, "{}: {shown}", side.name);
    });
}

// ---------------------------------------------------------------- example J

#[test]
fn example_j_both_ways() {
    each(|side| {
        let j = file(&CHANGE, &RIDES);
        let (words, made) = import(side, &text(&J), &bytes(&CHANGE), ROOM);
        assert_eq!((words.as_str(), made), ("65 bytes", j.clone()));
        let (words, made) = export(side, &j, ROOM);
        assert_eq!(words, "250 bytes");
        assert_eq!(String::from_utf8_lossy(&made), text(&J));
    });
}

/// Another text of J: exported, it is J's.
#[test]
fn an_accepted_text_is_exported_in_one_form() {
    let rows = [
        "00000,99:59:00,10:00:00,0,7",
        "0,10:20:00,10:25:00,01,00009",
        "00,10:40:00,0:00:00,2,65535",
        "1,00:00:00,10:22:00,001,5",
        "001,10:50:00,10:55:00,2,6",
        "1,11:30:00,11:29:00,00000,65000",
        "2,72:00:00,10:30:00,1,0",
        "2,10:42:00,99:59:00,2,10",
    ];
    gives(&text(&rows), &RIDES);
}

// ---------------------------------------------------------------- times

#[test]
fn hours_of_one_digit_and_of_two() {
    for (departure, minutes) in [("9:05:00", 545), ("09:05:00", 545)] {
        for (arrival, later) in [("9:59:00", 599), ("09:59:00", 599), ("10:00:00", 600)] {
            let rows = [
                format!("0,{departure},{departure},0,0"),
                format!("0,{arrival},{arrival},1,1"),
            ];
            gives(&text(&rows), &[[0, 0, 1, minutes, later]]);
        }
    }
    let rows = ["0,0:00:00,0:00:00,0,0", "0,0:01:00,0:01:00,1,1"];
    gives(&text(&rows), &[[0, 0, 1, 0, 1]]);
    let rows = ["0,00:00:00,00:00:00,0,0", "0,00:01:00,00:01:00,1,1"];
    gives(&text(&rows), &[[0, 0, 1, 0, 1]]);
    for time in ["010:00:00", "100:00:00", ":00:00", "00:00", "0:0:00"] {
        refuses(&j_with(1, &format!("0,{time},10:00:00,0,0")), "no 31 at 1");
        refuses(&j_with(1, &format!("0,10:00:00,{time},0,0")), "no 31 at 1");
    }
}

#[test]
fn times_past_midnight() {
    let rows = ["0,23:59:00,23:59:00,0,0", "0,24:00:00,24:00:00,1,1"];
    gives(&text(&rows), &[[0, 0, 1, 1439, 1440]]);
    let rows = ["0,71:58:00,71:58:00,0,0", "0,71:59:00,71:59:00,1,1"];
    gives(&text(&rows), &[[0, 0, 1, 4318, 4319]]);
    // Kept, as an arrival and as a departure.
    let rows = ["0,71:58:00,71:58:00,0,0", "0,72:00:00,72:00:00,1,1"];
    refuses(&text(&rows), "no 10 at 0");
    refuses(&with(&LONG, 3, "0,72:00:00,10:25:00,2,2"), "no 10 at 1");
    refuses(&with(&LONG, 3, "0,10:20:00,72:00:00,2,2"), "no 10 at 2");
    // Not kept: a trip's first arrival, a trip's last departure.
    for time in ["72:00:00", "99:59:00"] {
        gives(&j_with(1, &format!("0,{time},10:00:00,0,0")), &RIDES);
        gives(&j_with(3, &format!("0,10:40:00,{time},2,2")), &RIDES);
        gives(&j_with(4, &format!("1,{time},10:22:00,1,0")), &RIDES);
        gives(&j_with(8, &format!("2,10:42:00,{time},2,1")), &RIDES);
    }
}

#[test]
fn unkept_times_before_their_neighbours() {
    // The first arrival after its own departure and after all other times, the last departure before
    // its arrival and before all other times.
    gives(&j_with(1, "0,10:01:00,10:00:00,0,0"), &RIDES);
    gives(&j_with(4, "1,23:59:00,10:22:00,1,0"), &RIDES);
    gives(&j_with(3, "0,10:40:00,10:39:00,2,2"), &RIDES);
    gives(&j_with(8, "2,10:42:00,0:00:00,2,1"), &RIDES);
}

#[test]
fn unkept_times_are_well_formed() {
    for time in ["10:60:00", "10:00:01", "", "x", "10:00", "-1:00:00"] {
        refuses(&j_with(1, &format!("0,{time},10:00:00,0,0")), "no 31 at 1");
        refuses(&j_with(8, &format!("2,10:42:00,{time},2,1")), "no 31 at 8");
    }
}

#[test]
fn minutes_and_seconds() {
    let rows = ["0,10:00:00,10:00:00,0,0", "0,10:59:00,10:59:00,1,1"];
    gives(&text(&rows), &[[0, 0, 1, 600, 659]]);
    for time in [
        "10:60:00", "10:99:00", "10:20:01", "10:20:10", "10:20:59", "10:20:60",
    ] {
        refuses(&j_with(2, &format!("0,{time},10:25:00,1,1")), "no 31 at 2");
        refuses(&j_with(2, &format!("0,10:20:00,{time},1,1")), "no 31 at 2");
    }
    for time in [
        "10:2:00",
        "10:020:00",
        "10:20:0",
        "10:20:000",
        "10:20:00:00",
        "10:20",
    ] {
        refuses(&j_with(2, &format!("0,{time},10:25:00,1,1")), "no 31 at 2");
    }
    // The bytes beside the digits, and other signs for the colon.
    for time in [
        "/0:20:00", "1::20:00", "10:/0:00", "10:2::00", "10:20:0/", "10;20:00", "10:20.00",
    ] {
        refuses(&j_with(2, &format!("0,{time},10:25:00,1,1")), "no 31 at 2");
    }
}

// ---------------------------------------------------------------- ids and sequence

#[test]
fn a_sequence_with_gaps() {
    let rows = [
        "0,10:00:00,10:00:00,0,3",
        "0,10:20:00,10:25:00,1,10",
        "0,10:40:00,10:40:00,2,65535",
        "1,10:22:00,10:22:00,1,2",
        "1,10:50:00,10:55:00,2,3",
        "1,11:30:00,11:30:00,0,3000",
        "2,10:30:00,10:30:00,1,65534",
        "2,10:42:00,10:42:00,2,65535",
    ];
    gives(&text(&rows), &RIDES);
}

#[test]
fn a_sequence_that_does_not_rise() {
    refuses(&j_with(2, "0,10:20:00,10:25:00,1,0"), "no 31 at 2");
    refuses(&j_with(1, "0,10:00:00,10:00:00,0,1"), "no 31 at 2");
    refuses(&j_with(3, "0,10:40:00,10:40:00,2,0"), "no 31 at 3");
    refuses(&j_with(7, "2,10:30:00,10:30:00,1,2"), "no 31 at 8");
}

#[test]
fn leading_zeros() {
    let rows = [
        "00000,10:00:00,10:00:00,0000,000",
        "00,10:20:00,10:25:00,01,00001",
        "000,10:40:00,10:40:00,00002,02",
        "00001,10:22:00,10:22:00,1,0",
        "01,10:50:00,10:55:00,0002,1",
        "1,11:30:00,11:30:00,00000,002",
        "002,10:30:00,10:30:00,00001,0000",
        "2,10:42:00,10:42:00,2,01",
    ];
    gives(&text(&rows), &RIDES);
    refuses(&j_with(1, "000000,10:00:00,10:00:00,0,0"), "no 31 at 1");
    refuses(&j_with(1, "0,10:00:00,10:00:00,000000,0"), "no 31 at 1");
    refuses(&j_with(1, "0,10:00:00,10:00:00,0,000000"), "no 31 at 1");
}

#[test]
fn five_digits() {
    gives(&j_with(8, "2,10:42:00,10:42:00,2,65535"), &RIDES);
    refuses(&j_with(8, "2,10:42:00,10:42:00,2,65536"), "no 31 at 8");
    refuses(&j_with(8, "2,10:42:00,10:42:00,2,99999"), "no 31 at 8");
    // A stop that can be read but is not there, and one that cannot.
    refuses(&j_with(8, "2,10:42:00,10:42:00,65535,1"), "no 8 at 4");
    refuses(&j_with(8, "2,10:42:00,10:42:00,65536,1"), "no 31 at 8");
    refuses(&j_with(8, "2,10:42:00,10:42:00,65538,1"), "no 31 at 8");
    refuses(&j_with(8, "65535,10:42:00,10:42:00,2,1"), "no 31 at 8");
    refuses(&j_with(8, "65538,10:42:00,10:42:00,2,1"), "no 31 at 8");
    refuses(&j_with(1, "65536,10:00:00,10:00:00,0,0"), "no 31 at 1");
}

/// 65,536 trips, of which the last is 65,535: no trip can follow it.
#[test]
fn the_highest_trip() {
    let mut rows: Vec<String> = (0..=65535)
        .flat_map(|trip| [0, 1].map(|k| format!("{trip},1:0{k}:00,1:0{k}:00,{k},{k}")))
        .collect();
    refuses(&text(&rows), "no 5 at 0");
    for trip in ["0", "65534", "65536"] {
        rows.push(format!("{trip},1:00:00,1:00:00,0,0"));
        refuses(&text(&rows), "no 31 at 131073");
        rows.pop();
    }
}

// ---------------------------------------------------------------- trips

#[test]
fn a_trip_number_left_out() {
    let later = |trip: &str| [7, 8].map(|row| J[row - 1].replacen('2', trip, 1));
    let text_of = |trip: &str| {
        let rows: Vec<String> = J[..6].iter().map(|row| row.to_string()).collect();
        text(&[rows, later(trip).to_vec()].concat())
    };
    gives(&text_of("2"), &RIDES);
    refuses(&text_of("3"), "no 31 at 7");
    refuses(&text_of("65535"), "no 31 at 7");
    // The first trip is 0.
    refuses(&text(&J[3..]), "no 31 at 1");
}

#[test]
fn a_trip_that_comes_back() {
    let mut rows = J.to_vec();
    rows.push("0,12:00:00,12:00:00,0,9");
    refuses(&text(&rows), "no 31 at 9");
    rows[8] = "1,12:00:00,12:00:00,0,9";
    refuses(&text(&rows), "no 31 at 9");
    refuses(&j_with(5, "0,10:50:00,10:55:00,2,9"), "no 31 at 5");
}

#[test]
fn a_row_alone_in_its_trip() {
    let without = |gone: &[usize]| {
        let left = (1..=J.len()).filter(|row| !gone.contains(row));
        text(&left.map(|row| J[row - 1]).collect::<Vec<_>>())
    };
    // At the start, in the middle, at the end; any row of the trip.
    refuses(&without(&[2, 3]), "no 31 at 1");
    refuses(&without(&[1, 3]), "no 31 at 1");
    refuses(&without(&[5, 6]), "no 31 at 4");
    refuses(&without(&[4, 5]), "no 31 at 4");
    refuses(&without(&[8]), "no 31 at 7");
    refuses(&without(&[7]), "no 31 at 7");
    refuses(&text(&J[..1]), "no 31 at 1");
    // The first of several.
    refuses(&without(&[2, 3, 5, 6, 8]), "no 31 at 1");
    refuses(&without(&[5, 6, 8]), "no 31 at 4");
}

#[test]
fn a_row_alone_beside_a_wrong_row_further_down() {
    // Row 1 is alone, the fourth row then left has seconds.
    let rows = [J[0], J[3], J[4], "1,11:30:01,11:30:00,0,2", J[6], J[7]];
    refuses(&text(&rows), "no 31 at 4");
    // The last row has no newline.
    let rows = [J[0], J[3], J[4]];
    let cut = text(&rows);
    refuses(&cut[..cut.len() - 1], "no 31 at 3");
    // With every row right it is row 1.
    refuses(&cut, "no 31 at 1");
}

// ---------------------------------------------------------------- lines and columns

#[test]
fn carriage_returns() {
    refuses(&text(&J).replace('\n', "\r\n"), "no 31 at 0");
    refuses(&j_with(1, "0,10:00:00,10:00:00,0,0\r"), "no 31 at 1");
    refuses(&j_with(8, "2,10:42:00,10:42:00,2,1\r"), "no 31 at 8");
    refuses(&text(&J).replace('\n', "\r"), "no 31 at 0");
}

#[test]
fn quotes_and_spaces() {
    refuses(&j_with(1, "\"0\",10:00:00,10:00:00,0,0"), "no 31 at 1");
    refuses(&j_with(5, "1,\"10:50:00\",10:55:00,2,1"), "no 31 at 5");
    refuses(&j_with(8, "2,10:42:00,10:42:00,2,\"1\""), "no 31 at 8");
    refuses(&text(&J).replace("stop_id", "\"stop_id\""), "no 31 at 0");
    refuses(&j_with(1, "0, 10:00:00,10:00:00,0,0"), "no 31 at 1");
    refuses(&j_with(1, "0,10:00:00,10:00:00,0,0 "), "no 31 at 1");
    refuses(&j_with(1, " 0,10:00:00,10:00:00,0,0"), "no 31 at 1");
    refuses(&j_with(1, "+0,10:00:00,10:00:00,0,0"), "no 31 at 1");
    refuses(&j_with(1, "-0,10:00:00,10:00:00,0,0"), "no 31 at 1");
}

#[test]
fn missing_and_extra_columns() {
    refuses(&j_with(1, "0,10:00:00,10:00:00,0"), "no 31 at 1");
    refuses(&j_with(1, "0,10:00:00,10:00:00,0,"), "no 31 at 1");
    refuses(&j_with(1, "0,10:00:00,10:00:00,0,0,"), "no 31 at 1");
    refuses(&j_with(1, "0,10:00:00,10:00:00,0,0,0"), "no 31 at 1");
    refuses(&j_with(1, ",10:00:00,10:00:00,0,0"), "no 31 at 1");
    refuses(&j_with(1, "0,10:00:00,10:00:00,,0"), "no 31 at 1");
    refuses(&j_with(1, "0,10:00:00,,10:00:00,0,0"), "no 31 at 1");
    refuses(&j_with(1, "0"), "no 31 at 1");
    refuses(&j_with(4, ""), "no 31 at 4");
}

#[test]
fn no_last_newline() {
    let j = text(&J);
    refuses(&j[..j.len() - 1], "no 31 at 8");
    refuses(&(j.clone() + "\n"), "no 31 at 9");
    refuses(&(j.clone() + "3"), "no 31 at 9");
    refuses(&(j + "\0"), "no 31 at 9");
    refuses(&HEADER[..HEADER.len() - 1], "no 31 at 0");
}

#[test]
fn every_cut() {
    let j = text(&J);
    for len in 0..j.len() {
        let rows = len.saturating_sub(58) / 24;
        if len < 58 {
            refuses(&j[..len], "no 31 at 0");
        } else if (len - 58) % 24 != 0 {
            refuses(&j[..len], &format!("no 31 at {}", rows + 1));
        } else if [1, 4, 7].contains(&rows) {
            refuses(&j[..len], &format!("no 31 at {rows}"));
        } else {
            let rides = [0, 0, 1, 2, 2, 3, 4][rows];
            gives(&j[..len], &RIDES[..rides]);
        }
    }
}

#[test]
fn an_empty_text() {
    refuses("", "no 31 at 0");
    refuses("\n", "no 31 at 0");
    refuses(&text(&J)[HEADER.len()..], "no 31 at 0");
}

#[test]
fn a_header_alone() {
    gives(HEADER, &[]);
    each(|side| {
        let (words, made) = import(side, HEADER, &bytes(&[60]), 11);
        assert_eq!((words.as_str(), made), ("11 bytes", file(&[60], &[])));
        let (words, made) = export(side, &file(&[60], &[]), 58);
        assert_eq!((words.as_str(), made), ("58 bytes", HEADER.into()));
    });
}

#[test]
fn other_headers() {
    let j = text(&J);
    for at in 0..HEADER.len() {
        let (a, b) = j.split_at(at);
        refuses(&format!("{a} {b}"), "no 31 at 0");
        refuses(&format!("{a}{}", &b[1..]), "no 31 at 0");
    }
    refuses(&j.to_uppercase(), "no 31 at 0");
    refuses(&format!("\u{feff}{j}"), "no 31 at 0");
    refuses(&format!("\n{j}"), "no 31 at 0");
    refuses(&format!("{HEADER}{j}"), "no 31 at 1");
    let other = "trip_id,departure_time,arrival_time,stop_id,stop_sequence\n";
    refuses(&j.replace(HEADER, other), "no 31 at 0");
    let more = "trip_id,arrival_time,departure_time,stop_id,stop_sequence,pickup_type\n";
    refuses(&j.replace(HEADER, more), "no 31 at 0");
}

// ---------------------------------------------------------------- counts

#[test]
fn how_many_stops() {
    refuses_with(&text(&J), &[], "no 4 at 0");
    refuses_with(HEADER, &[], "no 4 at 0");
    for s in [3, 499, 500] {
        each(|side| {
            let (words, made) = import(side, &text(&J), &bytes(&vec![7; s]), ROOM);
            assert_eq!(words, format!("{} bytes", 9 + 2 * s + 50));
            assert_eq!(made, file(&vec![7; s], &RIDES));
        });
    }
    // Some of these are 0, 3 and 500 in 16 bits.
    for s in [501, 502, 65535, 65536, 65539, 66036, 131_075] {
        refuses_with(&text(&J), &vec![7; s], "no 4 at 0");
        refuses_with(HEADER, &vec![7; s], "no 4 at 0");
    }
}

#[test]
fn an_odd_byte_of_the_change_minutes() {
    let odd = |numbers: &[u16]| [bytes(numbers), vec![255]].concat();
    each(|side| {
        let (words, made) = import(side, &text(&J), &odd(&CHANGE), ROOM);
        assert_eq!((words.as_str(), made), ("65 bytes", file(&CHANGE, &RIDES)));
        assert_eq!(import(side, HEADER, &odd(&[]), ROOM).0, "no 4 at 0");
        assert_eq!(import(side, HEADER, &odd(&[0; 500]), ROOM).0, "1009 bytes");
    });
}

/// Trips of one ride each, from stop 0 to stop 1.
fn short_trips(rides: usize) -> Vec<String> {
    (0..rides)
        .flat_map(|trip| [0, 1].map(|k| format!("{trip},5:0{k}:00,5:0{k}:00,{k},{k}")))
        .collect()
}

/// A trip of so many rows, at most 65,536, whose times are well formed and no more.
fn long_trip(trip: usize, rows: usize) -> Vec<String> {
    (0..rows)
        .map(|k| {
            format!(
                "{trip},{}:{:02}:00,9:00:00,{},{k}",
                k / 60 % 100,
                k % 60,
                k % 2
            )
        })
        .collect()
}

#[test]
fn how_many_rides() {
    let rides: Vec<[u16; 5]> = (0..2000).map(|trip| [trip, 0, 1, 300, 301]).collect();
    gives(&text(&short_trips(1999)), &rides[..1999]);
    gives(&text(&short_trips(2000)), &rides);
    refuses(&text(&short_trips(2001)), "no 5 at 0");
    // One trip with 2,001 rows and one with a row more.
    let one = |rows: usize| {
        let row = |k: usize| {
            format!(
                "0,{}:{:02}:00,{}:{:02}:00,{},{k}",
                k / 60,
                k % 60,
                k / 60,
                k % 60,
                k % 2
            )
        };
        text(&(0..rows).map(row).collect::<Vec<_>>())
    };
    let rides: Vec<[u16; 5]> = (0..2000).map(|k| [0, k % 2, 1 - k % 2, k, k + 1]).collect();
    gives(&one(2001), &rides);
    refuses(&one(2002), "no 5 at 0");
    // 65,535 to 65,537 rides, and 65,536 + 2,000: those past 16 bits would pass if they were cut.
    for more in [0, 1, 2, 2001] {
        let rows = [long_trip(0, 65536), long_trip(1, more + 1)].concat();
        let rows = &rows[..if more == 0 { 65536 } else { rows.len() }];
        refuses(&text(rows), "no 5 at 0");
    }
}

// ---------------------------------------------------------------- document 01's refusals

#[test]
fn change_minutes_above_60() {
    refuses_with(&text(&J), &[61, 5, 3], "no 7 at 0");
    refuses_with(&text(&J), &[4, 61, 61], "no 7 at 1");
    refuses_with(&text(&J), &[4, 5, 65535], "no 7 at 2");
    refuses_with(HEADER, &[60, 60, 256], "no 7 at 2");
    let mut change = [60; 500];
    change[499] = 61;
    refuses_with(&text(&J), &change, "no 7 at 499");
}

#[test]
fn stops_that_the_list_has_not() {
    // The first connection by either row, one in the middle, the last.
    refuses(&j_with(1, "0,10:00:00,10:00:00,3,0"), "no 8 at 0");
    refuses(&j_with(2, "0,10:20:00,10:25:00,3,1"), "no 8 at 0");
    refuses(&j_with(3, "0,10:40:00,10:40:00,3,2"), "no 8 at 1");
    refuses(&j_with(4, "1,10:22:00,10:22:00,65535,0"), "no 8 at 2");
    refuses(&j_with(5, "1,10:50:00,10:55:00,500,1"), "no 8 at 2");
    refuses(&j_with(6, "1,11:30:00,11:30:00,4,2"), "no 8 at 3");
    refuses(&j_with(7, "2,10:30:00,10:30:00,3,0"), "no 8 at 4");
    refuses(&j_with(8, "2,10:42:00,10:42:00,3,1"), "no 8 at 4");
    // With a list that is shorter by one.
    refuses_with(&text(&J), &CHANGE[..2], "no 8 at 1");
    refuses_with(&text(&J), &CHANGE[..1], "no 8 at 0");
}

#[test]
fn a_stop_twice_running() {
    refuses(&j_with(2, "0,10:20:00,10:25:00,0,1"), "no 8 at 0");
    refuses(&j_with(5, "1,10:50:00,10:55:00,1,1"), "no 8 at 2");
    refuses(&j_with(8, "2,10:42:00,10:42:00,1,1"), "no 8 at 4");
    // At the change of a trip it is no fault.
    let rides = [
        [0, 0, 1, 600, 620],
        [0, 1, 2, 625, 640],
        [1, 2, 1, 622, 650],
        [1, 1, 0, 655, 690],
        [2, 1, 2, 630, 642],
    ];
    let rows = [
        J[0],
        J[1],
        J[2],
        "1,10:22:00,10:22:00,2,0",
        "1,10:50:00,10:55:00,1,1",
        J[5],
        J[6],
        J[7],
    ];
    gives(&text(&rows), &rides);
}

#[test]
fn arrivals_that_run_backwards() {
    // Not after the departure; the first, one in the middle, the last.
    refuses(&j_with(2, "0,10:00:00,10:25:00,1,1"), "no 10 at 0");
    refuses(&j_with(2, "0,9:59:00,10:25:00,1,1"), "no 10 at 0");
    refuses(&j_with(3, "0,0:00:00,10:40:00,2,2"), "no 10 at 1");
    refuses(&j_with(5, "1,10:22:00,10:55:00,2,1"), "no 10 at 2");
    refuses(&j_with(8, "2,10:30:00,10:42:00,2,1"), "no 10 at 4");
    // After 71:59:00.
    refuses(&j_with(2, "0,72:00:00,10:25:00,1,1"), "no 10 at 0");
    refuses(&j_with(6, "1,99:59:00,11:30:00,0,2"), "no 10 at 3");
    refuses(&j_with(8, "2,72:00:00,10:42:00,2,1"), "no 10 at 4");
    refuses(&j_with(7, "2,10:30:00,10:42:00,1,0"), "no 10 at 4");
}

#[test]
fn departures_that_run_backwards() {
    refuses(&with(&LONG, 2, "0,10:10:00,10:09:00,1,1"), "no 11 at 1");
    refuses(&with(&LONG, 3, "0,10:20:00,0:00:00,2,2"), "no 11 at 2");
    refuses(&with(&LONG, 4, "0,10:30:00,10:29:00,0,3"), "no 11 at 3");
    refuses(&j_with(2, "0,10:20:00,10:19:00,1,1"), "no 11 at 1");
    refuses(&j_with(5, "1,10:50:00,10:49:00,2,1"), "no 11 at 3");
    // No stay at all is right.
    let rides = [
        [0, 0, 1, 600, 610],
        [0, 1, 2, 610, 620],
        [0, 2, 0, 625, 630],
        [0, 0, 1, 635, 640],
    ];
    gives(&with(&LONG, 2, "0,10:10:00,10:10:00,1,1"), &rides);
}

/// Of several refusals 31 comes first, then 4, 5, 7, then connection by connection 8, 10, 11, then 32.
#[test]
fn the_order_of_refusals() {
    let first = |text: &str, change: &[u16], len: usize, refusal: &str| {
        each(|side| assert_eq!(import(side, text, &bytes(change), len).0, refusal));
    };
    let wrong = |row: &str| text(&[row, J[1], J[2]]);
    first(&wrong("0,10:00:01,10:20:00,9,0"), &[], 0, "no 31 at 1");
    first(&text(&short_trips(2001)), &[], 0, "no 4 at 0");
    first(&text(&short_trips(2001)), &[61; 501], 0, "no 4 at 0");
    first(&text(&short_trips(2001)), &[61], 0, "no 5 at 0");
    first(
        &wrong("0,10:00:00,10:20:00,9,0"),
        &[4, 61, 3],
        0,
        "no 7 at 1",
    );
    first(&wrong("0,10:00:00,10:20:00,9,0"), &CHANGE, 0, "no 8 at 0");
    first(&wrong("0,10:00:00,10:20:00,0,0"), &CHANGE, 0, "no 10 at 0");
    let rows = [
        LONG[0],
        "0,10:10:00,10:09:00,1,1",
        LONG[2],
        LONG[3],
        "0,10:40:00,10:40:00,9,4",
    ];
    first(&text(&rows), &CHANGE, 0, "no 11 at 1");
    let rows = [
        LONG[0],
        "0,10:10:00,10:09:00,1,1",
        "0,10:09:00,10:25:00,2,2",
        LONG[3],
    ];
    first(&text(&rows), &CHANGE, 0, "no 10 at 1");
    let rows = [
        LONG[0],
        "0,10:10:00,10:09:00,1,1",
        "0,10:09:00,10:25:00,1,2",
        LONG[3],
    ];
    first(&text(&rows), &CHANGE, 0, "no 8 at 1");
    first(&text(&J), &CHANGE, 0, "no 32 at 0");
}

// ---------------------------------------------------------------- rooms

#[test]
fn an_output_too_short_fitting_and_longer() {
    each(|side| {
        let j = file(&CHANGE, &RIDES);
        for (len, words) in [
            (0, "no 32 at 0"),
            (64, "no 32 at 0"),
            (65, "65 bytes"),
            (66, "65 bytes"),
        ] {
            assert_eq!(import(side, &text(&J), &bytes(&CHANGE), len).0, words);
        }
        for (len, words) in [
            (0, "no 32 at 0"),
            (249, "no 32 at 0"),
            (250, "250 bytes"),
            (251, "250 bytes"),
        ] {
            assert_eq!(export(side, &j, len).0, words);
        }
    });
}

#[test]
fn the_longest_export() {
    let rides: Vec<[u16; 5]> = (0..2000).map(|trip| [trip, 100, 499, 600, 4319]).collect();
    let longest = file(&[0; 500], &rides);
    each(|side| {
        assert_eq!(export(side, &longest, 113_837).0, "no 32 at 0");
        let (words, made) = export(side, &longest, 113_838);
        assert_eq!(words, "113838 bytes");
        assert!(made.ends_with(b"\n1999,10:00:00,10:00:00,100,0\n1999,71:59:00,71:59:00,499,1\n"));
        let made = String::from_utf8(made).expect("a text");
        let (words, again) = import(side, &made, &bytes(&[0; 500]), 21_009);
        assert_eq!((words.as_str(), again == longest), ("21009 bytes", true));
    });
}

#[test]
fn the_longest_text() {
    let row = |trip: usize, k: usize| format!("{trip:05},10:0{k}:00,10:0{k}:00,{k:05},{k:05}");
    let rows: Vec<String> = (0..2000).flat_map(|t| [row(t, 0), row(t, 1)]).collect();
    let longest = text(&rows);
    assert_eq!(longest.len(), 144_058);
    let rides: Vec<[u16; 5]> = (0..2000).map(|trip| [trip, 0, 1, 600, 601]).collect();
    gives(&longest, &rides);
}

/// Rows are counted further than 16 bits: a wrong one, and one alone.
#[test]
fn places_past_65535() {
    let mut rows = long_trip(0, 65536);
    rows.push("0,9:00:00,9:00:00,0,0".into());
    refuses(&text(&rows), "no 31 at 65537");
    rows[65536] = "1,9:00:00,9:00:00,0,0".into();
    refuses(&text(&rows), "no 31 at 65537");
    rows[65535] = "0,9:00:60,9:00:00,0,65535".into();
    refuses(&text(&rows), "no 31 at 65536");
    let mut rows = [long_trip(0, 65536), long_trip(1, 65536)].concat();
    rows.push("1,9:00:00,9:00:00,0,65536".into());
    refuses(&text(&rows), "no 31 at 131073");
    let j = text(&long_trip(0, 65536));
    refuses(&j[..j.len() - 1], "no 31 at 65536");
}

// ---------------------------------------------------------------- exports

#[test]
fn exported_times() {
    let rides = [
        [0, 0, 1, 0, 1],
        [0, 1, 0, 1, 59],
        [0, 0, 1, 60, 1439],
        [0, 1, 0, 1440, 4319],
    ];
    let rows = [
        "0,00:00:00,00:00:00,0,0",
        "0,00:01:00,00:01:00,1,1",
        "0,00:59:00,01:00:00,0,2",
        "0,23:59:00,24:00:00,1,3",
        "0,71:59:00,71:59:00,0,4",
    ];
    each(|side| {
        let (words, made) = export(side, &file(&[0, 0], &rides), ROOM);
        assert_eq!(words, "178 bytes");
        assert_eq!(String::from_utf8_lossy(&made), text(&rows));
    });
}

/// A trip of 12 stops, then trips up to 11, all with stops up to 499.
#[test]
fn exported_ids_and_sequence() {
    let stops = [0, 9, 10, 99, 100, 499, 1, 2, 3, 4, 5, 6];
    let mut rides: Vec<[u16; 5]> = (0..11)
        .map(|k| [0, stops[k], stops[k + 1], 600 + k as u16, 601 + k as u16])
        .collect();
    rides.extend((1..12).map(|trip| [trip, 499, 0, 60, 61]));
    let mut rows = vec!["0,10:00:00,10:00:00,0,0".to_string()];
    for (k, stop) in stops.iter().enumerate().skip(1) {
        rows.push(format!("0,10:{k:02}:00,10:{k:02}:00,{stop},{k}"));
    }
    for trip in 1..12 {
        rows.push(format!("{trip},01:00:00,01:00:00,499,0"));
        rows.push(format!("{trip},01:01:00,01:01:00,0,1"));
    }
    each(|side| {
        let (_, made) = export(side, &file(&[0; 500], &rides), ROOM);
        assert_eq!(String::from_utf8_lossy(&made), text(&rows));
    });
}

/// 1 to 11 before 32, and nothing written.
#[test]
fn refused_exports() {
    let j = file(&CHANGE, &RIDES);
    // The byte at a place with another value.
    let faults = [
        (0, b't', "no 2 at 0"),
        (3, 2, "no 3 at 0"),
        (5, 0, "no 4 at 0"),
        (8, 255, "no 5 at 0"),
        (7, 4, "no 6 at 0"),
        (11, 61, "no 7 at 1"),
        (17, 3, "no 8 at 0"),
        (15, 1, "no 9 at 0"),
        (64, 0, "no 10 at 4"),
        (31, 0, "no 11 at 1"),
    ];
    each(|side| {
        for len in [0, ROOM] {
            assert_eq!(export(side, &[], len).0, "no 1 at 0");
            assert_eq!(export(side, &j[..8], len).0, "no 1 at 0");
            assert_eq!(export(side, &j[..64], len).0, "no 6 at 0");
            for (at, value, refusal) in faults {
                let mut wrong = j.clone();
                wrong[at] = value;
                assert_eq!(export(side, &wrong, len).0, refusal);
            }
        }
    });
}
