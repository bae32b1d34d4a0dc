//! stop_times.txt: texts drawn from a timetable, right ones and wrong ones, and change minutes made
//! wrong. A new fault is a line of ROW_FAULTS or TEXT_FAULTS.

use crate::gen::Rng;
use crate::rooms::get;

pub const HEADER: &[u8] = b"trip_id,arrival_time,departure_time,stop_id,stop_sequence\n";

const TRIP: usize = 0;
const ARRIVAL: usize = 1;
const DEPARTURE: usize = 2;
const STOP: usize = 3;
const SEQUENCE: usize = 4;

/// The columns of a row, as written.
type Row = [String; 5];

/// Where the rules leave it free, how a text is written: each in so many of a hundred cases.
struct Hand {
    /// Leading zeros.
    zeros: usize,
    /// Hours of one digit.
    short: usize,
    /// Any time where none is kept.
    free: usize,
    /// A sequence with gaps.
    gaps: usize,
}

impl Hand {
    fn any(rng: &mut Rng) -> Hand {
        Hand {
            zeros: rng.pick(&[0, 0, 20, 100]),
            short: rng.pick(&[0, 50, 100]),
            free: rng.pick(&[0, 50, 100]),
            gaps: rng.pick(&[0, 50]),
        }
    }

    fn number(&self, rng: &mut Rng, n: usize) -> String {
        let width = if rng.chance(self.zeros) {
            rng.range(1, 5)
        } else {
            1
        };
        format!("{n:0width$}")
    }

    fn time(&self, rng: &mut Rng, minutes: usize) -> String {
        let width = if rng.chance(self.short) { 1 } else { 2 };
        format!("{:0width$}:{:02}:00", minutes / 60, minutes % 60)
    }

    /// A time that is not kept, where the row's other time is this.
    fn unkept(&self, rng: &mut Rng, other: usize) -> String {
        let any = rng.below(6000);
        let free = rng.pick(&[0, 4319, 4320, 5999, other / 2, any]);
        let minutes = if rng.chance(self.free) { free } else { other };
        self.time(rng, minutes)
    }

    /// Rising numbers, one for each row of a trip.
    fn sequence(&self, rng: &mut Rng, rows: usize) -> Vec<usize> {
        if !rng.chance(self.gaps) {
            return (0..rows).collect();
        }
        let step = 65535 / rows;
        let mut next = rng.below(step);
        let mut out = Vec::new();
        for _ in 0..rows {
            out.push(next);
            let most = rng.pick(&[1, 2, 10]).min(step);
            next += rng.range(1, most);
        }
        // At times up to the very end of the range.
        let last = out[rows - 1];
        if rng.chance(10) {
            out.iter_mut().for_each(|n| *n += 65535 - last);
        }
        out
    }
}

/// Rows of a right file.
fn rows(rng: &mut Rng, hand: &Hand, file: &[u8]) -> Vec<Row> {
    let s = usize::from(get(file, 5));
    let rides: Vec<[usize; 5]> = file[9 + 2 * s..]
        .chunks_exact(10)
        .map(|b| [0, 2, 4, 6, 8].map(|at| usize::from(get(b, at))))
        .collect();
    let mut out = Vec::new();
    for trip in rides.chunk_by(|a, b| a[0] == b[0]) {
        let sequence = hand.sequence(rng, trip.len() + 1);
        for (i, at) in sequence.into_iter().enumerate() {
            let (before, next) = (i.checked_sub(1).map(|i| trip[i]), trip.get(i));
            let arrival = before.map(|r| r[4]);
            let departure = next.map(|r| r[3]);
            let stop = next.map_or(trip[trip.len() - 1][2], |r| r[1]);
            let other = arrival.or(departure).unwrap_or(0);
            let mut time = |kept: Option<usize>| match kept {
                Some(minutes) => hand.time(rng, minutes),
                None => hand.unkept(rng, other),
            };
            let (arrival, departure) = (time(arrival), time(departure));
            out.push([
                hand.number(rng, trip[0][0]),
                arrival,
                departure,
                hand.number(rng, stop),
                hand.number(rng, at),
            ]);
        }
    }
    out
}

fn written(rows: &[Row]) -> Vec<u8> {
    let mut text = HEADER.to_vec();
    for row in rows {
        text.extend(row.join(",").bytes());
        text.push(b'\n');
    }
    text
}

/// A text whose import with its change minutes gives this right file.
pub fn right_text(rng: &mut Rng, file: &[u8]) -> Vec<u8> {
    let hand = Hand::any(rng);
    written(&rows(rng, &hand, file))
}

/// A text of a right file with one or more faults.
pub fn wrong_text(rng: &mut Rng, file: &[u8]) -> Vec<u8> {
    let s = usize::from(get(file, 5));
    let hand = Hand::any(rng);
    let mut rows = rows(rng, &hand, file);
    let faults = rng.pick(&[0, 1, 1, 1, 2, 3]);
    for _ in 0..faults {
        if !rows.is_empty() {
            let at = rng.below(rows.len());
            rng.pick(&ROW_FAULTS)(&mut rows, at, rng, s);
        }
    }
    let mut text = written(&rows);
    let least = usize::from(faults == 0);
    for _ in 0..rng.pick(&[0, 0, 0, 1]).max(least) {
        if !text.is_empty() {
            let at = rng.below(text.len());
            rng.pick(&TEXT_FAULTS)(&mut text, at, rng);
        }
    }
    text
}

/// A fault in the row at this place, of a timetable with so many stops.
type RowFault = fn(&mut Vec<Row>, usize, &mut Rng, usize);

const ROW_FAULTS: [RowFault; 20] = [
    |rows, at, _, _| {
        rows.remove(at);
    },
    |rows, at, _, _| rows.insert(at, rows[at].clone()),
    |rows, at, rng, _| {
        let other = rng.below(rows.len());
        rows.swap(at, other);
    },
    |rows, at, _, _| {
        if at > 0 {
            rows.swap(at - 1, at);
        }
    },
    alone,
    alone,
    // A trip that comes back, and one more at the end, alone or not.
    |rows, at, _, _| rows.push(rows[at].clone()),
    |rows, at, rng, _| {
        let last = value(&rows[rows.len() - 1][TRIP]);
        for k in 0..rng.range(1, 2) {
            let mut row = rows[at].clone();
            row[TRIP] = (last + 1).to_string();
            row[SEQUENCE] = k.to_string();
            rows.push(row);
        }
    },
    // A trip number left out.
    |rows, at, _, _| {
        for row in &mut rows[at..] {
            row[TRIP] = (value(&row[TRIP]) + 1).to_string();
        }
    },
    |rows, at, rng, s| rows[at][TRIP] = other_number(rng, &rows[at][TRIP], s),
    |rows, at, rng, s| rows[at][SEQUENCE] = other_number(rng, &rows[at][SEQUENCE], s),
    |rows, at, rng, _| {
        let before = rows[at.saturating_sub(1)][SEQUENCE].clone();
        rows[at][SEQUENCE] = (value(&before) + rng.below(2)).to_string();
    },
    |rows, at, rng, s| rows[at][STOP] = other_number(rng, &rows[at][STOP], s),
    |rows, at, rng, s| {
        let (from, to) = (rows[at.saturating_sub(1)][STOP].clone(), s + rng.below(2));
        rows[at][STOP] = if rng.chance(50) { from } else { to.to_string() };
    },
    |rows, at, rng, _| {
        let column = rng.pick(&[ARRIVAL, DEPARTURE]);
        rows[at][column] = rng.pick(&WRONG_TIMES).to_string();
    },
    |rows, at, rng, _| {
        let column = rng.pick(&[ARRIVAL, DEPARTURE]);
        rows[at][column] = rng.pick(&TIMES).to_string();
    },
    |rows, at, rng, _| shifted(rows, at, rng, ARRIVAL),
    |rows, at, rng, _| shifted(rows, at, rng, DEPARTURE),
    // As early as the departure before, which is too early, or as the arrival, which is not.
    |rows, at, _, _| rows[at][ARRIVAL] = rows[at.saturating_sub(1)][DEPARTURE].clone(),
    |rows, at, _, _| rows[at][DEPARTURE] = rows[at][ARRIVAL].clone(),
];

/// Of the trip of a row only this one is left.
fn alone(rows: &mut Vec<Row>, at: usize, _: &mut Rng, _: usize) {
    let kept = rows[at].clone();
    rows.retain(|row| *row == kept || value(&row[TRIP]) != value(&kept[TRIP]));
}

/// A time some minutes earlier or later.
fn shifted(rows: &mut [Row], at: usize, rng: &mut Rng, column: usize) {
    let mut parts = rows[at][column].split(':').map(value);
    let minutes = 60 * parts.next().unwrap_or(0) + parts.next().unwrap_or(0);
    let by = rng.pick(&[1, 1, 2, 10, 60, 1000]);
    let to = if rng.chance(50) {
        minutes + by
    } else {
        minutes.saturating_sub(by)
    };
    rows[at][column] = format!("{:02}:{:02}:00", to / 60, to % 60);
}

/// The value of a column that a fault may have spoilt already.
fn value(column: &str) -> usize {
    column.parse().unwrap_or(0)
}

fn other_number(rng: &mut Rng, column: &str, s: usize) -> String {
    let n = value(column);
    if rng.chance(40) {
        return rng.pick(&WRONG_NUMBERS).to_string();
    }
    let near = [n + 1, n.saturating_sub(1), n + 2, n + 65536, s, 0, 65535];
    rng.pick(&near).to_string()
}

const WRONG_NUMBERS: [&str; 19] = [
    "", "65536", "65535", "99999", "100000", "000000", "00000", "-1", "+1", " 1", "1 ", "1.0",
    "0x1", "1e3", "\"1\"", "/", ":", "1,1", "١",
];

const TIMES: [&str; 10] = [
    "0:00:00", "00:00:00", "9:59:00", "24:00:00", "71:58:00", "71:59:00", "72:00:00", "72:01:00",
    "99:59:00", "99:00:00",
];

const WRONG_TIMES: [&str; 27] = [
    "",
    "10:60:00",
    "10:99:00",
    "10:00:01",
    "10:00:60",
    "10:00:0",
    "10:00:000",
    "10:00",
    "10:0:00",
    "1:2:00",
    "010:00:00",
    "100:00:00",
    ":00:00",
    "10::00",
    "10:00:00:00",
    "10.00.00",
    "10:00.00",
    " 9:00:00",
    "9:00:00 ",
    "-1:00:00",
    "/0:00:00",
    "0/:00:00",
    "::00:00",
    "1:/0:00",
    "1:0::00",
    "\"9:00:00\"",
    "1O:00:00",
];

/// A fault in the byte at this place.
type TextFault = fn(&mut Vec<u8>, usize, &mut Rng);

const TEXT_FAULTS: [TextFault; 22] = [
    |text, at, rng| text[at] = rng.word() as u8,
    |text, at, rng| text[at] ^= 1 << rng.below(8),
    |text, at, rng| text[at] = rng.pick(BYTES),
    |text, at, rng| text[at] = rng.pick(BYTES),
    |text, at, _| {
        text.remove(at);
    },
    |text, at, rng| text.insert(at, rng.pick(BYTES)),
    |text, at, rng| {
        let end = (at + rng.range(1, 40)).min(text.len());
        text.drain(at..end);
    },
    |text, at, rng| {
        let end = (at + rng.range(1, 40)).min(text.len());
        text.extend_from_within(at..end);
    },
    |text, at, _| text.truncate(at),
    |text, _, _| {
        text.pop();
    },
    |text, _, rng| text.push(rng.pick(BYTES)),
    |text, _, rng| {
        text.extend(
            rng.pick(&["0,", "\r\n", "\n\n", "0,0:00:00,0:00:00,0,0"])
                .bytes(),
        )
    },
    // One line, or each, ends with CR LF.
    |text, at, _| insert_before(text, at, b'\n', b'\r'),
    |text, _, _| {
        let lines = text.split_inclusive(|&b| b == b'\n');
        *text = lines
            .flat_map(|l| [&l[..l.len() - 1], b"\r\n"])
            .flatten()
            .copied()
            .collect();
    },
    |text, at, _| insert_before(text, at, b'\n', b'\n'),
    |text, at, _| insert_before(text, at, b',', b','),
    |text, at, _| insert_before(text, at, b',', b' '),
    |text, at, _| {
        insert_before(text, at, b',', b'"');
        insert_before(text, at.saturating_sub(9), b',', b'"');
    },
    |text, at, rng| {
        let byte = rng.pick(b",\n:");
        if let Some(i) = text[at..].iter().position(|&b| b == byte) {
            text.remove(at + i);
        }
    },
    wrong_header,
    wrong_header,
    |text, at, rng| text[at..].iter_mut().for_each(|b| *b = rng.word() as u8),
];

const BYTES: &[u8] = b"0123456789,:\n\r\" \t-+/;.\0\xff\xb0";

/// A byte before the first of this kind from a place on.
fn insert_before(text: &mut Vec<u8>, at: usize, kind: u8, byte: u8) {
    if let Some(i) = text[at..].iter().position(|&b| b == kind) {
        text.insert(at + i, byte);
    }
}

fn wrong_header(text: &mut Vec<u8>, at: usize, rng: &mut Rng) {
    let rest = text.split_off(HEADER.len().min(text.len()));
    match rng.below(7) {
        0 => text.clear(),
        1 => text.extend_from_within(..),
        2 => text.insert(at % HEADER.len(), b' '),
        3 => text.iter_mut().for_each(|b| b.make_ascii_uppercase()),
        4 => text.truncate(HEADER.len() - 1),
        5 => *text = [b"\xef\xbb\xbf", &text[..]].concat(),
        _ => {
            let i = rng.below(text.len());
            text[i] = rng.pick(BYTES);
        }
    }
    if rng.chance(80) {
        text.extend(rest);
    }
}

/// The change minutes of a right file, at times with a fault or with an odd last byte.
pub fn change(rng: &mut Rng, file: &[u8], wrong: bool) -> Vec<u8> {
    let s = usize::from(get(file, 5));
    let mut out = file[9..9 + 2 * s].to_vec();
    if wrong {
        if rng.chance(50) {
            let n = rng.pick(&[0, 1, 2, s - 1, s + 1, 499, 500, 501, 502, 65536, 65537 + s]);
            out.resize(2 * n, 0);
        }
        for _ in 0..rng.below(3) {
            if let [.., _, _] = out[..] {
                let at = 2 * rng.below(out.len() / 2);
                let minutes: u16 = rng.pick(&[0, 60, 61, 62, 256, 65535]);
                out[at..at + 2].copy_from_slice(&minutes.to_le_bytes());
            }
        }
    }
    if rng.chance(20) {
        out.push(rng.word() as u8);
    }
    out
}
