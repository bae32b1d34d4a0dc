//! Documents 01 and 02 rule by rule: slow, obvious, for small timetables. Every valid journey is
//! listed, and the first in document 01's order is taken. The refusals of all operations on a
//! timetable are one list in document 01's order, each made where the call has the input that it
//! is about.

#![forbid(unsafe_code)]

use crate::calls::{Call, Lent, Side, GRAPH, JOURNEY, NOTICES, WORK};

const NONE: usize = 65535;

/// More connections than these make too many journeys to list.
pub const MOST: usize = 16;

pub static SENTENCES: Side = Side {
    name: "sentences",
    call: |file, areas, call| make(file, areas, call, by_listing),
    import: |text, change, file| flat(import(text, change, file)),
    export: |file, text| flat(export(file, text)),
};

/// The same for timetables of any size: of the journeys that end with a connection, only the first
/// in the order is kept.
pub static BY_LAST: Side = Side {
    name: "by last connection",
    call: |file, areas, call| make(file, areas, call, by_last),
    ..SENTENCES
};

#[derive(Clone, Debug)]
pub struct Ride {
    pub trip: usize,
    pub from: usize,
    pub to: usize,
    pub dep: usize,
    pub arr: usize,
}

#[derive(Clone, Debug)]
pub struct Timetable {
    pub change: Vec<usize>,
    pub rides: Vec<Ride>,
}

#[derive(Clone, Copy, Debug, PartialEq)]
pub struct Notice {
    pub number: usize,
    pub ride: usize,
    pub delay: usize,
}

const UNUSED: Notice = Notice {
    number: 0,
    ride: 0,
    delay: 0,
};

/// A refusal: number and place.
type Refusal = (usize, usize);

// ---------------------------------------------------------------- numbers

fn get(bytes: &[u8]) -> Vec<usize> {
    bytes
        .chunks_exact(2)
        .map(|b| b[0] as usize + 256 * b[1] as usize)
        .collect()
}

fn put(bytes: &mut [u8], numbers: &[usize]) {
    for (i, n) in numbers.iter().enumerate() {
        bytes[2 * i] = (n % 256) as u8;
        bytes[2 * i + 1] = (n / 256) as u8;
    }
}

// ---------------------------------------------------------------- the file

/// Refusals 1 to 7, then 8 to 11 connection by connection.
pub fn read(file: &[u8]) -> Result<Timetable, Refusal> {
    if file.len() < 9 {
        return Err((1, 0));
    }
    if &file[..3] != b"TTG" {
        return Err((2, 0));
    }
    let head = get(&file[3..9]);
    let (version, s, c) = (head[0], head[1], head[2]);
    if version != 1 {
        return Err((3, 0));
    }
    if !(1..=500).contains(&s) {
        return Err((4, 0));
    }
    if c > 2000 {
        return Err((5, 0));
    }
    if file.len() != 9 + 2 * s + 10 * c {
        return Err((6, 0));
    }
    let change = get(&file[9..9 + 2 * s]);
    for (stop, minutes) in change.iter().enumerate() {
        if *minutes > 60 {
            return Err((7, stop));
        }
    }
    let mut rides: Vec<Ride> = Vec::new();
    for (i, b) in file[9 + 2 * s..].chunks_exact(10).enumerate() {
        let n = get(b);
        let r = Ride {
            trip: n[0],
            from: n[1],
            to: n[2],
            dep: n[3],
            arr: n[4],
        };
        if r.from >= s || r.to >= s || r.from == r.to {
            return Err((8, i));
        }
        let before = rides.last();
        let trip_right = match before {
            None => r.trip == 0,
            Some(p) => r.trip == p.trip || r.trip == p.trip + 1,
        };
        if !trip_right {
            return Err((9, i));
        }
        if r.dep >= r.arr || r.arr > 4319 {
            return Err((10, i));
        }
        let joins = match before {
            Some(p) if p.trip == r.trip => r.from == p.to && r.dep >= p.arr,
            _ => true,
        };
        if !joins {
            return Err((11, i));
        }
        rides.push(r);
    }
    Ok(Timetable { change, rides })
}

// ---------------------------------------------------------------- notices, times, graph

/// The notices standing in an area of 601 numbers, or the first wrong row.
fn standing(area: &[usize], c: usize) -> Result<Vec<Notice>, Refusal> {
    let count = area[0];
    if count > 200 {
        return Err((23, 0));
    }
    let mut out: Vec<Notice> = Vec::new();
    for row in 1..=200 {
        let n = Notice {
            number: area[3 * row - 2],
            ride: area[3 * row - 1],
            delay: area[3 * row],
        };
        let right = if row <= count {
            let above = out.last().is_none_or(|p| n.number > p.number);
            n.number != 0 && above && n.ride < c && (1..=1440).contains(&n.delay)
        } else {
            n == UNUSED
        };
        if !right {
            return Err((23, row));
        }
        if row <= count {
            out.push(n);
        }
    }
    Ok(out)
}

/// The 601 numbers of the notice area.
fn notice_area(notices: &[Notice]) -> Vec<usize> {
    let mut sorted = notices.to_vec();
    sorted.sort_by_key(|n| n.number);
    sorted.resize(200, UNUSED);
    let rows = sorted.iter().flat_map(|n| [n.number, n.ride, n.delay]);
    [notices.len()].into_iter().chain(rows).collect()
}

/// A ride's own delay, as a pair: the delay and the number of the notice that gives it. The largest
/// delay among the notices that stand for this ride and, of the notices that have it, the lowest
/// number; 0 and 0 where none stands.
fn own_delay(notices: &[Notice], ride: usize) -> (usize, usize) {
    let of_ride: Vec<&Notice> = notices.iter().filter(|n| n.ride == ride).collect();
    let Some(largest) = of_ride.iter().map(|n| n.delay).max() else {
        return (0, 0);
    };
    let having = of_ride.iter().filter(|n| n.delay == largest);
    let lowest = having.map(|n| n.number).min().expect("one has it");
    (largest, lowest)
}

/// The times in force, departure and arrival by ride.
pub fn times(t: &Timetable, notices: &[Notice]) -> Vec<(usize, usize)> {
    let mut out: Vec<(usize, usize)> = Vec::new();
    for (i, r) in t.rides.iter().enumerate() {
        let (own, _) = own_delay(notices, i);
        let mut dep = r.dep + own;
        if i > 0 && t.rides[i - 1].trip == r.trip {
            dep = dep.max(out[i - 1].1);
        }
        out.push((dep, dep + (r.arr - r.dep)));
    }
    out
}

/// The 4C + S numbers of the graph area.
pub fn graph(t: &Timetable, notices: &[Notice]) -> Vec<usize> {
    let times = times(t, notices);
    let c = t.rides.len();
    // The first ride in departure order from a stop, among those that fit.
    let first = |stop: usize, fits: &dyn Fn(usize) -> bool| {
        (0..c)
            .filter(|&d| t.rides[d].from == stop && fits(d))
            .min_by_key(|&d| (times[d].0, d))
            .unwrap_or(NONE)
    };
    let mut out = Vec::new();
    for &(dep, arr) in &times {
        out.push(dep);
        out.push(arr);
    }
    for (i, r) in t.rides.iter().enumerate() {
        out.push(first(r.from, &|d| (times[d].0, d) > (times[i].0, i)));
    }
    for (i, r) in t.rides.iter().enumerate() {
        out.push(first(r.to, &|d| times[d].0 >= times[i].1 + t.change[r.to]));
    }
    for stop in 0..t.change.len() {
        out.push(first(stop, &|_| true));
    }
    out
}

// ---------------------------------------------------------------- journeys

/// A timetable with its times in force, and where and when a journey starts.
pub struct Enquiry<'a> {
    pub timetable: &'a Timetable,
    pub times: &'a [(usize, usize)],
    pub from: usize,
    pub time: usize,
}

impl Enquiry<'_> {
    fn rides(&self) -> std::ops::Range<usize> {
        0..self.timetable.rides.len()
    }

    fn can_be_first(&self, d: usize) -> bool {
        self.timetable.rides[d].from == self.from && self.times[d].0 >= self.time
    }

    /// Whether ride p can stand directly before ride d.
    fn can_follow(&self, p: usize, d: usize) -> bool {
        let (a, b) = (&self.timetable.rides[p], &self.timetable.rides[d]);
        let aboard = d == p + 1 && a.trip == b.trip;
        let ready = self.times[p].1 + self.timetable.change[a.to];
        a.to == b.from && (aboard || self.times[d].0 >= ready)
    }

    /// Every non-empty list of rides that is valid but for its end, read from its end.
    pub fn journeys(&self) -> Vec<Vec<usize>> {
        assert!(self.rides().len() <= MOST, "too many journeys to list");
        let firsts = self.rides().filter(|&d| self.can_be_first(d));
        let mut all: Vec<Vec<usize>> = firsts.map(|d| vec![d]).collect();
        let mut i = 0;
        while i < all.len() {
            for d in self.rides() {
                if self.can_follow(all[i][0], d) {
                    all.push([&[d], &all[i][..]].concat());
                }
            }
            i += 1;
        }
        all
    }

    /// For each ride the first in the order of the lists that end with it, each read from its end.
    fn firsts_by_last(&self) -> Vec<Vec<usize>> {
        let mut by_departure: Vec<usize> = self.rides().collect();
        by_departure.sort_by_key(|&d| self.times[d].0);
        let mut kept: Vec<Vec<usize>> = vec![Vec::new(); self.rides().len()];
        // A ride leaves before those that can follow it.
        for d in by_departure {
            let before = self
                .rides()
                .filter(|&p| !kept[p].is_empty() && self.can_follow(p, d));
            let alone = self.can_be_first(d).then_some(&[][..]);
            let first = before.map(|p| &kept[p][..]).chain(alone).min();
            if let Some(list) = first {
                kept[d] = [&[d], list].concat();
            }
        }
        kept.retain(|list| !list.is_empty());
        kept
    }

    /// The work area, by the rides that end a valid journey.
    fn work(&self, ends: &[bool]) -> Vec<usize> {
        let entry = |d: usize| {
            if !ends[d] {
                NONE
            } else if self.can_be_first(d) {
                d
            } else {
                let mut before = self.rides().filter(|&p| ends[p] && self.can_follow(p, d));
                before.next().unwrap_or(NONE)
            }
        };
        self.rides().map(entry).collect()
    }

    /// The rides that end one of the lists.
    fn ends(&self, lists: &[Vec<usize>]) -> Vec<bool> {
        let mut ends = vec![false; self.rides().len()];
        for list in lists {
            ends[list[0]] = true;
        }
        ends
    }

    /// Of the lists that end at `to` the one that arrives first, then the first in the order.
    pub fn best(&self, lists: &[Vec<usize>], to: usize) -> Option<(usize, Vec<usize>)> {
        let there = lists
            .iter()
            .filter(|list| self.timetable.rides[list[0]].to == to);
        let best = there.map(|list| (self.times[list[0]].1, list)).min();
        best.map(|(arrival, list)| (arrival, list.iter().rev().copied().collect()))
    }
}

/// Lists of rides, read from their end, among which are all that an answer needs.
type Lists = fn(&Enquiry) -> Vec<Vec<usize>>;

fn by_listing(q: &Enquiry) -> Vec<Vec<usize>> {
    q.journeys()
}

fn by_last(q: &Enquiry) -> Vec<Vec<usize>> {
    q.firsts_by_last()
}

// ---------------------------------------------------------------- the operations

/// The notice number that a call has.
fn number_in(call: Call) -> Option<usize> {
    match call {
        Call::Post(number, ..) | Call::Withdraw(number) => Some(number.into()),
        _ => None,
    }
}

/// The rides, of a call that names some.
fn rides_in(call: Call) -> Vec<usize> {
    match call {
        Call::Post(_, ride, _) => vec![ride.into()],
        Call::Margin(ride, next) => vec![ride.into(), next.into()],
        Call::Why(ride) => vec![ride.into()],
        _ => vec![],
    }
}

/// Which areas a call has.
fn areas_in(call: Call) -> &'static [usize] {
    match call {
        Call::Check => &[],
        Call::Why(..) => &[NOTICES],
        Call::Build | Call::Post(..) | Call::Withdraw(..) | Call::Margin(..) => &[NOTICES, GRAPH],
        Call::Enquire(..) => &[NOTICES, GRAPH, WORK, JOURNEY],
    }
}

/// Every refusal but 30, in document 01's order; else the timetable and the notices standing, none
/// for a call that does not look at them.
fn refused_or(
    file: &[u8],
    areas: &[Vec<usize>],
    call: Call,
) -> Result<(Timetable, Vec<Notice>), Refusal> {
    let t = read(file)?;
    let (s, c) = (t.change.len(), t.rides.len());
    let rooms = [
        (21, NOTICES, 601),
        (22, GRAPH, 4 * c + s),
        (28, WORK, c),
        (29, JOURNEY, c),
    ];
    for (refusal, area, needed) in rooms {
        if areas_in(call).contains(&area) && areas[area].len() < needed {
            return Err((refusal, 0));
        }
    }
    if let Call::Check | Call::Build = call {
        return Ok((t, vec![]));
    }
    let list = standing(&areas[NOTICES], c)?;
    let has_graph = areas_in(call).contains(&GRAPH);
    if has_graph && areas[GRAPH][..4 * c + s] != graph(&t, &list) {
        return Err((24, 0));
    }
    if number_in(call) == Some(0) {
        return Err((12, 0));
    }
    if rides_in(call).iter().any(|&ride| ride >= c) {
        return Err((13, 0));
    }
    if let Call::Post(_, _, delay) = call {
        if !(1..=1440).contains(&delay) {
            return Err((14, 0));
        }
    }
    if let Call::Enquire(from, to, time) = call {
        if usize::from(from) >= s || usize::from(to) >= s {
            return Err((15, 0));
        }
        if time > 5759 {
            return Err((16, 0));
        }
    }
    if let Call::Margin(ride, next) = call {
        if t.rides[usize::from(ride)].to != t.rides[usize::from(next)].from {
            return Err((17, 0));
        }
    }
    let noted = |number: u16| list.iter().find(|n| n.number == usize::from(number));
    if let Call::Post(number, ride, _) = call {
        match noted(number) {
            Some(n) if n.ride != usize::from(ride) => return Err((25, 0)),
            None if list.len() == 200 => return Err((26, 0)),
            _ => {}
        }
    }
    if let Call::Withdraw(number) = call {
        if noted(number).is_none() {
            return Err((27, 0));
        }
    }
    Ok((t, list))
}

fn counts(t: &Timetable) -> i64 {
    t.change.len() as i64 + 65536 * t.rides.len() as i64
}

fn answer(file: &[u8], areas: &mut Lent, call: Call, lists: Lists) -> Result<i64, Refusal> {
    let numbers: Vec<Vec<usize>> = areas.iter().map(|area| get(area)).collect();
    let (t, mut list) = refused_or(file, &numbers, call)?;
    match call {
        Call::Check => Ok(counts(&t)),
        Call::Build => {
            put(areas[NOTICES], &notice_area(&[]));
            put(areas[GRAPH], &graph(&t, &[]));
            Ok(counts(&t))
        }
        Call::Post(number, ..) | Call::Withdraw(number) => {
            let number = usize::from(number);
            if let Call::Post(_, ride, delay) = call {
                let (ride, delay) = (usize::from(ride), usize::from(delay));
                match list.iter_mut().find(|n| n.number == number) {
                    // Posted again: its delay replaces the old one.
                    Some(n) => n.delay = delay,
                    None => list.push(Notice {
                        number,
                        ride,
                        delay,
                    }),
                }
            } else {
                list.retain(|n| n.number != number);
            }
            put(areas[NOTICES], &notice_area(&list));
            put(areas[GRAPH], &graph(&t, &list));
            Ok(number as i64)
        }
        Call::Enquire(from, to, time) => {
            let q = Enquiry {
                timetable: &t,
                times: &times(&t, &list),
                from: from.into(),
                time: time.into(),
            };
            let lists = lists(&q);
            put(areas[WORK], &q.work(&q.ends(&lists)));
            if from == to {
                return Ok(time.into());
            }
            let (arrival, rides) = q.best(&lists, to.into()).ok_or((30, 0))?;
            put(areas[JOURNEY], &rides);
            Ok(arrival as i64 + 65536 * rides.len() as i64)
        }
        Call::Margin(ride, next) => {
            let times = times(&t, &list);
            let (c, d) = (usize::from(ride), usize::from(next));
            Ok(times[d].0 as i64 - times[c].1 as i64 - t.change[t.rides[c].to] as i64)
        }
        Call::Why(ride) => {
            let (delay, notice) = own_delay(&list, ride.into());
            Ok(delay as i64 + 65536 * notice as i64)
        }
    }
}

fn make(file: &[u8], mut areas: Lent, call: Call, lists: Lists) -> i64 {
    flat(answer(file, &mut areas, call, lists))
}

fn flat(answer: Result<i64, Refusal>) -> i64 {
    match answer {
        Ok(value) => 65536 * value,
        Err((number, place)) => number as i64 + 65536 * place as i64,
    }
}

// ---------------------------------------------------------------- stop_times.txt

const HEADER: &[u8] = b"trip_id,arrival_time,departure_time,stop_id,stop_sequence\n";

/// A row; its times are in minutes.
struct Row {
    trip: usize,
    arrival: usize,
    departure: usize,
    stop: usize,
    sequence: usize,
}

fn all_digits(word: &[u8]) -> bool {
    word.iter().all(u8::is_ascii_digit)
}

/// The value of digits.
fn value(digits: &[u8]) -> usize {
    digits.iter().fold(0, |n, d| 10 * n + usize::from(d - b'0'))
}

/// Decimals as in document 01's commands: 1 to 5 digits, up to 65,535.
fn decimal(word: &[u8]) -> Option<usize> {
    if !(1..=5).contains(&word.len()) || !all_digits(word) {
        return None;
    }
    Some(value(word)).filter(|&n| n <= 65535)
}

/// H:MM:SS or HH:MM:SS, minutes 00 to 59, seconds 00; the hours may pass 24.
fn clock(word: &[u8]) -> Option<usize> {
    let parts: Vec<&[u8]> = word.split(|&b| b == b':').collect();
    let [hours, minutes, seconds] = parts[..] else {
        return None;
    };
    if !(1..=2).contains(&hours.len()) || !all_digits(hours) {
        return None;
    }
    if minutes.len() != 2 || !all_digits(minutes) || value(minutes) > 59 {
        return None;
    }
    if seconds != b"00" {
        return None;
    }
    Some(60 * value(hours) + value(minutes))
}

/// A line with its newline: the five columns, without quotes.
fn row(line: &[u8]) -> Option<Row> {
    let line = line.strip_suffix(b"\n")?;
    let columns: Vec<&[u8]> = line.split(|&b| b == b',').collect();
    let [trip, arrival, departure, stop, sequence] = columns[..] else {
        return None;
    };
    Some(Row {
        trip: decimal(trip)?,
        arrival: clock(arrival)?,
        departure: clock(departure)?,
        stop: decimal(stop)?,
        sequence: decimal(sequence)?,
    })
}

/// Rows come by trip from 0 with no gap, with rising stop_sequence.
fn comes_next(before: Option<&Row>, row: &Row) -> bool {
    match before {
        None => row.trip == 0,
        Some(p) if row.trip == p.trip => row.sequence > p.sequence,
        Some(p) => row.trip == p.trip + 1,
    }
}

/// The rows, or 31: the first row not as above, else the first alone in its trip.
fn rows(text: &[u8]) -> Result<Vec<Row>, Refusal> {
    let mut lines = text.split_inclusive(|&b| b == b'\n');
    if lines.next() != Some(HEADER) {
        return Err((31, 0));
    }
    let mut rows: Vec<Row> = Vec::new();
    for (i, line) in lines.enumerate() {
        let row = row(line).ok_or((31, i + 1))?;
        if !comes_next(rows.last(), &row) {
            return Err((31, i + 1));
        }
        rows.push(row);
    }
    for i in 0..rows.len() {
        let with_before = i > 0 && rows[i - 1].trip == rows[i].trip;
        let with_next = i + 1 < rows.len() && rows[i + 1].trip == rows[i].trip;
        if !with_before && !with_next {
            return Err((31, i + 1));
        }
    }
    Ok(rows)
}

/// The file of rows and change minutes, accepted or not. A count past 16 bits becomes 65,535, which
/// is refused as it is.
fn file_of(rows: &[Row], change: &[usize]) -> Vec<u8> {
    let mut rides = Vec::new();
    for i in 1..rows.len() {
        let (a, b) = (&rows[i - 1], &rows[i]);
        if a.trip == b.trip {
            rides.push([a.trip, a.stop, b.stop, a.departure, b.arrival]);
        }
    }
    let counts = [change.len(), rides.len()].map(|n| n.min(65535));
    let numbers = [&[1], &counts[..], change, &rides.concat()].concat();
    let mut file = vec![0; 3 + 2 * numbers.len()];
    file[..3].copy_from_slice(b"TTG");
    put(&mut file[3..], &numbers);
    file
}

fn import(text: &[u8], change: &[u8], file: &mut [u8]) -> Result<i64, Refusal> {
    let made = file_of(&rows(text)?, &get(change));
    read(&made)?;
    write(file, &made)
}

/// Refusal 32, or the bytes written.
fn write(area: &mut [u8], bytes: &[u8]) -> Result<i64, Refusal> {
    if area.len() < bytes.len() {
        return Err((32, 0));
    }
    area[..bytes.len()].copy_from_slice(bytes);
    Ok(bytes.len() as i64)
}

/// HH:MM:SS.
fn shown(minutes: usize) -> String {
    format!("{:02}:{:02}:00", minutes / 60, minutes % 60)
}

/// The text of a timetable: for each trip its stops.
fn text_of(t: &Timetable) -> Vec<u8> {
    let mut text = HEADER.to_vec();
    let trips = t.rides.last().map_or(0, |r| r.trip + 1);
    for trip in 0..trips {
        let rides: Vec<&Ride> = t.rides.iter().filter(|r| r.trip == trip).collect();
        for stop in 0..=rides.len() {
            let comes = (stop > 0).then(|| rides[stop - 1]);
            let goes = rides.get(stop);
            let id = goes.map(|r| r.from).or(comes.map(|r| r.to));
            let arrival = comes.map(|r| r.arr).or(goes.map(|r| r.dep));
            let departure = goes.map(|r| r.dep).or(comes.map(|r| r.arr));
            let [id, arrival, departure] = [id, arrival, departure].map(|n| n.expect("a ride"));
            let (arrival, departure) = (shown(arrival), shown(departure));
            text.extend(format!("{trip},{arrival},{departure},{id},{stop}\n").bytes());
        }
    }
    text
}

fn export(file: &[u8], text: &mut [u8]) -> Result<i64, Refusal> {
    let t = read(file)?;
    write(text, &text_of(&t))
}
