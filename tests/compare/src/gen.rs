//! Inputs: a small generator of numbers, and timetables and calls made with it.

use crate::calls::{Call, BUILD, CHECK, ENQUIRE, GRAPH, NOTICES, POST, WHY, WITHDRAW};
use crate::rooms::{get, State};

/// SplitMix64.
#[derive(Clone)]
pub struct Rng(pub u64);

impl Rng {
    pub fn word(&mut self) -> u64 {
        self.0 = self.0.wrapping_add(0x9e37_79b9_7f4a_7c15);
        let mut z = self.0;
        z = (z ^ (z >> 30)).wrapping_mul(0xbf58_476d_1ce4_e5b9);
        z = (z ^ (z >> 27)).wrapping_mul(0x94d0_49bb_1331_11eb);
        z ^ (z >> 31)
    }

    /// Below n; n is not 0.
    pub fn below(&mut self, n: usize) -> usize {
        (self.word() % n as u64) as usize
    }

    /// From a to b, both included.
    pub fn range(&mut self, a: usize, b: usize) -> usize {
        a + self.below(b - a + 1)
    }

    pub fn chance(&mut self, percent: usize) -> bool {
        self.below(100) < percent
    }

    pub fn pick<T: Copy>(&mut self, list: &[T]) -> T {
        list[self.below(list.len())]
    }
}

/// How the trips of a timetable look.
#[derive(Clone, Debug)]
pub struct Style {
    /// Trips start from `open` on, within `span` minutes.
    pub open: usize,
    pub span: usize,
    /// Rides of a trip, at least and at most.
    pub trip: (usize, usize),
    /// Longest ride and longest stay at a stop.
    pub ride: usize,
    pub stay: usize,
    pub change: usize,
    /// No arrival later than this.
    pub close: usize,
}

/// A day from 05:00 to 23:00 with trips of 5 to 15 rides.
pub fn day() -> Style {
    Style {
        open: 300,
        span: 900,
        trip: (5, 15),
        ride: 15,
        stay: 3,
        change: 8,
        close: 1380,
    }
}

/// All departures in one minute, each connection a trip of its own.
pub fn dense() -> Style {
    Style {
        open: 600,
        span: 1,
        trip: (1, 1),
        ride: 15,
        stay: 0,
        change: 8,
        close: 1380,
    }
}

/// Any style, with many departures in the same minute among them.
pub fn style(rng: &mut Rng) -> Style {
    let span = rng.pick(&[1, 5, 20, 100, 1080, 4000]);
    style_within(rng, span)
}

/// A style for few connections: so close together that many can follow one another.
pub fn small_style(rng: &mut Rng) -> Style {
    let span = rng.pick(&[1, 5, 20, 60]);
    style_within(rng, span)
}

fn style_within(rng: &mut Rng, span: usize) -> Style {
    let low = rng.range(1, 5);
    Style {
        open: rng.pick(&[0, 0, 300, 4319 - span.min(4318)]),
        span,
        trip: (low, low + rng.below(20)),
        ride: rng.pick(&[1, 2, 5, 30]),
        stay: rng.pick(&[0, 1, 3, 10]),
        change: rng.pick(&[0, 1, 3, 10, 60]),
        close: 4319,
    }
}

/// A right file with these counts, which may be above the limits. With one stop, C must be 0.
pub fn timetable(rng: &mut Rng, s: usize, c: usize, style: &Style) -> Vec<u8> {
    let mut out = b"TTG".to_vec();
    let mut put = |n: usize| out.extend((n as u16).to_le_bytes());
    put(1);
    put(s);
    put(c);
    for _ in 0..s {
        put(rng.range(0, style.change));
    }
    let mut trip = 0;
    let mut left = 0;
    let mut stop = 0;
    let mut time = 0;
    for i in 0..c {
        let dep = time + rng.range(0, style.stay);
        if left == 0 || dep >= style.close {
            trip += usize::from(i > 0);
            left = rng.range(style.trip.0, style.trip.1);
            stop = rng.below(s);
            time = (style.open + rng.below(style.span)).min(style.close - 1);
        } else {
            time = dep;
        }
        let to = (stop + rng.range(1, s - 1)) % s;
        let arr = (time + rng.range(1, style.ride)).min(style.close);
        for n in [trip, stop, to, time, arr] {
            put(n);
        }
        stop = to;
        time = arr;
        left -= 1;
    }
    out
}

/// Stops and connections, at most so many of these.
pub fn sizes(rng: &mut Rng, most: usize) -> (usize, usize) {
    let c = match rng.below(20) {
        0 => 0,
        1..=9 => rng.range(1, 12),
        10..=13 => rng.range(1, 60),
        14..=16 => rng.range(1, 300),
        17 | 18 => rng.range(1, 2000),
        _ => rng.pick(&[2000, 2000, 1999, 1024, 1023, 512, 125]),
    };
    let c = c.min(most);
    let s = match rng.below(10) {
        0..=5 => rng.range(2, 6),
        6 => 2 + c / 8,
        7 => rng.range(2, 60),
        8 => rng.range(2, 500),
        _ => rng.pick(&[500, 499, 2]),
    };
    (if c == 0 && rng.chance(40) { 1 } else { s }, c)
}

/// Few stops, and at most so many connections.
pub fn small_sizes(rng: &mut Rng, most: usize) -> (usize, usize) {
    let c = if rng.chance(3) { 0 } else { rng.range(1, most) };
    let s = if rng.chance(95) { rng.range(2, 5) } else { 500 };
    (if c == 0 && rng.chance(40) { 1 } else { s }, c)
}

/// A delay within its limits.
fn delay(rng: &mut Rng) -> u16 {
    match rng.below(10) {
        0..=3 => rng.range(1, 5) as u16,
        4..=6 => rng.range(1, 60) as u16,
        7 => rng.range(1, 1440) as u16,
        _ => rng.pick(&[1, 1439, 1440, 360]),
    }
}

/// A connection that is not there.
fn missing(rng: &mut Rng, c: usize) -> u16 {
    rng.pick(&[c as u16, c as u16 + 1, 65535, 2000, 2048])
}

/// A connection, now and then one that is not there.
fn ride(rng: &mut Rng, c: usize) -> u16 {
    match rng.below(25) {
        0 => missing(rng, c),
        _ => rng.below(c.max(1)) as u16,
    }
}

/// How many notices stand, as far as the area has rows for them.
pub fn standing(x: &State) -> usize {
    let notices = &x.areas[NOTICES];
    match notices.len() {
        1202.. => usize::from(notices.num(0)).min(200),
        _ => 0,
    }
}

/// A notice number: in `known` of a hundred cases one that stands, the first and the last row's
/// more often than another's.
fn number(rng: &mut Rng, x: &State, known: usize, pool: usize) -> u16 {
    let standing = standing(x);
    match rng.below(100) {
        0..=2 => 0,
        3..=4 => 65535,
        n if n < known && standing > 0 => {
            let any = rng.below(standing);
            let row = rng.pick(&[0, standing - 1, any, any, any, any]);
            x.areas[NOTICES].num(1 + 3 * row)
        }
        _ => rng.range(1, pool) as u16,
    }
}

/// Connection and delay of a notice: often the connection of one that stands, and then often its
/// delay too, so that several with the largest delay are common.
pub fn late(rng: &mut Rng, x: &State) -> (u16, u16) {
    let (notices, standing) = (&x.areas[NOTICES], standing(x));
    let mut delay = delay(rng);
    if standing == 0 || rng.chance(60) {
        return (rng.below(x.c.max(1)) as u16, delay);
    }
    let row = rng.below(standing);
    if rng.chance(60) {
        delay = notices.num(3 + 3 * row);
    }
    (notices.num(2 + 3 * row), delay)
}

/// A posting, now and then of a connection that is not there or with a delay out of its limits. Where
/// its number stands it is mostly for the same connection, at times with the same delay.
fn posting(rng: &mut Rng, x: &State, pool: usize) -> Call {
    let number = number(rng, x, 25, pool);
    let (mut ride, mut delay) = late(rng, x);
    if rng.chance(4) {
        ride = missing(rng, x.c);
    }
    if rng.chance(5) {
        delay = rng.pick(&[0, 1441, 65535]);
    }
    let notices = &x.areas[NOTICES];
    let row = (0..standing(x)).find(|row| notices.num(1 + 3 * row) == number);
    if let Some(row) = row.filter(|_| rng.chance(60)) {
        ride = notices.num(2 + 3 * row);
        if rng.chance(20) {
            delay = notices.num(3 + 3 * row);
        }
    }
    Call::Post(number, ride, delay)
}

/// A connection that may have notices: mostly one that has.
pub fn asked(rng: &mut Rng, x: &State) -> u16 {
    match standing(x) {
        n if n > 0 && rng.chance(60) => x.areas[NOTICES].num(2 + 3 * rng.below(n)),
        _ => ride(rng, x.c),
    }
}

fn stop(rng: &mut Rng, s: usize) -> u16 {
    match rng.below(30) {
        0 => rng.pick(&[s as u16, s as u16 + 1, 65535]),
        _ => rng.below(s) as u16,
    }
}

/// A time for an enquiry, mostly around one in the graph area.
fn time(rng: &mut Rng, x: &State) -> u16 {
    let (graph, c) = (&x.areas[GRAPH], x.c);
    match rng.below(20) {
        0 => rng.pick(&[5759, 5760, 5761, 65535]),
        1..=3 => rng.below(5760) as u16,
        4..=7 => 0,
        _ if c > 0 && graph.len() >= 4 * c => graph
            .num(rng.below(2 * c))
            .wrapping_add(rng.below(3) as u16)
            .wrapping_sub(1),
        _ => rng.below(100) as u16,
    }
}

/// A call of an operation on this state; numbers of new notices are at most `pool`.
pub fn call_of(operation: usize, rng: &mut Rng, x: &State, pool: usize) -> Call {
    let (s, c) = (x.s, x.c);
    match operation {
        CHECK => Call::Check,
        BUILD => Call::Build,
        POST => posting(rng, x, pool),
        WITHDRAW => Call::Withdraw(number(rng, x, 60, pool)),
        ENQUIRE => Call::Enquire(stop(rng, s), stop(rng, s), time(rng, x)),
        WHY => Call::Why(asked(rng, x)),
        _ => {
            let a = ride(rng, c);
            let mut b = ride(rng, c);
            // Mostly connections that meet: one is looked for in the file's own numbers.
            if usize::from(a) < c && rng.chance(70) && x.file.len() >= 9 + 2 * s + 10 * c {
                let field = |r: usize, k: usize| get(x.file.area(), 9 + 2 * s + 10 * r + 2 * k);
                let to = field(a.into(), 2);
                let start = rng.below(c);
                let mut rides = (0..c).map(|i| (i + start) % c);
                if let Some(r) = rides.find(|&r| field(r, 1) == to) {
                    b = r as u16;
                }
            }
            Call::Margin(a, b)
        }
    }
}
