//! Files and areas made wrong, each fault aimed at a refusal. A new fault is a line of FILE_FAULTS
//! or AREA_FAULTS.

use crate::calls::{GRAPH, NOTICES};
use crate::gen::{self, Rng};
use crate::rooms::{get, set, Room, State};

/// A file that is to be made wrong, and the counts of the right one.
struct Target<'a> {
    f: &'a mut Vec<u8>,
    s: usize,
    c: usize,
    /// Where a connection drawn for this fault starts.
    at: usize,
}

type FileFault = fn(Target, &mut Rng);

const FILE_FAULTS: [FileFault; 18] = [
    |x, rng| x.f.truncate(rng.below(10)),
    |x, rng| x.f[rng.below(3)] ^= 1 << rng.below(8),
    |x, rng| set(x.f, 3, rng.pick(&[0, 2, 257, 65535])),
    |x, rng| {
        let s = x.s as u16;
        set(x.f, 5, rng.pick(&[0, 501, s + 1, s - 1, 65535]));
    },
    |x, rng| {
        let c = x.c as u16;
        set(x.f, 7, rng.pick(&[2001, c + 1, c.wrapping_sub(1), 0]));
    },
    |x, rng| x.f.truncate(rng.below(x.f.len() + 1)),
    |x, rng| {
        let n = rng.pick(&[1, 2, 9, 10, 20, 30000]);
        x.f.extend((0..n).map(|_| rng.word() as u8));
    },
    |x, rng| {
        for _ in 0..rng.range(1, 3) {
            let v = rng.pick(&[61, 62, 256, 65535]);
            set(x.f, 9 + 2 * rng.below(x.s), v);
        }
    },
    wrong_stops,
    |x, rng| {
        let step = rng.pick(&[1, 2, 65535, 65534, 1000]);
        add(x, 0, step);
    },
    |x, rng| {
        if x.c > 0 {
            let dep = get(x.f, x.at + 6);
            let v = rng.pick(&[dep, dep.wrapping_sub(1), 4319, 4320, 65535]);
            set(x.f, x.at + 8, v);
        }
    },
    |x, rng| add(x, 6, rng.pick(&[1, 65535, 65526, 10])),
    |x, rng| add(x, 6, rng.pick(&[1, 65535, 65526, 10])),
    |x, rng| {
        if x.c > 0 {
            set(x.f, x.at + 2, rng.below(x.s) as u16);
        }
    },
    |x, rng| {
        if x.c > 1 {
            let to = 9 + 2 * x.s + 10 * rng.below(x.c);
            for k in 0..10 {
                x.f.swap(x.at + k, to + k);
            }
        }
    },
    |x, rng| {
        // Right but for a count above its limit, or right.
        let (s, c) = rng.pick(&[(501, 3), (3, 2001), (501, 2001), (500, 0), (3, 2000)]);
        let style = gen::style(rng);
        *x.f = gen::timetable(rng, s, c, &style);
    },
    |x, rng| {
        let n = rng.pick(&[0, 8, 9, 11, 21, 200]);
        let keep = rng.pick(&[0, 3, 5, 9]).min(n);
        x.f.truncate(keep);
        x.f.extend((keep..n).map(|_| rng.word() as u8));
    },
    |x, rng| {
        let at = 3 + 2 * rng.below((x.f.len() - 3) / 2);
        let v = other(rng, get(x.f, at), x.s, x.c);
        set(x.f, at, v);
    },
];

fn wrong_stops(x: Target, rng: &mut Rng) {
    if x.c == 0 {
        return;
    }
    let s = x.s as u16;
    let (from, to) = (get(x.f, x.at + 2), get(x.f, x.at + 4));
    let k = rng.pick(&[2, 4]);
    set(x.f, x.at + k, rng.pick(&[s, s + 1, 65535, to]));
    if rng.chance(20) {
        set(x.f, x.at + 4, from);
    }
}

/// Adds to a number of the connection.
fn add(x: Target, k: usize, step: u16) {
    if x.c > 0 {
        let v = get(x.f, x.at + k);
        set(x.f, x.at + k, v.wrapping_add(step));
    }
}

/// A right file of so many stops and connections, with one or more faults.
pub fn damaged(rng: &mut Rng, file: &[u8], s: usize, c: usize) -> Vec<u8> {
    let mut f = file.to_vec();
    for _ in 0..rng.pick(&[1, 1, 1, 1, 2, 3]) {
        if f.len() < 9 + 2 * s + 10 * c {
            break;
        }
        let at = 9 + 2 * s + 10 * rng.below(c.max(1));
        let fault = rng.pick(&FILE_FAULTS);
        let f = &mut f;
        fault(Target { f, s, c, at }, rng);
    }
    f
}

type AreaFault = fn(&mut State, &mut Rng);

const AREA_FAULTS: [AreaFault; 15] = [
    wrong_count,
    wrong_row,
    wrong_row,
    exchanged_rows,
    moved_notice,
    |x, rng| any_content(x, rng, NOTICES),
    |x, rng| any_content(x, rng, GRAPH),
    exchanged_entries,
    exchanged_entries,
    wrong_entry,
    wrong_entry,
    wrong_entry,
    wrong_entry,
    reordered,
    reordered,
];

/// An area's content with a fault, where the area is long enough for it.
pub fn damage_area(x: &mut State, rng: &mut Rng) {
    rng.pick(&AREA_FAULTS)(x, rng);
}

/// Another value for a number that is v.
fn other(rng: &mut Rng, v: u16, s: usize, c: usize) -> u16 {
    match rng.below(12) {
        0 => v.wrapping_add(1),
        1 => v.wrapping_sub(1),
        2 => 65535,
        3 => 0,
        4 => v ^ (1 << rng.below(16)),
        5 => rng.word() as u16,
        6 => v.wrapping_add(rng.pick(&[2000, 2048, 4096, 8192])),
        7 => rng.pick(&[s, c, s + 1, c + 1, c.max(1) - 1]) as u16,
        8 => rng.pick(&[2047, 2048, 4319, 4320, 5759, 1440, 1441, 200, 201, 60, 61]),
        9 => rng.below(s) as u16,
        _ => rng.below(c.max(1)) as u16,
    }
}

fn wrong_count(x: &mut State, rng: &mut Rng) {
    let notices = &mut x.areas[NOTICES];
    if notices.len() >= 2 {
        let n = notices.num(0);
        let (more, fewer) = (n.wrapping_add(1), n.wrapping_sub(1));
        notices.set(0, rng.pick(&[more, fewer, 0, 199, 200, 201, 65535]));
    }
}

/// A number of a row in use or not.
fn wrong_row(x: &mut State, rng: &mut Rng) {
    let notices = &mut x.areas[NOTICES];
    if notices.len() < 1202 {
        return;
    }
    let n = usize::from(notices.num(0)).min(200);
    let numbers = if rng.chance(70) { 3 * n + 4 } else { 601 };
    let i = rng.below(numbers).min(600);
    let v = other(rng, notices.num(i), x.s, x.c);
    notices.set(i, v);
}

fn exchanged_rows(x: &mut State, rng: &mut Rng) {
    let notices = &mut x.areas[NOTICES];
    if notices.len() < 1202 {
        return;
    }
    let n = usize::from(notices.num(0)).clamp(1, 199);
    let (i, j) = (rng.below(n), rng.below(n + 1));
    for k in 1..4 {
        let (a, b) = (notices.num(3 * i + k), notices.num(3 * j + k));
        notices.set(3 * i + k, b);
        notices.set(3 * j + k, if rng.chance(10) { b } else { a });
    }
}

/// A notice on the connection of another, and mostly as late: right, but not that of the graph.
fn moved_notice(x: &mut State, rng: &mut Rng) {
    let standing = gen::standing(x);
    if standing == 0 {
        return;
    }
    let (from, to) = (rng.below(standing), rng.below(standing));
    let notices = &mut x.areas[NOTICES];
    notices.set(2 + 3 * to, notices.num(2 + 3 * from));
    if rng.chance(70) {
        notices.set(3 + 3 * to, notices.num(3 + 3 * from));
    }
}

/// Rarely, since it is refused at once mostly.
fn any_content(x: &mut State, rng: &mut Rng, area: usize) {
    if rng.chance(20) {
        x.areas[area] = Room::any(rng, x.areas[area].len());
    } else {
        wrong_entry(x, rng);
    }
}

/// An entry of the graph area, in one of its four parts or after it.
fn entry(x: &State, rng: &mut Rng, start: usize) -> Option<usize> {
    let c = x.c;
    let entries = (4 * c + x.s).min(x.areas[GRAPH].len() / 2);
    let last = entries.checked_sub(1)?;
    Some(rng.range(start.min(last), last))
}

fn part(x: &State, rng: &mut Rng) -> usize {
    rng.pick(&[0, 2 * x.c, 3 * x.c, 4 * x.c])
}

fn exchanged_entries(x: &mut State, rng: &mut Rng) {
    let start = part(x, rng);
    let (Some(i), Some(j)) = (entry(x, rng, start), entry(x, rng, start)) else {
        return;
    };
    let graph = &mut x.areas[GRAPH];
    let (a, b) = (graph.num(i), graph.num(j));
    graph.set(i, b);
    if rng.chance(70) {
        graph.set(j, a);
    }
}

fn wrong_entry(x: &mut State, rng: &mut Rng) {
    let start = part(x, rng);
    if let Some(i) = entry(x, rng, start) {
        let v = other(rng, x.areas[GRAPH].num(i), x.s, x.c);
        x.areas[GRAPH].set(i, v);
    }
}

/// Two neighbours of a stop's list in the other order, of the same minute if there are such,
/// or one that waits for itself outside the list.
fn reordered(x: &mut State, rng: &mut Rng) {
    let (s, c) = (x.s, x.c);
    let g = &mut x.areas[GRAPH];
    if g.len() < 2 * (4 * c + s) {
        return;
    }
    let next = |g: &Room, a: usize| Some(usize::from(g.num(2 * c + a))).filter(|&b| b < c);
    let start = rng.below(c.max(1));
    let mut pairs = (0..c)
        .map(|i| (i + start) % c)
        .filter_map(|a| next(g, a).map(|b| (a, b)));
    let tied = pairs.clone().find(|&(a, b)| g.num(2 * a) == g.num(2 * b));
    let Some((a, b)) = tied.filter(|_| rng.chance(80)).or_else(|| pairs.next()) else {
        return;
    };
    let after = g.num(2 * c + b);
    let before = (2 * c..3 * c)
        .chain(4 * c..4 * c + s)
        .find(|&i| g.num(i) == a as u16);
    if let Some(i) = before {
        g.set(i, b as u16);
    }
    if rng.chance(50) {
        g.set(2 * c + b, a as u16);
        g.set(2 * c + a, after);
    } else {
        g.set(2 * c + a, a as u16);
    }
    if rng.chance(70) {
        for i in 3 * c..4 * c {
            if g.num(i) == a as u16 {
                g.set(i, b as u16);
            }
        }
    }
}

/// Values that a number of an area gets in turn, each wrong or right by chance.
pub fn values(v: u16, c: usize) -> Vec<u16> {
    let mut values: Vec<u16> = (0..=c as u16 + 1).collect();
    values.extend([2046, 2047, 2048, 2049, 4095, 4096, 65534, 65535]);
    values.extend([200, 201, 1440, 1441]);
    values.extend([1, 2, 3, 2000, 2048, 4096, 8192, 16384, 32768].map(|k| v.wrapping_add(k)));
    values.push(v.wrapping_sub(1));
    values.retain(|&w| w != v);
    values
}
