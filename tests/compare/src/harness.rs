//! Makes the same calls on several sides and compares what they answer and leave, byte for byte.

use crate::calls::{Call, Conversion, Side, BUILD, CHECK, ENQUIRE, GRAPH, MARGIN, NOTICES};
use crate::calls::{Operation, AREAS, MOST_REFUSAL, OPERATIONS, POST, WHY, WITHDRAW};
use crate::damage::{damage_area, damaged, values};
use crate::feed::{self, HEADER};
use crate::gen::{self, call_of, Rng, Style};
use crate::rooms::{change_length, get, set_length, Exchange, Memory, Room, State};

/// Which timetables are drawn.
#[derive(Clone, Copy)]
pub enum Sizes {
    /// Few stops, at most so many connections, close together.
    Small(usize),
    /// Any counts, at most so many connections.
    Any(usize),
}

impl Sizes {
    /// Stops and connections, and how the trips look.
    fn draw(self, rng: &mut Rng) -> ((usize, usize), Style) {
        match self {
            Sizes::Small(most) => (gen::small_sizes(rng, most), gen::small_style(rng)),
            Sizes::Any(most) => (gen::sizes(rng, most), gen::style(rng)),
        }
    }
}

/// Compares each side with the last one, which counts as right.
pub struct Tester {
    sides: Vec<&'static Side>,
    pub passed: u64,
    pub failed: u64,
    /// The first mismatches.
    pub notes: Vec<String>,
    /// How often each operation gave each answer number, by the last side.
    pub seen: [[u64; MOST_REFUSAL + 1]; OPERATIONS.len()],
    /// How often `why` of a run had nothing to tell, one notice, a largest delay of several, and
    /// several with the largest delay.
    pub told: [u64; 4],
    scene: String,
}

impl Tester {
    pub fn new(sides: &[&'static Side]) -> Tester {
        Tester {
            sides: sides.to_vec(),
            passed: 0,
            failed: 0,
            notes: Vec::new(),
            seen: [[0; MOST_REFUSAL + 1]; OPERATIONS.len()],
            told: [0; 4],
            scene: String::new(),
        }
    }

    /// Makes a call on each side from one state, which becomes what the last side leaves, and tells
    /// that one's answer.
    fn step<M: Memory>(&mut self, state: &mut M, call: M::Call) -> i64 {
        let (right, others) = self.sides.split_last().expect("a side");
        let mut after = state.clone();
        let answer = after.apply(right, call);
        let operation = M::operation(call);
        self.seen[operation][(answer & 65535) as usize] += 1;
        for side in others {
            let mut x = state.clone();
            let y = x.apply(side, call);
            let change = x.difference(&after);
            if y == answer && change.is_none() {
                self.passed += 1;
                continue;
            }
            self.failed += 1;
            if self.notes.len() < 10 {
                let place = change.map_or(String::new(), |(name, at)| {
                    format!("; {name} differs at byte {at}")
                });
                self.notes.push(format!(
                    "{} {} {:?}: {} {}, {} {}{}",
                    self.scene,
                    state.sizes(),
                    call,
                    side.name,
                    shown(y),
                    right.name,
                    shown(answer),
                    place,
                ));
            }
        }
        let Operation { name, writes, .. } = OPERATIONS[operation];
        if !writes {
            let kept = after.difference(state).is_none();
            self.hold(kept, &format!("{name} wrote"));
        }
        *state = after;
        answer
    }

    /// Counts, as a test, what must hold of an answer whatever the sides agree on.
    fn hold(&mut self, holds: bool, what: &str) {
        if holds {
            self.passed += 1;
            return;
        }
        self.failed += 1;
        if self.notes.len() < 10 {
            self.notes.push(format!("{}: {what}", self.scene));
        }
    }

    /// One timetable: building, a run, and calls with damaged input between those of the run.
    pub fn round(&mut self, seed: u64, sizes: Sizes) {
        let rng = &mut Rng(seed);
        let ((s, c), style) = sizes.draw(rng);
        let file = gen::timetable(rng, s, c, &style);
        let mut state = State::new(rng, &file, s, c);
        self.scene = format!("seed {seed} run");
        self.step(&mut state, Call::Check);
        // Before building the areas hold anything.
        for operation in [POST, WITHDRAW, ENQUIRE, MARGIN, WHY] {
            let call = call_of(operation, rng, &state, 100);
            self.step(&mut state, call);
        }
        self.step(&mut state, Call::Build);
        let pool = rng.pick(&[4, 40, 300, 65535]);
        let full = rng.chance(10);
        let steps = if full { 260 } else { rng.range(10, 80) };
        for i in 0..steps {
            let call = if full && i < 200 {
                let (ride, delay) = gen::late(rng, &state);
                Call::Post((1 + i * 7919 % 65521) as u16, ride, delay)
            } else {
                let operation = if full && i < 230 {
                    POST // with 200 standing
                } else {
                    rng.pick(&[
                        POST, POST, POST, WITHDRAW, WITHDRAW, ENQUIRE, ENQUIRE, MARGIN,
                    ])
                };
                call_of(operation, rng, &state, if full { 65535 } else { pool })
            };
            self.step(&mut state, call);
            if rng.chance(if full && i < 200 { 3 } else { 30 }) {
                self.whys(&mut state, rng);
            }
            if rng.chance(30) {
                self.probe(&state, rng, seed);
            }
        }
        if c <= 12 && rng.chance(10) {
            self.every_number(&state, rng, seed);
            self.every_length(&state, rng, seed);
        }
        self.step(&mut state, Call::Build);
    }

    /// Why of each connection, or where they are many of some, mostly such that have notices; and of
    /// two past the last.
    fn whys(&mut self, state: &mut State, rng: &mut Rng) {
        let c = state.c as u16;
        let mut rides: Vec<u16> = match c {
            ..=12 => (0..c).collect(),
            _ => (0..12).map(|_| gen::asked(rng, state)).collect(),
        };
        rides.extend([c, 65535]);
        for ride in rides {
            let answer = self.step(state, Call::Why(ride));
            if answer & 65535 == 0 {
                self.told[causes(state, ride)] += 1;
            }
        }
    }

    /// Each operation on a copy of the state with damaged input.
    fn probe(&mut self, state: &State, rng: &mut Rng, seed: u64) {
        let mut x = state.clone();
        let what = match rng.below(6) {
            0 | 1 => {
                let file = damaged(rng, x.file.area(), x.s, x.c);
                x.file = Room::new(rng, &file);
                if rng.chance(20) {
                    damage_area(&mut x, rng);
                }
                "file damaged"
            }
            2 => {
                for _ in 0..rng.pick(&[1, 1, 1, 2, 3]) {
                    change_length(&mut x, rng);
                }
                if rng.chance(20) {
                    damage_area(&mut x, rng);
                }
                "lengths"
            }
            _ => {
                for _ in 0..rng.pick(&[1, 1, 1, 2, 5]) {
                    damage_area(&mut x, rng);
                }
                "area damaged"
            }
        };
        let old = std::mem::replace(&mut self.scene, format!("seed {seed} {what}"));
        for operation in [CHECK, POST, WITHDRAW, ENQUIRE, MARGIN, WHY, BUILD] {
            let call = call_of(operation, rng, &x, 65535);
            self.step(&mut x, call);
        }
        self.scene = old;
    }

    /// Each number of notice and graph area changed alone, to many values.
    fn every_number(&mut self, state: &State, rng: &mut Rng, seed: u64) {
        let old = std::mem::replace(&mut self.scene, format!("seed {seed} one number"));
        for area in [NOTICES, GRAPH] {
            let numbers = (AREAS[area].needs)(state.s, state.c);
            for i in 0..numbers {
                // Rows in the middle are much alike.
                let middle = area == NOTICES && (25..595).contains(&i);
                if middle && !rng.chance(3) {
                    continue;
                }
                for value in values(state.areas[area].num(i), state.c) {
                    let mut x = state.clone();
                    x.areas[area].set(i, value);
                    let call = call_of(rng.range(POST, WHY), rng, &x, 40);
                    self.step(&mut x, call);
                }
            }
        }
        self.scene = old;
    }

    /// Each operation with each area alone of each length near 0 and near the needed one.
    fn every_length(&mut self, state: &State, rng: &mut Rng, seed: u64) {
        let old = std::mem::replace(&mut self.scene, format!("seed {seed} one length"));
        for (which, area) in AREAS.iter().enumerate() {
            let needed = 2 * (area.needs)(state.s, state.c);
            let near = needed.saturating_sub(4).max(4)..=needed + 4;
            for len in (0..4).chain(near) {
                for operation in [POST, WITHDRAW, ENQUIRE, MARGIN, WHY, BUILD] {
                    let mut x = state.clone();
                    set_length(&mut x, rng, which, len);
                    let call = call_of(operation, rng, &x, 40);
                    self.step(&mut x, call);
                }
            }
        }
        self.scene = old;
    }

    /// One timetable, at times with counts past the limits: its export, the import of that, and
    /// imports of other texts of it, right and wrong.
    pub fn conversions(&mut self, seed: u64, sizes: Sizes) {
        // Other numbers than those of the seed's round.
        let rng = &mut Rng(!seed);
        let ((mut s, mut c), mut style) = sizes.draw(rng);
        match rng.below(200) {
            0..8 => (s, c) = rng.pick(&[(500, 0), (500, 2000), (501, 3), (3, 2001), (501, 2001)]),
            // A count past 16 bits, but no trip number.
            8 => ((s, c), style) = ((3, rng.range(65_534, 65_538)), gen::day()),
            _ => {}
        }
        let refusal = if s > 500 {
            4
        } else if c > 2000 {
            5
        } else {
            0
        };
        self.scene = format!("seed {seed} S={s} C={c}");
        let file = gen::timetable(rng, s, c, &style);
        if refusal == 0 {
            self.there_and_back(rng, &file);
        }
        let text = feed::right_text(rng, &file);
        let change = feed::change(rng, &file, false);
        let (answer, made) = self.imported(rng, &text, &change, file.len());
        let right = answer & 65535 == refusal && (refusal != 0 || made == file);
        self.hold(right, "a right text does not give its file");
        // Few where the text is long.
        let (texts, files) = match c {
            ..=2000 => (rng.range(10, 40), 6),
            _ => (2, 0),
        };
        for _ in 0..texts {
            let text = if rng.chance(10) {
                feed::right_text(rng, &file)
            } else {
                feed::wrong_text(rng, &file)
            };
            let wrong = rng.chance(20);
            let change = feed::change(rng, &file, wrong);
            let near = [0, file.len() - 1, file.len(), file.len() + 1];
            let len = if rng.chance(20) {
                rng.pick(&near)
            } else {
                file.len() + 1100
            };
            let (answer, made) = self.imported(rng, &text, &change, len);
            if answer & 65535 == 0 {
                self.there_and_back(rng, &made);
            }
        }
        for _ in 0..files {
            let file = damaged(rng, &file, s, c);
            let len = rng.pick(&[0, HEADER.len(), room_for_text(c)]);
            self.exported(rng, &file, len);
        }
    }

    /// The export of an accepted file, and the import of that, which gives the file again, each with a
    /// room that is too short, fits, or is longer.
    fn there_and_back(&mut self, rng: &mut Rng, file: &[u8]) {
        let s = usize::from(get(file, 5));
        let change = &file[9..9 + 2 * s];
        let (answer, text) = self.exported(rng, file, room_for_text(file.len() / 10));
        self.hold(answer & 65535 == 0, "an accepted file is not exported");
        if answer & 65535 != 0 {
            return;
        }
        for (more, refusal) in [(0, 32), (1, 0), (2, 0)] {
            let (answer, again) = self.exported(rng, file, text.len() + more - 1);
            let right = answer & 65535 == refusal && (refusal != 0 || again == text);
            self.hold(right, "an export by the room it has");
            let (answer, again) = self.imported(rng, &text, change, file.len() + more - 1);
            let right = answer & 65535 == refusal && (refusal != 0 || again == file);
            self.hold(right, "an export does not give its file again");
        }
    }

    /// An import into a room of this length: the answer, and the bytes written.
    fn imported(
        &mut self,
        rng: &mut Rng,
        text: &[u8],
        change: &[u8],
        len: usize,
    ) -> (i64, Vec<u8>) {
        let mut x = Exchange {
            text: Room::new(rng, text),
            change: Room::new(rng, change),
            file: Room::any(rng, len),
        };
        let answer = self.step(&mut x, Conversion::Import);
        (answer, written(answer, &x.file))
    }

    /// An export into a room of this length: the answer, and the bytes written.
    fn exported(&mut self, rng: &mut Rng, file: &[u8], len: usize) -> (i64, Vec<u8>) {
        let mut x = Exchange {
            text: Room::any(rng, len),
            change: Room::any(rng, 0),
            file: Room::new(rng, file),
        };
        let answer = self.step(&mut x, Conversion::Export);
        (answer, written(answer, &x.text))
    }

    /// Counts, as a test each, that every operation accepted and gave each of its refusals; what it
    /// never gave, or gave without having it, is a failure.
    pub fn count_answers(&mut self) {
        for (operation, seen) in OPERATIONS.iter().zip(&self.seen) {
            for (number, &times) in seen.iter().enumerate() {
                let has = number == 0 || operation.refusals.concat().contains(&number);
                if has && times > 0 {
                    self.passed += 1;
                } else if has || times > 0 {
                    self.failed += 1;
                    self.notes
                        .push(format!("{} gave {number} {times} times", operation.name));
                }
            }
        }
    }

    /// A line for each operation: number:times, 0 for accepted.
    pub fn answers(&self) -> Vec<String> {
        let line = |(operation, seen): (usize, &[u64; MOST_REFUSAL + 1])| {
            let list = seen.iter().enumerate().filter(|(_, times)| **times > 0);
            let list: Vec<String> = list.map(|(n, times)| format!("{n}:{times}")).collect();
            format!("{:8} {}", OPERATIONS[operation].name, list.join(" "))
        };
        self.seen.iter().enumerate().map(line).collect()
    }
}

/// The place in `told` of a connection, by the notices that stand.
fn causes(x: &State, ride: u16) -> usize {
    let notices = &x.areas[NOTICES];
    let rows = (0..gen::standing(x)).filter(|row| notices.num(2 + 3 * row) == ride);
    let delays: Vec<u16> = rows.map(|row| notices.num(3 + 3 * row)).collect();
    let largest = delays.iter().max();
    match delays.len() {
        0 | 1 => delays.len(),
        _ if delays.iter().filter(|d| Some(*d) == largest).count() == 1 => 2,
        _ => 3,
    }
}

/// At least as many bytes as the text of so many connections has.
fn room_for_text(c: usize) -> usize {
    HEADER.len() + 64 * c
}

/// The bytes that an accepted conversion says it has written.
fn written(answer: i64, room: &Room) -> Vec<u8> {
    let bytes = match answer & 65535 {
        0 => answer >> 16,
        _ => 0,
    };
    let area = room.area();
    area[..area.len().min(bytes as usize)].to_vec()
}

fn shown(answer: i64) -> String {
    match answer & 65535 {
        0 => format!("accepted {} / {}", answer >> 32, (answer >> 16) & 65535),
        n => format!("refused {n} at {}", answer >> 16),
    }
}
