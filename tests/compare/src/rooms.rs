//! The memory that calls work on: the file, the areas and the text, each at any address with bytes
//! around it that nobody may change.

use crate::calls::{Call, Conversion, Side, AREAS};
use crate::gen::Rng;
use std::fmt::Debug;

/// Bytes of an area, and bytes before and after it.
#[derive(Clone, PartialEq)]
pub struct Room {
    bytes: Vec<u8>,
    start: usize,
    len: usize,
}

impl Room {
    pub fn new(rng: &mut Rng, content: &[u8]) -> Room {
        let start = rng.range(16, 24);
        let mut bytes: Vec<u8> = (0..start).map(|_| rng.word() as u8).collect();
        bytes.extend(content);
        bytes.extend((0..16).map(|_| rng.word() as u8));
        Room {
            bytes,
            start,
            len: content.len(),
        }
    }

    /// An area of this length with any content.
    pub fn any(rng: &mut Rng, len: usize) -> Room {
        let content: Vec<u8> = (0..len).map(|_| rng.word() as u8).collect();
        Room::new(rng, &content)
    }

    /// Its length in bytes.
    pub fn len(&self) -> usize {
        self.len
    }

    pub fn is_empty(&self) -> bool {
        self.len == 0
    }

    pub fn area(&self) -> &[u8] {
        &self.bytes[self.start..self.start + self.len]
    }

    pub fn area_mut(&mut self) -> &mut [u8] {
        &mut self.bytes[self.start..self.start + self.len]
    }

    /// The number at place i.
    pub fn num(&self, i: usize) -> u16 {
        get(self.area(), 2 * i)
    }

    pub fn set(&mut self, i: usize, v: u16) {
        set(self.area_mut(), 2 * i, v);
    }

    /// The first byte that differs, counted from the area's start.
    fn difference(&self, other: &Room) -> Option<isize> {
        let at = self
            .bytes
            .iter()
            .zip(&other.bytes)
            .position(|(a, b)| a != b);
        at.map(|at| at as isize - self.start as isize)
    }
}

/// The number whose low byte is at this place.
pub fn get(bytes: &[u8], at: usize) -> u16 {
    u16::from_le_bytes([bytes[at], bytes[at + 1]])
}

pub fn set(bytes: &mut [u8], at: usize, v: u16) {
    bytes[at..at + 2].copy_from_slice(&v.to_le_bytes());
}

/// What calls of a kind work on.
pub trait Memory: Clone {
    type Call: Copy + Debug;

    fn apply(&mut self, side: &Side, call: Self::Call) -> i64;

    /// The place of a call's operation in OPERATIONS.
    fn operation(call: Self::Call) -> usize;

    /// Name and first differing byte of the first room that differs.
    fn difference(&self, other: &Self) -> Option<(&'static str, isize)>;

    /// Its sizes.
    fn sizes(&self) -> String;
}

/// The file and the areas, and the counts of the timetable that they were made for.
#[derive(Clone, PartialEq)]
pub struct State {
    pub file: Room,
    pub areas: [Room; AREAS.len()],
    pub s: usize,
    pub c: usize,
}

impl State {
    /// Areas of the needed length or longer, with any content.
    pub fn new(rng: &mut Rng, file: &[u8], s: usize, c: usize) -> State {
        State {
            file: Room::new(rng, file),
            areas: AREAS.map(|area| {
                let more = rng.pick(&[0, 0, 0, 1, 2, 3, 7, 40]);
                Room::any(rng, 2 * (area.needs)(s, c) + more)
            }),
            s,
            c,
        }
    }
}

impl Memory for State {
    type Call = Call;

    fn apply(&mut self, side: &Side, call: Call) -> i64 {
        let areas = self.areas.each_mut().map(Room::area_mut);
        (side.call)(self.file.area(), areas, call)
    }

    fn operation(call: Call) -> usize {
        call.operation()
    }

    fn difference(&self, other: &State) -> Option<(&'static str, isize)> {
        if let Some(at) = self.file.difference(&other.file) {
            return Some(("file", at));
        }
        let mut rooms = AREAS.iter().zip(self.areas.iter().zip(&other.areas));
        rooms.find_map(|(area, (a, b))| a.difference(b).map(|at| (area.name, at)))
    }

    fn sizes(&self) -> String {
        format!("S={} C={}", self.s, self.c)
    }
}

/// What conversions work on. An import reads text and change minutes and writes the file, an export
/// reads the file and writes the text.
#[derive(Clone, PartialEq)]
pub struct Exchange {
    pub text: Room,
    pub change: Room,
    pub file: Room,
}

impl Exchange {
    fn rooms(&self) -> [(&'static str, &Room); 3] {
        [
            ("text", &self.text),
            ("change", &self.change),
            ("file", &self.file),
        ]
    }
}

impl Memory for Exchange {
    type Call = Conversion;

    fn apply(&mut self, side: &Side, conversion: Conversion) -> i64 {
        let (text, file) = (&mut self.text, &mut self.file);
        match conversion {
            Conversion::Import => (side.import)(text.area(), self.change.area(), file.area_mut()),
            Conversion::Export => (side.export)(file.area(), text.area_mut()),
        }
    }

    fn operation(conversion: Conversion) -> usize {
        conversion.operation()
    }

    fn difference(&self, other: &Exchange) -> Option<(&'static str, isize)> {
        let mut rooms = self.rooms().into_iter().zip(other.rooms());
        rooms.find_map(|((name, a), (_, b))| a.difference(b).map(|at| (name, at)))
    }

    fn sizes(&self) -> String {
        let lengths = self
            .rooms()
            .map(|(name, room)| format!("{name} {}", room.len()));
        lengths.join(" ")
    }
}

/// An area with this length: cut off, or with more bytes.
pub fn set_length(x: &mut State, rng: &mut Rng, which: usize, len: usize) {
    let mut content = x.areas[which].area().to_vec();
    content.resize(len, 0xa5);
    x.areas[which] = Room::new(rng, &content);
}

/// An area with another length: near the needed one mostly.
pub fn change_length(x: &mut State, rng: &mut Rng) {
    let which = rng.below(AREAS.len());
    let needed = 2 * (AREAS[which].needs)(x.s, x.c);
    let len = match rng.below(6) {
        0 => rng.below(needed + 1),
        1 => 0,
        2 => rng.below(4),
        3 => needed + rng.below(5),
        _ => (needed + 2).saturating_sub(rng.below(6)),
    };
    set_length(x, rng, which, len);
}
