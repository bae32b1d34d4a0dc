//! What a call is: its operation, what it is lent, and which refusals it can get. A new operation,
//! input, area or refusal starts here: `Call`, `Conversion`, `AREAS` and `OPERATIONS` are what the
//! compiler and a run of `compare` go by (see README.md).

pub const NOTICES: usize = 0;
pub const GRAPH: usize = 1;
pub const WORK: usize = 2;
pub const JOURNEY: usize = 3;

/// An area that the caller lends.
pub struct Area {
    pub name: &'static str,
    /// How many numbers it needs for so many stops and connections.
    pub needs: fn(usize, usize) -> usize,
}

pub const AREAS: [Area; 4] = [
    Area {
        name: "notices",
        needs: |_, _| 601,
    },
    Area {
        name: "graph",
        needs: |s, c| 4 * c + s,
    },
    Area {
        name: "work",
        needs: |_, c| c,
    },
    Area {
        name: "journey",
        needs: |_, c| c,
    },
];

/// The bytes of each area.
pub type Lent<'a> = [&'a mut [u8]; AREAS.len()];

/// An operation on a timetable file and the areas, with its own numbers.
#[derive(Clone, Copy, Debug)]
pub enum Call {
    Check,
    Build,
    /// Number, connection, delay.
    Post(u16, u16, u16),
    Withdraw(u16),
    /// From, to, time.
    Enquire(u16, u16, u16),
    /// Two connections.
    Margin(u16, u16),
    /// A connection.
    Why(u16),
}

/// An operation between stop_times.txt and a timetable file.
#[derive(Clone, Copy, Debug)]
pub enum Conversion {
    Import,
    Export,
}

pub const CHECK: usize = 0;
pub const BUILD: usize = 1;
pub const POST: usize = 2;
pub const WITHDRAW: usize = 3;
pub const ENQUIRE: usize = 4;
pub const MARGIN: usize = 5;
pub const WHY: usize = 6;
pub const IMPORT: usize = 7;
pub const EXPORT: usize = 8;

pub struct Operation {
    pub name: &'static str,
    /// Whether an accepted call may write.
    pub writes: bool,
    /// Each refusal that some call of it gets.
    pub refusals: &'static [&'static [usize]],
}

const FILE: &[usize] = &[1, 2, 3, 4, 5, 6, 7, 8, 9, 10, 11];
const ROOM: &[usize] = &[21, 22];
const CONTENTS: &[usize] = &[23, 24];

pub const OPERATIONS: [Operation; 9] = [
    Operation {
        name: "check",
        writes: false,
        refusals: &[FILE],
    },
    Operation {
        name: "build",
        writes: true,
        refusals: &[FILE, ROOM],
    },
    Operation {
        name: "post",
        writes: true,
        refusals: &[FILE, ROOM, CONTENTS, &[12, 13, 14, 25, 26]],
    },
    Operation {
        name: "withdraw",
        writes: true,
        refusals: &[FILE, ROOM, CONTENTS, &[12, 27]],
    },
    Operation {
        name: "enquire",
        writes: true,
        refusals: &[FILE, ROOM, CONTENTS, &[15, 16, 28, 29, 30]],
    },
    Operation {
        name: "margin",
        writes: false,
        refusals: &[FILE, ROOM, CONTENTS, &[13, 17]],
    },
    Operation {
        name: "why",
        writes: false,
        refusals: &[FILE, &[21, 23, 13]],
    },
    Operation {
        name: "import",
        writes: true,
        refusals: &[&[31, 4, 5, 7, 8, 10, 11, 32]],
    },
    Operation {
        name: "export",
        writes: true,
        refusals: &[FILE, &[32]],
    },
];

/// The highest number of a refusal.
pub const MOST_REFUSAL: usize = 32;

impl Call {
    /// Its place in OPERATIONS.
    pub fn operation(self) -> usize {
        match self {
            Call::Check => CHECK,
            Call::Build => BUILD,
            Call::Post(..) => POST,
            Call::Withdraw(..) => WITHDRAW,
            Call::Enquire(..) => ENQUIRE,
            Call::Margin(..) => MARGIN,
            Call::Why(..) => WHY,
        }
    }
}

impl Conversion {
    /// Its place in OPERATIONS.
    pub fn operation(self) -> usize {
        match self {
            Conversion::Import => IMPORT,
            Conversion::Export => EXPORT,
        }
    }
}

/// An implementation. Each function answers number + 65536 * value, number 0 for accepted.
pub struct Side {
    pub name: &'static str,
    /// A call on a timetable file and the areas.
    pub call: fn(&[u8], Lent, Call) -> i64,
    /// Text and change minutes, and the room for the file.
    pub import: fn(&[u8], &[u8], &mut [u8]) -> i64,
    /// The file, and the room for the text.
    pub export: fn(&[u8], &mut [u8]) -> i64,
}
