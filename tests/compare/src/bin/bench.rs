//! bench [SAMPLES]: microseconds of the library and of the fast implementation, interleaved: calls
//! with one timetable, then with sixteen in turn; the same with all departures in one minute.
//! bench one SHAPE OP C NOTICES SIDE REPEATS: one operation alone, for instruction counts; the
//! difference of two repeat counts is the cost of the repeats between. OP `correct` is a posting of a
//! number that stands. Before each posting or withdrawal both areas are copied back; OP `restore` is
//! that copying alone. SHAPE is `day` or `dense`, SIDE `library` or `rust`.
//! bench operations: their names.

use compare::calls::{Call, Conversion, Side, BUILD, CHECK, ENQUIRE, EXPORT, IMPORT, MARGIN};
use compare::calls::{OPERATIONS, POST, WHY, WITHDRAW};
use compare::gen::{day, dense, timetable, Rng, Style};
use compare::sides::{FAST, LIBRARY};
use std::hint::black_box;
use std::process::ExitCode;
use std::time::Instant;

const SIZES: [usize; 5] = [125, 250, 500, 1000, 2000];
const STANDING: [usize; 3] = [0, 3, 200];
/// Connections where all leave in one minute.
const DENSE_SIZE: usize = 2000;
/// Calls of each operation in a sample with one timetable.
const REPEATS: [usize; OPERATIONS.len()] = [4, 2, 1, 1, 2, 2, 4, 1, 1];
/// The number that is posted and withdrawn; it sorts into the middle of the others.
const NUMBER: u16 = 30_000;
/// Bytes of the longest export.
const LONGEST_TEXT: usize = 113_838;
/// How many timetables are called in turn.
const TIMETABLES: usize = 16;

/// What kind of timetable is measured.
struct Shape {
    name: &'static str,
    style: fn() -> Style,
    /// Enquiries are from 05:00 to this minute.
    latest: usize,
}

static DAY: Shape = Shape {
    name: "day",
    style: day,
    latest: 720,
};

static DENSE: Shape = Shape {
    name: "dense",
    style: dense,
    latest: 600,
};

#[derive(Clone)]
struct Areas {
    notices: Vec<u8>,
    graph: Vec<u8>,
    work: Vec<u8>,
    journey: Vec<u8>,
}

impl Areas {
    fn call(&mut self, side: &Side, file: &[u8], call: Call) -> i64 {
        let areas = [
            &mut self.notices[..],
            &mut self.graph,
            &mut self.work,
            &mut self.journey,
        ];
        (side.call)(file, areas, call)
    }
}

/// What is measured.
#[derive(Clone, Copy)]
enum Task {
    Call(Call),
    Convert(Conversion),
}

/// A timetable and the areas that calls with it work on.
#[derive(Clone)]
struct Setup {
    shape: &'static Shape,
    file: Vec<u8>,
    s: usize,
    c: usize,
    /// Its text, as exported, which is imported.
    text: Vec<u8>,
    /// What the conversions write, just fitting.
    imported: Vec<u8>,
    exported: Vec<u8>,
    /// Built anew.
    fresh: Areas,
    /// Posted to and withdrawn from: as `full`, but 199 notices in place of 200.
    base: Areas,
    /// With so many notices standing; for the other operations.
    full: Areas,
}

impl Setup {
    fn new(shape: &'static Shape, c: usize, standing: usize, seed: u64) -> Setup {
        let s = (c / 8).max(2);
        let mut rng = Rng(seed);
        let file = timetable(&mut rng, s, c, &(shape.style)());
        let mut full = Areas {
            notices: vec![0; 1202],
            graph: vec![0; 8 * c + 2 * s],
            work: vec![0; 2 * c],
            journey: vec![0; 2 * c],
        };
        full.call(&FAST, &file, Call::Build);
        let fresh = full.clone();
        let mut base = full.clone();
        for i in 0..standing {
            let number = (1 + i * 7919 % 60_013) as u16;
            let (ride, delay) = (rng.below(c) as u16, rng.range(1, 60) as u16);
            let answer = full.call(&FAST, &file, Call::Post(number, ride, delay));
            assert_eq!(answer, 65536 * i64::from(number));
            if i < 199 {
                base = full.clone();
            }
        }
        let mut text = vec![0; LONGEST_TEXT];
        let answer = (FAST.export)(&file, &mut text);
        assert_eq!(answer % 65536, 0);
        text.truncate((answer / 65536) as usize);
        Setup {
            shape,
            imported: vec![0; file.len()],
            exported: vec![0; text.len()],
            file,
            s,
            c,
            text,
            fresh,
            base,
            full,
        }
    }

    /// The timetable that is measured alone.
    fn alone(shape: &'static Shape, c: usize, standing: usize) -> Setup {
        Setup::new(shape, c, standing, c as u64)
    }

    fn posting(&self, rng: &mut Rng) -> Call {
        Call::Post(NUMBER, rng.below(self.c) as u16, rng.range(1, 360) as u16)
    }

    /// A task of the operation that OPERATIONS has at this place. An enquiry is between any two stops.
    fn draw(&self, op: usize, rng: &mut Rng) -> Task {
        Task::Call(match op {
            CHECK => Call::Check,
            BUILD => Call::Build,
            POST => self.posting(rng),
            WITHDRAW => Call::Withdraw(NUMBER),
            ENQUIRE => {
                let from = rng.below(self.s);
                let to = (from + rng.range(1, self.s - 1)) % self.s;
                Call::Enquire(
                    from as u16,
                    to as u16,
                    rng.range(300, self.shape.latest) as u16,
                )
            }
            MARGIN => {
                let ride = rng.below(self.c) as u16;
                Call::Margin(ride, ride / 2)
            }
            WHY => Call::Why(rng.below(self.c) as u16),
            IMPORT => return Task::Convert(Conversion::Import),
            EXPORT => return Task::Convert(Conversion::Export),
            _ => unreachable!("a place of OPERATIONS"),
        })
    }

    fn run(&mut self, side: &Side, task: Task) {
        match task {
            Task::Call(call) => self.call(side, call),
            Task::Convert(conversion) => self.convert(side, conversion),
        }
    }

    /// Makes a conversion. An import gets the change minutes as the file has them.
    fn convert(&mut self, side: &Side, conversion: Conversion) {
        let (answer, made) = match conversion {
            Conversion::Import => {
                let change = &self.file[9..9 + 2 * self.s];
                let answer = (side.import)(&self.text, change, &mut self.imported);
                (answer, &self.imported)
            }
            Conversion::Export => {
                let answer = (side.export)(&self.file, &mut self.exported);
                (answer, &self.exported)
            }
        };
        assert_eq!(black_box(answer), 65536 * made.len() as i64);
        black_box(made);
    }

    /// Makes a call on its areas.
    fn call(&mut self, side: &Side, call: Call) {
        let areas = match call {
            Call::Build => &mut self.fresh,
            Call::Post(..) | Call::Withdraw(..) => &mut self.base,
            Call::Check | Call::Enquire(..) | Call::Margin(..) | Call::Why(..) => &mut self.full,
        };
        let answer = black_box(areas.call(side, &self.file, call));
        if let Call::Post(number, ..) | Call::Withdraw(number) = call {
            assert_eq!(answer, 65536 * i64::from(number));
        }
    }
}

fn median(mut v: Vec<f64>) -> f64 {
    v.sort_by(f64::total_cmp);
    v[v.len() / 2]
}

/// By operation, of the library and of the fast implementation.
type Medians = [[f64; 2]; OPERATIONS.len()];

/// A sample of an operation is the mean of a call with each timetable in turn, repeated. A posting
/// and a withdrawal take turns with the areas, so neither is repeated.
fn measure(timetables: &[Setup], repeats: [usize; OPERATIONS.len()], samples: usize) -> Medians {
    let mut sides = [
        (&LIBRARY, timetables.to_vec()),
        (&FAST, timetables.to_vec()),
    ];
    let mut all: [[Vec<f64>; 2]; OPERATIONS.len()] = Default::default();
    let mut rng = Rng(99);
    for i in 0..samples {
        let tasks: [Vec<Task>; OPERATIONS.len()] =
            std::array::from_fn(|op| timetables.iter().map(|t| t.draw(op, &mut rng)).collect());
        for k in [i % 2, 1 - i % 2] {
            let (side, setups) = &mut sides[k];
            for op in 0..OPERATIONS.len() {
                let start = Instant::now();
                for _ in 0..repeats[op] {
                    for (x, task) in setups.iter_mut().zip(&tasks[op]) {
                        x.run(side, *task);
                    }
                }
                let count = repeats[op] * setups.len();
                all[op][k].push(start.elapsed().as_secs_f64() * 1e6 / count as f64);
            }
        }
    }
    all.map(|sides| sides.map(median))
}

fn print_head() {
    println!(
        "{:>5} {:>7}  {:8} {:>9} {:>9} {:>7}",
        "C", "notices", "", "library", "rust", "ratio"
    );
}

fn print_rows(c: usize, standing: usize, medians: &Medians) {
    for (operation, [a, b]) in OPERATIONS.iter().zip(medians) {
        let (name, ratio) = (operation.name, a / b);
        println!("{c:5} {standing:7}  {name:8} {a:9.2} {b:9.2} {ratio:7.2}");
    }
}

fn alone(samples: usize) {
    println!("microseconds, median of {samples}; ratio is library / rust");
    println!("200 notices: posting the 200th and withdrawing it; else one more than stand");
    print_head();
    let mut results = Vec::new();
    for c in SIZES {
        for n in STANDING {
            let m = measure(&[Setup::alone(&DAY, c, n)], REPEATS, samples);
            print_rows(c, n, &m);
            results.push((c, n, m));
        }
    }
    println!();
    println!("growth from C = 1000 to 2000");
    println!("{:>7}  {:8} {:>9} {:>9}", "notices", "", "library", "rust");
    for n in STANDING {
        let of = |c: usize| results.iter().find(|r| r.0 == c && r.1 == n).map(|r| r.2);
        if let (Some(a), Some(b)) = (of(1000), of(2000)) {
            for (op, operation) in OPERATIONS.iter().enumerate() {
                let g = |k: usize| b[op][k] / a[op][k];
                println!("{n:7}  {:8} {:9.2} {:9.2}", operation.name, g(0), g(1));
            }
        }
    }
}

fn timetables_in_turn(shape: &'static Shape, c: usize, standing: usize, samples: usize) {
    let seed = |k: usize| (c + 10_000 * k) as u64;
    let timetables: Vec<Setup> = (0..TIMETABLES)
        .map(|k| Setup::new(shape, c, standing, seed(k)))
        .collect();
    let medians = measure(&timetables, [1; OPERATIONS.len()], samples);
    print_rows(c, standing, &medians);
}

fn in_turn(samples: usize) {
    println!("microseconds with {TIMETABLES} timetables in turn, median of {samples} means");
    print_head();
    for c in SIZES {
        timetables_in_turn(&DAY, c, 3, samples);
    }
}

fn all_in_one_minute(samples: usize) {
    println!("microseconds with all departures in one minute, median of {samples}");
    print_head();
    for n in STANDING {
        let setup = Setup::alone(&DENSE, DENSE_SIZE, n);
        print_rows(DENSE_SIZE, n, &measure(&[setup], REPEATS, samples));
    }
    println!();
    println!("the same with {TIMETABLES} timetables in turn, median of {samples} means");
    print_head();
    timetables_in_turn(&DENSE, DENSE_SIZE, 200, samples);
}

fn tables(samples: usize) {
    alone(samples);
    println!();
    in_turn(samples);
    println!();
    all_in_one_minute(samples);
}

fn one(
    shape: &'static Shape,
    op: &str,
    c: usize,
    standing: usize,
    side: &Side,
    repeats: usize,
) -> bool {
    let place = OPERATIONS.iter().position(|o| o.name == op);
    if place.is_none() && !matches!(op, "correct" | "restore") {
        return false;
    }
    let restores = matches!(op, "post" | "correct" | "withdraw" | "restore");
    let mut x = Setup::alone(shape, c, standing);
    let mut rng = Rng(99);
    let posted = matches!(op, "correct" | "withdraw").then(|| x.posting(&mut rng));
    if let Some(posting) = posted {
        x.call(&FAST, posting);
    }
    let start = x.base.clone();
    for _ in 0..repeats {
        if restores {
            x.base.notices.copy_from_slice(&start.notices);
            x.base.graph.copy_from_slice(&start.graph);
            black_box(&mut x.base);
        }
        if let ("correct", Some(Call::Post(number, ride, _))) = (op, posted) {
            let delay = rng.range(1, 360) as u16;
            x.call(side, Call::Post(number, ride, delay));
        } else if let Some(place) = place {
            let task = x.draw(place, &mut rng);
            x.run(side, task);
        }
    }
    true
}

fn main() -> ExitCode {
    let args: Vec<String> = std::env::args().skip(1).collect();
    let words: Vec<&str> = args.iter().map(String::as_str).collect();
    let number = |w: &str| w.parse::<usize>().ok();
    let ok = match words[..] {
        [] => {
            tables(301);
            true
        }
        ["operations"] => {
            println!("{}", OPERATIONS.map(|o| o.name).join(" "));
            true
        }
        [n] if number(n).is_some_and(|n| n > 0) => {
            tables(number(n).unwrap_or(1));
            true
        }
        ["one", shape, op, c, n, side, repeats] => {
            let shape = [&DAY, &DENSE].into_iter().find(|s| s.name == shape);
            let side = [&LIBRARY, &FAST].into_iter().find(|s| s.name == side);
            match (shape, side, number(c), number(n), number(repeats)) {
                (Some(shape), Some(side), Some(c @ 1..=2000), Some(n @ 0..=200), Some(r)) => {
                    one(shape, op, c, n, side, r)
                }
                _ => false,
            }
        }
        _ => false,
    };
    if !ok {
        eprintln!(
            "usage: bench [SAMPLES] | bench operations | bench one day|dense OP C NOTICES library|rust REPEATS"
        );
        return ExitCode::from(2);
    }
    ExitCode::SUCCESS
}
