//! Example J: the seven commands, the instances, and the limits, on every side.

mod common;

use common::{each, file, CHANGE, RIDES};
use compare::calls::{Call, Side};
use compare::rooms::set;

fn nums(bytes: &[u8]) -> Vec<u16> {
    bytes
        .chunks_exact(2)
        .map(|b| u16::from_le_bytes([b[0], b[1]]))
        .collect()
}

struct Desk {
    side: &'static Side,
    file: Vec<u8>,
    notices: Vec<u8>,
    graph: Vec<u8>,
    work: Vec<u8>,
    journey: Vec<u8>,
    opening: String,
}

impl Desk {
    fn open(side: &'static Side, change: &[u16], rides: &[[u16; 5]]) -> Desk {
        let (s, c) = (change.len(), rides.len());
        let mut d = Desk {
            side,
            file: file(change, rides),
            notices: vec![0xaa; 1202],
            graph: vec![0xaa; 8 * c + 2 * s],
            work: vec![0xaa; 2 * c],
            journey: vec![0xaa; 2 * c],
            opening: String::new(),
        };
        let a = d.call(Call::Build);
        assert_eq!(a, d.call(Call::Check));
        d.opening = line(a, |v| format!("stops {} rides {}", v % 65536, v / 65536));
        d
    }

    fn j(side: &'static Side) -> Desk {
        Desk::open(side, &CHANGE, &RIDES)
    }

    fn call(&mut self, call: Call) -> i64 {
        let areas = [
            &mut self.notices[..],
            &mut self.graph,
            &mut self.work,
            &mut self.journey,
        ];
        (self.side.call)(&self.file, areas, call)
    }

    fn p(&mut self, number: u16, ride: u16, delay: u16) -> String {
        line(self.call(Call::Post(number, ride, delay)), |v| {
            format!("posted {v}")
        })
    }

    fn w(&mut self, number: u16) -> String {
        line(self.call(Call::Withdraw(number)), |v| {
            format!("withdrawn {v}")
        })
    }

    fn q(&mut self, from: u16, to: u16, time: u16) -> String {
        line(self.call(Call::Enquire(from, to, time)), |v| {
            let rides = nums(&self.journey)[..(v / 65536) as usize].to_vec();
            let list: Vec<String> = rides.iter().map(|r| format!(" {r}")).collect();
            format!("arrives {} by{}", v % 65536, list.concat())
        })
    }

    fn m(&mut self, ride: u16, next: u16) -> String {
        line(self.call(Call::Margin(ride, next)), |v| {
            format!("margin {v}")
        })
    }

    fn why(&mut self, ride: u16) -> String {
        line(self.call(Call::Why(ride)), |v| {
            format!("delay {} notice {}", v % 65536, v / 65536)
        })
    }

    /// Every byte that a call is lent.
    fn memory(&self) -> [Vec<u8>; 5] {
        [
            &self.file,
            &self.notices,
            &self.graph,
            &self.work,
            &self.journey,
        ]
        .map(Vec::clone)
    }

    /// Departure and arrival in force.
    fn times(&self, ride: usize) -> [u16; 2] {
        let g = nums(&self.graph);
        [g[2 * ride], g[2 * ride + 1]]
    }
}

fn line(answer: i64, accepted: impl Fn(i64) -> String) -> String {
    match answer & 65535 {
        0 => accepted(answer >> 16),
        number => format!("no {number} at {}", answer >> 16),
    }
}

#[test]
fn seven_commands() {
    each(|side| {
        let mut d = Desk::j(side);
        let lines = [
            d.opening.clone(),
            d.q(0, 2, 595),
            d.p(7, 1, 10),
            d.q(0, 2, 595),
            d.p(3, 0, 6),
            d.q(0, 2, 595),
            d.q(0, 2, 607),
            d.m(0, 4),
        ];
        let expected = "stops 3 rides 5\narrives 640 by 0 1\nposted 7\narrives 642 by 0 4\n\
                        posted 3\narrives 650 by 0 1\nno 30 at 0\nmargin -1";
        assert_eq!(lines.join("\n"), expected);
        assert_eq!(nums(&d.notices)[..9], [2, 3, 0, 6, 7, 1, 10, 0, 0]);
        assert_eq!(d.w(7), "withdrawn 7");
        assert_eq!(d.w(7), "no 27 at 0");
        assert_eq!(nums(&d.notices)[..6], [1, 3, 0, 6, 0, 0]);
    });
}

#[test]
fn graph_without_notices() {
    each(|side| {
        let expected = [
            600, 620, 625, 640, 622, 650, 655, 690, 630, 642, // times
            65535, 4, 1, 65535, 65535, // waiting
            1, 3, 3, 65535, 3, // transfers
            0, 2, 3, // first departures
        ];
        let d = Desk::j(side);
        assert_eq!(nums(&d.graph), expected);
        assert_eq!(d.notices, vec![0; 1202]);
    });
}

#[test]
fn work_area() {
    each(|side| {
        let mut d = Desk::j(side);
        assert_eq!(d.q(0, 2, 595), "arrives 640 by 0 1");
        assert_eq!(nums(&d.work), [0, 0, 65535, 1, 0]);
        assert_eq!(nums(&d.journey), [0, 1, 0xaaaa, 0xaaaa, 0xaaaa]);
    });
}

#[test]
fn delay_within_the_stay_is_used_up() {
    each(|side| {
        let mut d = Desk::j(side);
        assert_eq!(d.p(1, 0, 5), "posted 1");
        assert_eq!(d.times(1)[0], 625);
        let mut d = Desk::j(side);
        assert_eq!(d.p(1, 0, 6), "posted 1");
        assert_eq!(d.times(1), [626, 641]);
    });
}

#[test]
fn largest_notice_decides() {
    each(|side| {
        // Either posted first, either with the lower number.
        for (six, twenty) in [(3, 7), (7, 3)] {
            for first in [(six, 6), (twenty, 20)] {
                let mut d = Desk::j(side);
                let second = if first.1 == 6 { (twenty, 20) } else { (six, 6) };
                for (number, delay) in [first, second] {
                    assert_eq!(d.p(number, 0, delay), format!("posted {number}"));
                }
                assert_eq!(d.times(0)[0], 620);
                assert_eq!(d.w(twenty), format!("withdrawn {twenty}"));
                assert_eq!(d.times(0)[0], 606);
            }
        }
    });
}

#[test]
fn posted_again() {
    each(|side| {
        let mut d = Desk::j(side);
        let lines = [
            d.p(7, 1, 10),
            d.p(7, 1, 12),
            d.q(0, 2, 595),
            d.p(7, 0, 3),
            d.w(7),
            d.q(0, 2, 595),
        ];
        let expected = "posted 7\nposted 7\narrives 642 by 0 4\nno 25 at 0\nwithdrawn 7\n\
                        arrives 640 by 0 1";
        assert_eq!(lines.join("\n"), expected);
        // Connection 4 arrives at 651; connection 1 at 650, 652 and 641.
        let lines = [
            d.p(3, 4, 9),
            d.p(7, 1, 10),
            d.q(0, 2, 595),
            d.p(7, 1, 12),
            d.q(0, 2, 595),
            d.p(7, 1, 1),
            d.q(0, 2, 595),
        ];
        let expected = "posted 3\nposted 7\narrives 650 by 0 1\nposted 7\narrives 651 by 0 4\n\
                        posted 7\narrives 641 by 0 1";
        assert_eq!(lines.join("\n"), expected);
        let mut notices = vec![2, 3, 4, 9, 7, 1, 1];
        notices.resize(601, 0);
        assert_eq!(nums(&d.notices), notices);
        let graph = [
            600, 620, 626, 641, 622, 650, 655, 690, 639, 651, // times
            65535, 4, 1, 65535, 65535, // waiting
            1, 3, 3, 65535, 3, // transfers
            0, 2, 3, // first departures
        ];
        assert_eq!(nums(&d.graph), graph);
        let before = (d.notices.clone(), d.graph.clone());
        assert_eq!(d.p(7, 1, 1), "posted 7");
        for (connection, delay, refusal) in [(5, 0, 13), (1, 0, 14), (2, 1441, 14), (2, 1, 25)] {
            assert_eq!(d.p(7, connection, delay), format!("no {refusal} at 0"));
        }
        assert_eq!((d.notices, d.graph), before);
    });
}

#[test]
fn posted_again_beside_another_of_the_connection() {
    each(|side| {
        let mut d = Desk::j(side);
        for (number, delay, departure) in [
            (3, 6, 606),
            (7, 20, 620),
            (7, 4, 606),
            (3, 2, 604),
            (3, 9, 609),
            (7, 9, 609),
            (3, 1, 609),
            (7, 10, 610),
        ] {
            assert_eq!(d.p(number, 0, delay), format!("posted {number}"));
            assert_eq!(d.times(0), [departure, departure + 20]);
        }
        assert_eq!(nums(&d.notices)[..8], [2, 3, 0, 1, 7, 0, 10, 0]);
        assert_eq!(d.w(7), "withdrawn 7");
        assert_eq!(d.times(0), [601, 621]);
    });
}

#[test]
fn posted_again_with_200_standing() {
    const NONE: u16 = 65535;
    each(|side| {
        let mut d = Desk::j(side);
        let mut rows: Vec<[u16; 3]> = (1..=200).map(|n| [n, n % 5, n]).collect();
        for [number, connection, delay] in rows.clone() {
            assert_eq!(d.p(number, connection, delay), format!("posted {number}"));
        }
        // The last row, the first, and one in the middle; what changes of the graph: the times of
        // connections 0 and 1, the waiting and the transfer entries.
        let again = [
            (
                [200, 0, 1],
                [795, 815, 821, 836],
                [NONE, 4, 1, NONE, NONE],
                [1, 3, 3, NONE, 3],
            ),
            (
                [1, 1, 300],
                [795, 815, 925, 940],
                [NONE, NONE, 4, NONE, 1],
                [4, NONE, 3, NONE, 3],
            ),
            (
                [100, 0, 250],
                [850, 870, 925, 940],
                [NONE, NONE, 4, NONE, 1],
                [1, NONE, 3, NONE, 3],
            ),
        ];
        for ([number, connection, delay], times, waiting, transfers) in again {
            assert_eq!(d.p(number, connection, delay), format!("posted {number}"));
            rows[usize::from(number) - 1][2] = delay;
            assert_eq!(nums(&d.notices), [&[200], rows.as_flattened()].concat());
            let others = [819, 847, 853, 888, 829, 841];
            let graph = [&times[..], &others, &waiting, &transfers, &[0, 2, 3]];
            assert_eq!(nums(&d.graph), graph.concat());
        }
        let before = (d.notices.clone(), d.graph.clone());
        for [number, connection, delay] in rows {
            assert_eq!(d.p(number, connection, delay), format!("posted {number}"));
            assert_eq!(d.p(number, (connection + 1) % 5, delay), "no 25 at 0");
        }
        assert_eq!(d.p(201, 0, 1), "no 26 at 0");
        assert_eq!((d.notices, d.graph), before);
    });
}

#[test]
fn last_minute_and_too_late() {
    each(|side| {
        let mut d = Desk::j(side);
        assert_eq!(d.q(0, 2, 600), "arrives 640 by 0 1");
        assert_eq!(d.q(0, 2, 601), "no 30 at 0");
        assert_eq!(nums(&d.work), [65535; 5]);
    });
}

#[test]
fn empty_journey() {
    each(|side| {
        let mut d = Desk::j(side);
        assert_eq!(d.q(1, 1, 700), "arrives 700 by");
        assert_eq!(nums(&d.work), [65535; 5]);
        assert_eq!(d.journey, [0xaa; 10]);
        assert_eq!(d.q(1, 1, 600), "arrives 600 by");
        assert_eq!(nums(&d.work), [65535, 1, 2, 1, 4]);
    });
}

#[test]
fn limits() {
    each(|side| {
        assert_eq!(
            Desk::open(side, &[4, 60, 3], &RIDES).opening,
            "stops 3 rides 5"
        );
        assert_eq!(Desk::open(side, &[4, 61, 3], &RIDES).opening, "no 7 at 1");
        let mut rides = RIDES;
        rides[4][4] = 4319;
        assert_eq!(Desk::open(side, &CHANGE, &rides).opening, "stops 3 rides 5");
        rides[4][4] = 4320;
        assert_eq!(Desk::open(side, &CHANGE, &rides).opening, "no 10 at 4");
        let mut d = Desk::j(side);
        assert_eq!(d.p(1, 0, 1440), "posted 1");
        assert_eq!(d.p(2, 0, 1441), "no 14 at 0");
        let mut d = Desk::j(side);
        for number in 1..=200 {
            assert_eq!(d.p(number, number % 5, number), format!("posted {number}"));
        }
        assert_eq!(d.p(201, 0, 1), "no 26 at 0");
        assert_eq!(d.w(100), "withdrawn 100");
        assert_eq!(d.p(201, 0, 1), "posted 201");
        let mut d = Desk::open(side, &[0], &[]);
        assert_eq!(d.opening, "stops 1 rides 0");
        assert_eq!(nums(&d.graph), [65535]);
        assert_eq!(d.q(0, 0, 5759), "arrives 5759 by");
        assert_eq!(d.q(0, 0, 5760), "no 16 at 0");
        assert_eq!(d.p(1, 0, 1), "no 13 at 0");
        assert_eq!(d.m(0, 0), "no 13 at 0");
    });
}

#[test]
fn margin_at_both_ends() {
    each(|side| {
        // The earliest departure and the latest arrival with most change minutes.
        let rides = [
            [0, 1, 0, 0, 1],
            [1, 0, 1, 4318, 4319],
            [2, 0, 1, 4318, 4319],
            [3, 1, 0, 0, 1],
        ];
        let mut d = Desk::open(side, &[0, 60], &rides);
        assert_eq!(d.p(1, 1, 1440), "posted 1");
        assert_eq!(d.m(1, 3), "margin -5819");
        assert_eq!(d.m(0, 1), "margin 5757");
        assert_eq!(d.m(0, 3), "no 17 at 0");
        assert_eq!(d.m(3, 2), "margin 4317");
    });
}

#[test]
fn why_of_no_notice_and_of_one() {
    each(|side| {
        let mut d = Desk::j(side);
        for ride in 0..5 {
            assert_eq!(d.why(ride), "delay 0 notice 0");
        }
        assert_eq!(d.p(7, 1, 10), "posted 7");
        let lines = [0, 1, 2, 3, 4].map(|ride| d.why(ride));
        let none = "delay 0 notice 0";
        assert_eq!(lines, [none, "delay 10 notice 7", none, none, none]);
        // The ends of both ranges.
        let mut d = Desk::j(side);
        assert_eq!(d.p(65535, 0, 1440), "posted 65535");
        assert_eq!(d.p(1, 4, 1), "posted 1");
        assert_eq!(d.why(0), "delay 1440 notice 65535");
        assert_eq!(d.why(4), "delay 1 notice 1");
    });
}

#[test]
fn why_by_the_largest_delay() {
    each(|side| {
        // The larger delay with the higher number, then with the lower, each posted first and last.
        for (small, large) in [((3, 6), (7, 20)), ((7, 6), (3, 20)), ((255, 1), (256, 257))] {
            for [first, second] in [[small, large], [large, small]] {
                let mut d = Desk::j(side);
                assert_eq!(d.p(first.0, 2, first.1), format!("posted {}", first.0));
                assert_eq!(d.p(second.0, 2, second.1), format!("posted {}", second.0));
                assert_eq!(d.why(2), format!("delay {} notice {}", large.1, large.0));
            }
        }
    });
}

#[test]
fn why_by_the_lowest_number_of_a_tie() {
    each(|side| {
        let mut d = Desk::j(side);
        assert_eq!(d.p(9, 1, 10), "posted 9");
        assert_eq!(d.why(1), "delay 10 notice 9");
        // A higher number as late, then a lower one posted later; a lower still that is less late, and
        // one as late on another connection.
        for (number, ride, told) in [
            (12, 1, "delay 10 notice 9"),
            (4, 1, "delay 10 notice 4"),
            (256, 1, "delay 10 notice 4"),
            (1, 2, "delay 10 notice 4"),
        ] {
            assert_eq!(d.p(number, ride, 10), format!("posted {number}"));
            assert_eq!(d.why(1), told);
        }
        assert_eq!(d.p(2, 1, 9), "posted 2");
        assert_eq!(d.why(1), "delay 10 notice 4");
        assert_eq!(d.why(2), "delay 10 notice 1");
    });
}

#[test]
fn why_after_withdrawals() {
    each(|side| {
        let mut d = Desk::j(side);
        for (number, delay) in [(9, 10), (4, 10), (6, 12), (5, 10), (8, 3)] {
            assert_eq!(d.p(number, 1, delay), format!("posted {number}"));
        }
        // The next one each time; 8 withdrawn between changes nothing.
        for (number, told) in [
            (6, "delay 10 notice 4"),
            (4, "delay 10 notice 5"),
            (8, "delay 10 notice 5"),
            (5, "delay 10 notice 9"),
            (9, "delay 0 notice 0"),
        ] {
            assert_eq!(d.w(number), format!("withdrawn {number}"));
            assert_eq!(d.why(1), told);
        }
    });
}

#[test]
fn why_after_corrections() {
    each(|side| {
        let mut d = Desk::j(side);
        // Longer, a tie with the higher and with the lower number, shorter than the other, the same again.
        for (number, delay, told) in [
            (7, 10, "delay 10 notice 7"),
            (7, 12, "delay 12 notice 7"),
            (3, 11, "delay 12 notice 7"),
            (3, 12, "delay 12 notice 3"),
            (7, 12, "delay 12 notice 3"),
            (3, 1, "delay 12 notice 7"),
            (7, 1, "delay 1 notice 3"),
            (7, 2, "delay 2 notice 7"),
        ] {
            assert_eq!(d.p(number, 1, delay), format!("posted {number}"));
            assert_eq!(d.why(1), told);
        }
        // Refused, for another connection: neither is changed.
        assert_eq!(d.p(7, 0, 30), "no 25 at 0");
        assert_eq!(d.why(0), "delay 0 notice 0");
        assert_eq!(d.why(1), "delay 2 notice 7");
    });
}

#[test]
fn why_of_one_late_through_the_one_before() {
    each(|side| {
        let mut d = Desk::j(side);
        assert_eq!(d.p(3, 0, 20), "posted 3");
        // Connection 1 leaves at 640, 15 minutes late, without a notice of its own.
        assert_eq!(d.times(1), [640, 655]);
        assert_eq!(d.why(0), "delay 20 notice 3");
        assert_eq!(d.why(1), "delay 0 notice 0");
        // Of its own 4 minutes it tells these, though it leaves 15 late.
        assert_eq!(d.p(9, 1, 4), "posted 9");
        assert_eq!(d.times(1), [640, 655]);
        assert_eq!(d.why(1), "delay 4 notice 9");
    });
}

#[test]
fn why_with_200_standing() {
    each(|side| {
        let mut d = Desk::j(side);
        // Connection 0 has the multiples of 5, with delay 7 from 105 on; the others their number.
        for number in 1..=200 {
            let delay = match (number % 5, number) {
                (0, 105..) => 7,
                (0, _) => 6,
                _ => number,
            };
            assert_eq!(d.p(number, number % 5, delay), format!("posted {number}"));
        }
        assert_eq!(d.why(0), "delay 7 notice 105");
        for ride in 1..5 {
            assert_eq!(d.why(ride), format!("delay {0} notice {0}", 195 + ride));
        }
        // The first row and the last, by corrections.
        assert_eq!(d.p(200, 0, 1440), "posted 200");
        assert_eq!(d.why(0), "delay 1440 notice 200");
        assert_eq!(d.p(1, 1, 196), "posted 1");
        assert_eq!(d.why(1), "delay 196 notice 1");
        // Room is made, and used by a number past all others.
        assert_eq!(d.w(200), "withdrawn 200");
        assert_eq!(d.why(0), "delay 7 notice 105");
        assert_eq!(d.p(65535, 0, 7), "posted 65535");
        assert_eq!(d.why(0), "delay 7 notice 105");
        assert_eq!(d.why(5), "no 13 at 0");
    });
}

#[test]
fn why_writes_nothing_and_needs_no_graph() {
    each(|side| {
        let mut d = Desk::j(side);
        assert_eq!(d.p(7, 1, 10), "posted 7");
        assert_eq!(d.p(3, 1, 10), "posted 3");
        d.notices.extend([0xaa; 7]);
        for graph in [d.graph.clone(), vec![0xaa; 46], vec![]] {
            d.graph = graph;
            let before = d.memory();
            assert_eq!(d.why(1), "delay 10 notice 3");
            assert_eq!(d.why(0), "delay 0 notice 0");
            assert_eq!(d.why(5), "no 13 at 0");
            assert_eq!(d.memory(), before);
        }
    });
}

#[test]
fn why_refused() {
    each(|side| {
        let mut d = Desk::j(side);
        assert_eq!(d.p(3, 0, 6), "posted 3");
        assert_eq!(d.p(7, 1, 10), "posted 7");
        // 13 alone.
        for ride in [5, 6, 2000, 2048, 65535] {
            assert_eq!(d.why(ride), "no 13 at 0");
        }
        let right = (d.file.clone(), d.notices.clone());
        // 1 to 11, each alone, then with every later refusal too: 21, 23 and 13.
        let faults: [(usize, u16, &str); 10] = [
            (0, 0, "no 2 at 0"),
            (3, 2, "no 3 at 0"),
            (5, 501, "no 4 at 0"),
            (7, 2001, "no 5 at 0"),
            (7, 4, "no 6 at 0"),
            (11, 61, "no 7 at 1"),
            (15 + 20 + 4, 1, "no 8 at 2"),
            (15 + 40, 3, "no 9 at 4"),
            (15 + 30 + 8, 655, "no 10 at 3"),
            (15 + 10 + 6, 619, "no 11 at 1"),
        ];
        for (at, v, told) in faults {
            d.file = right.0.clone();
            set(&mut d.file, at, v);
            assert_eq!(d.why(1), told);
            set(&mut d.notices, 0, 201);
            assert_eq!(d.why(5), told);
            d.notices.truncate(1201);
            assert_eq!(d.why(5), told);
            d.notices = right.1.clone();
        }
        d.file = right.0[..8].to_vec();
        assert_eq!(d.why(1), "no 1 at 0");
        d.notices.clear();
        assert_eq!(d.why(5), "no 1 at 0");
        d.file = right.0;
        // 21 for each length that is too short, before 23 and 13.
        for len in 0..1202 {
            d.notices = right.1[..len].to_vec();
            assert_eq!(d.why(1), "no 21 at 0");
        }
        set(&mut d.notices, 0, 201);
        assert_eq!(d.why(1), "no 21 at 0");
        assert_eq!(d.why(5), "no 21 at 0");
        // 23 with its place, before 13: the count, the rows that stand, those that do not.
        for (number, v, place) in [
            (0, 201, 0),
            (0, 65535, 0),
            (0, 0, 1),
            (0, 1, 2),
            (0, 3, 3),
            (1, 0, 1),
            (1, 7, 2),
            (2, 5, 1),
            (3, 0, 1),
            (4, 3, 2),
            (5, 65535, 2),
            (6, 1441, 2),
            (7, 8, 3),
            (8, 1, 3),
            (9, 1, 3),
            (600, 1, 200),
        ] {
            d.notices = right.1.clone();
            set(&mut d.notices, 2 * number, v);
            assert_eq!(d.why(1), format!("no 23 at {place}"));
            assert_eq!(d.why(5), format!("no 23 at {place}"));
        }
        // Right again, and longer than needed.
        for more in 0..5 {
            d.notices = [&right.1[..], &vec![0xaa; more]].concat();
            assert_eq!(d.why(1), "delay 10 notice 7");
            assert_eq!(d.why(5), "no 13 at 0");
        }
        // No connection at all.
        let mut d = Desk::open(side, &[0], &[]);
        assert_eq!(d.why(0), "no 13 at 0");
        assert_eq!(d.why(65535), "no 13 at 0");
    });
}
