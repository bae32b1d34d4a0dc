//! The Rust implementations against each other, and how much choice the small timetables give.

use compare::calls::Side;
use compare::gen::{self, Rng};
use compare::harness::{Sizes, Tester};
use compare::sides::sentences::{read, times, Enquiry, Notice};
use compare::sides::{BY_LAST, FAST, SENTENCES};

fn agree(sides: &[&'static Side], seeds: std::ops::Range<u64>, sizes: Sizes) -> Tester {
    let mut t = Tester::new(sides);
    for seed in seeds {
        t.round(seed, sizes);
        t.conversions(seed, sizes);
    }
    assert_eq!(t.failed, 0, "{:#?}", t.notes);
    t
}

#[test]
fn small_timetables_and_all_refusals() {
    let mut t = agree(&[&FAST, &BY_LAST, &SENTENCES], 0..400, Sizes::Small(12));
    t.count_answers();
    assert_eq!(t.failed, 0, "{:#?}", t.notes);
}

/// What `why` tells is by the largest delay, and by the lowest number too, often enough to tell a wrong
/// choice. A twelfth was chosen by what was counted: the rarest kind, several with the largest delay, is
/// some 12 in 100, and 3 in 100 where postings do not repeat a connection and its delay.
#[test]
fn notices_give_choice() {
    for sizes in [Sizes::Small(12), Sizes::Any(300)] {
        let told = agree(&[&FAST, &BY_LAST], 30_000..30_050, sizes).told;
        let all: u64 = told.iter().sum();
        assert!(told.iter().all(|&n| 12 * n > all), "{told:?}");
    }
}

#[test]
fn timetables_of_60_connections() {
    agree(&[&FAST, &BY_LAST], 5_000..5_300, Sizes::Any(60));
}

#[test]
fn timetables_of_300_connections() {
    agree(&[&FAST, &BY_LAST], 10_000..10_100, Sizes::Any(300));
}

#[test]
fn timetables_of_2000_connections() {
    // Seeds whose timetables have more than a thousand connections are among these.
    agree(&[&FAST, &BY_LAST], 20_000..20_012, Sizes::Any(2000));
}

/// The answers are decided by the arrival alone, by the order too, and by how soon a list stops,
/// often enough to tell a wrong choice.
#[test]
fn small_timetables_give_choice() {
    let rng = &mut Rng(7);
    let (mut several, mut tied, mut sooner) = (0, 0, 0);
    for _ in 0..3000 {
        let (s, c) = gen::small_sizes(rng, 12);
        let style = gen::small_style(rng);
        let file = gen::timetable(rng, s, c, &style);
        let t = read(&file).expect("a right file");
        let notices: Vec<Notice> = (0..rng.below(4).min(c))
            .map(|number| Notice {
                number,
                ride: rng.below(c),
                delay: rng.range(1, 9),
            })
            .collect();
        let times = times(&t, &notices);
        let q = Enquiry {
            timetable: &t,
            times: &times,
            from: rng.below(s),
            time: style.open,
        };
        let to = rng.below(s);
        let all = q.journeys();
        let Some((arrival, best)) = q.best(&all, to) else {
            continue;
        };
        let there = all.iter().filter(|list| t.rides[list[0]].to == to);
        let first: Vec<_> = there
            .clone()
            .filter(|list| times[list[0]].1 == arrival)
            .collect();
        several += usize::from(there.count() > first.len());
        tied += usize::from(first.len() > 1);
        let longer = |list: &Vec<usize>| list.len() > best.len() && list[0] == best[best.len() - 1];
        sooner += usize::from(first.iter().any(|list| longer(list)));
    }
    assert!(
        several > 200 && tied > 200 && sooner > 100,
        "{several} {tied} {sooner}"
    );
}
