//! Times both libraries on the same surveys.
use crate::compare::Tables;
use crate::inputs::{Layout, Random, sites};
use crate::plain;
use mubdrax::{Counts, Open, Site, Statement};
use std::hint::black_box;
use std::time::{Duration, Instant};

const SIZES: [usize; 4] = [100, 252, 500, 1_000];
const POINT_RECORDS: usize = 1_024;
const TET_RECORDS: usize = 16_384;

/// The best times of the two libraries.
#[derive(Clone, Copy)]
struct Times {
    proved: Duration,
    plain: Duration,
}

impl Times {
    /// Runs both in turn, so that what else the machine does meets both, and keeps the best time of each.
    fn of(rounds: usize, mut proved: impl FnMut(), mut plain: impl FnMut()) -> Times {
        let mut best = Times { proved: Duration::MAX, plain: Duration::MAX };
        for _ in 0..rounds {
            best.proved = best.proved.min(time(&mut proved));
            best.plain = best.plain.min(time(&mut plain));
        }
        best
    }

    fn ratio(self) -> f64 {
        self.proved.as_secs_f64() / self.plain.as_secs_f64()
    }
}

fn time(run: &mut impl FnMut()) -> Duration {
    let start = Instant::now();
    run();
    start.elapsed()
}

/// Feeds a survey to the proved library.
pub fn feed_proved(tables: &mut Tables, sites: &[Site]) -> Counts {
    let Tables { points, readings, tets } = tables;
    let mut open = Open::create(points, readings, tets).expect("the tables fit");
    for site in sites {
        open.add(points, readings, tets, site).expect("the site fits");
    }
    open.counts()
}

/// Feeds a survey to the plain library.
pub fn feed_plain(tables: &mut Tables, sites: &[Site]) -> Counts {
    let Tables { points, readings, tets } = tables;
    let mut survey = plain::Survey::create(points, readings, tets).expect("the tables fit");
    for site in sites {
        survey.add(points, readings, tets, site).expect("the site fits");
    }
    survey.counts()
}

/// The sites of a timed survey.
pub fn timed_sites(layout: Layout, count: usize) -> Vec<Site> {
    sites(layout, count, &mut Random::new(7))
}

/// Prints the table: for each size, feeding all sites, one statement and one locate.
pub fn run(scale: usize) {
    println!("{:<7} {:<6} {:>6} {:>12} {:>12} {:>6} {:>9} {:>9}", "call", "sites", "number", "proved us", "plain us", "ratio", "growth", "plain's");
    for layout in [Layout::Random, Layout::Grid] {
        let mut rows: Vec<Vec<(&str, usize, Times)>> = vec![Vec::new(); 3];
        for size in SIZES {
            let measured = measure(layout, size, scale);
            for (row, (call, times)) in rows.iter_mut().zip(measured) {
                row.push((call, size, times));
            }
        }
        for row in &rows {
            print(layout, row);
        }
    }
}

fn print(layout: Layout, row: &[(&str, usize, Times)]) {
    let mut before: Option<Times> = None;
    for &(call, size, times) in row {
        let growth = |now: Duration, then: fn(&Times) -> Duration| {
            before.as_ref().map_or("".into(), |b| format!("{:.2}", now.as_secs_f64() / then(b).as_secs_f64()))
        };
        println!(
            "{call:<7} {:<6} {size:>6} {:>12.2} {:>12.2} {:>6.2} {:>9} {:>9}",
            layout.name(),
            times.proved.as_secs_f64() * 1e6,
            times.plain.as_secs_f64() * 1e6,
            times.ratio(),
            growth(times.proved, |b| b.proved),
            growth(times.plain, |b| b.plain),
        );
        before = Some(times);
    }
}

fn measure(layout: Layout, size: usize, scale: usize) -> [(&'static str, Times); 3] {
    let sites = timed_sites(layout, size);
    let mut ours = Tables::new(POINT_RECORDS, TET_RECORDS);
    let mut theirs = ours.clone();
    let rounds = (scale * 1_000 / size).max(3);
    let feed = Times::of(
        rounds,
        || _ = black_box(feed_proved(&mut ours, &sites)),
        || _ = black_box(feed_plain(&mut theirs, &sites)),
    );
    let counts = feed_proved(&mut ours, &sites);
    let (state, locate) = measure_sealed(&ours, counts, scale);
    [("feed", feed), ("state", state), ("locate", locate)]
}

/// One statement, and one locate as the mean over many places.
fn measure_sealed(t: &Tables, counts: Counts, scale: usize) -> (Times, Times) {
    let sealed = Open::resume(counts).seal();
    let survey = plain::Survey::resume(counts);
    let mut statement = Statement::default();
    let mut other = statement;
    let state = Times::of(
        scale * 20,
        || sealed.state(&t.points, &t.readings, &t.tets, &mut statement).expect("the tables are whole"),
        || survey.state(&t.points, &t.readings, &t.tets, &mut other).expect("the tables are whole"),
    );
    assert_eq!(statement, other);
    let mut random = Random::new(11);
    let places: Vec<[u16; 3]> = (0..100).map(|_| random.place()).collect();
    let mut owners = 0;
    let mut expected = 0;
    let all = Times::of(
        scale,
        || owners = places.iter().map(|&p| usize::from(sealed.locate(&t.points, &t.readings, &t.tets, p).expect("an owner"))).sum::<usize>(),
        || expected = places.iter().map(|&p| usize::from(survey.locate(&t.points, &t.readings, &t.tets, p).expect("an owner"))).sum::<usize>(),
    );
    assert_eq!(owners, expected);
    let each = places.len() as u32;
    (state, Times { proved: all.proved / each, plain: all.plain / each })
}
