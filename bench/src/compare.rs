//! Runs both libraries side by side: every answer, count and record has to be the same.
use crate::inputs::{Layout, Random, sites};
use crate::plain;
use mubdrax::{Counts, Open, PointRecord, ReadingRecord, Sealed, Site, Statement, TetRecord};
use std::collections::BTreeMap;

/// The three tables of a survey.
#[derive(Clone)]
pub struct Tables {
    pub points: Vec<PointRecord>,
    pub readings: Vec<ReadingRecord>,
    pub tets: Vec<TetRecord>,
}

impl Tables {
    pub fn new(points: usize, tets: usize) -> Tables {
        Tables {
            points: vec![PointRecord::default(); points],
            readings: vec![ReadingRecord::default(); points],
            tets: vec![TetRecord::default(); tets],
        }
    }

    /// Tables that hold anything.
    fn filled(points: usize, readings: usize, tets: usize, random: &mut Random) -> Tables {
        let point = |random: &mut Random| {
            let bits = random.next();
            let half = |shift: u32| (bits >> shift) as u16;
            PointRecord { x: half(0), y: half(16), z: half(32), penalty: random.next() as u32, mark: half(48) }
        };
        let tet = |random: &mut Random| TetRecord {
            points: [0; 4].map(|_| random.next() as u16),
            neighbours: [0; 4].map(|_| random.next() as u16),
            mark: random.next() as u16,
        };
        Tables {
            points: (0..points).map(|_| point(random)).collect(),
            readings: (0..readings).map(|_| odd_reading(random)).collect(),
            tets: (0..tets).map(|_| tet(random)).collect(),
        }
    }

    /// Whether two tables are the same to the bit.
    fn same(&self, other: &Tables) -> bool {
        let bits = |r: &ReadingRecord| (r.kind, r.amount.to_bits());
        self.points == other.points
            && self.tets == other.tets
            && self.readings.iter().map(bits).eq(other.readings.iter().map(bits))
    }
}

/// A reading of any kind and amount.
fn odd_reading(random: &mut Random) -> ReadingRecord {
    let amount = match random.below(8) {
        0 => f64::NAN,
        1 => f64::INFINITY,
        2 => f64::NEG_INFINITY,
        3 => -0.0,
        4 => 1_000_000.0,
        5 => 1_000_000.25,
        6 => -1.0,
        _ => f64::from_bits(random.next()),
    };
    ReadingRecord { kind: random.below(5) as u32, amount }
}

/// How often each call had each outcome, 0 standing for accepted.
#[derive(Default)]
pub struct Tally {
    pub calls: BTreeMap<(&'static str, u32), usize>,
}

impl Tally {
    pub fn count(&mut self, call: &'static str, outcome: u32) {
        *self.calls.entry((call, outcome)).or_default() += 1;
    }

    pub fn total(&self) -> usize {
        self.calls.values().sum()
    }
}

/// The same survey in both libraries, each over tables of its own.
struct Pair<'a> {
    ours: Tables,
    theirs: Tables,
    counts: Counts,
    tally: &'a mut Tally,
}

impl<'a> Pair<'a> {
    fn create(tables: Tables, tally: &'a mut Tally) -> Option<Pair<'a>> {
        let mut ours = tables.clone();
        let mut theirs = tables;
        let proved = Open::create(&mut ours.points, &mut ours.readings, &mut ours.tets).map(|open| open.counts());
        let plain = plain::Survey::create(&mut theirs.points, &mut theirs.readings, &mut theirs.tets);
        let plain = plain.map(|survey| survey.counts());
        agree("create", &proved, &plain, tally);
        assert!(ours.same(&theirs), "create leaves other tables");
        Some(Pair { ours, theirs, counts: proved.ok()?, tally })
    }

    fn add(&mut self, site: &Site) {
        let (ours, theirs) = (&mut self.ours, &mut self.theirs);
        let mut open = Open::resume(self.counts);
        let mut survey = plain::Survey::resume(self.counts);
        let proved = open.add(&mut ours.points, &mut ours.readings, &mut ours.tets, site);
        let plain = survey.add(&mut theirs.points, &mut theirs.readings, &mut theirs.tets, site);
        agree("add", &proved, &plain, self.tally);
        assert_eq!(open.counts(), survey.counts(), "add leaves other counts");
        assert!(ours.same(theirs), "add leaves other tables");
        self.counts = open.counts();
    }

    fn sealed(&self) -> Sealed {
        Open::resume(self.counts).seal()
    }

    fn locate(&mut self, place: [u16; 3]) {
        let t = &self.ours;
        let proved = self.sealed().locate(&t.points, &t.readings, &t.tets, place);
        let plain = plain::Survey::resume(self.counts).locate(&t.points, &t.readings, &t.tets, place);
        agree("locate", &proved, &plain, self.tally);
    }

    fn state(&mut self) {
        let t = &self.ours;
        let mut said = Statement { margin: 7, ..Statement::default() };
        let mut expected = said;
        let proved = self.sealed().state(&t.points, &t.readings, &t.tets, &mut said);
        let plain = plain::Survey::resume(self.counts).state(&t.points, &t.readings, &t.tets, &mut expected);
        agree("state", &proved, &plain, self.tally);
        assert_eq!(said, expected, "state leaves another statement");
    }

    /// Changes both tables in the same way.
    fn alter(&mut self, change: impl Fn(&mut Tables)) {
        change(&mut self.ours);
        change(&mut self.theirs);
    }
}

/// The same answer, or the same refusal. Which vanishing point comes with 12 is free.
fn agree<T: PartialEq + std::fmt::Debug>(
    call: &'static str,
    proved: &Result<T, mubdrax::Refusal>,
    plain: &Result<T, plain::Refusal>,
    tally: &mut Tally,
) {
    match (proved, plain) {
        (Ok(proved), Ok(plain)) => {
            assert_eq!(proved, plain, "{call} answers otherwise");
            tally.count(call, 0);
        }
        (Err(proved), Err(plain)) => {
            assert_eq!(proved.number, plain.number, "{call} refuses with another number");
            let named = proved.point.into_iter().all(|point| plain.vanishing.contains(&point));
            assert!(named && proved.point.is_some() == (plain.number == 12), "{call} names a point that stays");
            tally.count(call, proved.number);
        }
        _ => panic!("{call}: {proved:?} and {plain:?}"),
    }
}

/// Compares so many surveys of each kind.
pub fn surveys(count: usize, tally: &mut Tally) {
    let mut random = Random::new(1);
    for index in 0..count {
        let layout = [Layout::Random, Layout::Grid, Layout::Crowded][index % 3];
        whole_survey(layout, &mut random, tally);
        damaged_survey(layout, &mut random, tally);
    }
    for layout in [Layout::Random, Layout::Grid] {
        long_survey(layout, &mut random, tally);
    }
}

/// Tables of some size: mostly fitting, at times not.
fn some_tables(random: &mut Random) -> Tables {
    let points = if random.chance(3) { random.below(1100) } else { 5 + random.below(60) };
    let readings = if random.chance(2) { random.below(1100) } else { points };
    let tets = match random.below(20) {
        0 => random.below(20_000),
        1 => random.below(30),
        _ => 1 + 16 * points,
    };
    Tables::filled(points, readings, tets, random)
}

/// A site that may break a rule.
fn odd_site(site: &Site, random: &mut Random) -> Site {
    let mut site = *site;
    let edge = [0, 1, 800, 801, 65_535];
    match random.below(6) {
        0 => site.x = edge[random.below(5)],
        1 => site.y = edge[random.below(5)],
        2 => site.z = edge[random.below(5)],
        3 => site.penalty = [0, 1_000_000, 1_000_001, u32::MAX][random.below(4)],
        _ => site.reading = odd_reading(random),
    }
    site
}

fn whole_survey(layout: Layout, random: &mut Random, tally: &mut Tally) {
    let Some(mut pair) = Pair::create(some_tables(random), tally) else {
        return;
    };
    let count = random.below(40);
    let sites = sites(layout, count, random);
    for site in &sites {
        if random.chance(10) {
            pair.add(&odd_site(site, random));
        }
        pair.add(site);
        if random.chance(5) {
            pair.add(site);
        }
    }
    ask(&mut pair, &sites, random);
}

/// Some places and the statement.
fn ask(pair: &mut Pair, sites: &[Site], random: &mut Random) {
    pair.state();
    for _ in 0..8 {
        let mut place = random.place();
        if let (true, Some(site)) = (random.chance(60), sites.get(random.below(sites.len().max(1)))) {
            place = [site.x, site.y, site.z];
            let axis = random.below(3);
            place[axis] = [place[axis], place[axis] + 1, place[axis] - 1, place[axis] + 5][random.below(4)];
        }
        if random.chance(3) {
            place[random.below(3)] = [0, 801][random.below(2)];
        }
        pair.locate(place);
    }
}

fn damaged_survey(layout: Layout, random: &mut Random, tally: &mut Tally) {
    let points = 8 + random.below(60);
    let Some(mut pair) = Pair::create(Tables::filled(points, points, 32 * points, random), tally) else {
        return;
    };
    let count = 1 + random.below(points - 5);
    let sites = sites(layout, count, random);
    for site in &sites {
        pair.add(site);
    }
    let kept = (pair.ours.clone(), pair.counts);
    for _ in 0..6 {
        damage(&mut pair, random);
        ask(&mut pair, &sites, random);
        for _ in 0..4 {
            let site = near_some_point(&pair, &sites, random);
            pair.add(&site);
        }
        pair.state();
        (pair.ours, pair.counts) = kept.clone();
        pair.theirs = kept.0.clone();
    }
}

/// A site near a point of the table, or anywhere.
fn near_some_point(pair: &Pair, sites: &[Site], random: &mut Random) -> Site {
    let mut site = sites[random.below(sites.len())];
    let point = pair.ours.points[random.below(sites.len() + 4)];
    [site.x, site.y, site.z] = match random.below(3) {
        0 => random.place(),
        1 => [site.x, site.y, site.z].map(|c| shifted(c, 3, random)),
        _ => [point.x, point.y, point.z].map(|c| shifted(c, 3, random)),
    };
    site
}

fn shifted(coordinate: u16, reach: usize, random: &mut Random) -> u16 {
    (usize::from(coordinate) + random.below(2 * reach + 1)).saturating_sub(reach) as u16
}

/// Damages the tables or the counts, sometimes so that the tables stay whole.
fn damage(pair: &mut Pair, random: &mut Random) {
    let Counts { points, tets, .. } = pair.counts;
    let (p, k, slot) = (random.below(points), random.below(tets), random.below(4));
    let value = [0, 1, 3, 4, 65_535, random.below(points) as u16, random.below(tets) as u16][random.below(7)];
    match random.below(13) {
        0 => pair.alter(|t| t.tets[k].points[slot] = value),
        1 => pair.alter(|t| t.tets[k].neighbours[slot] = value),
        2 => pair.alter(|t| t.tets[k].mark = value),
        3 => pair.alter(|t| t.points[p].mark = value),
        4 => pair.alter(|t| t.points[p].x = value),
        5 => pair.alter(|t| t.points[p].penalty = u32::from(value) * 100),
        6 => turn(pair, k),
        7 => move_sites(pair, random),
        8 => double(pair),
        9 => alter_counts(pair, random),
        10 => lose_point(pair, random),
        11 => pair.alter(|t| t.tets.truncate(t.tets.len() - 1)),
        _ => {
            let reading = odd_reading(random);
            pair.alter(|t| t.readings[p] = reading);
        }
    }
}

/// Turns the first three points of a record: the tables stay whole.
fn turn(pair: &mut Pair, k: usize) {
    pair.alter(|t| {
        t.tets[k].points[..3].rotate_left(1);
        t.tets[k].neighbours[..3].rotate_left(1);
    });
}

/// Moves sites as long as the tables stay whole: the mesh is then no longer that of its sites.
fn move_sites(pair: &mut Pair, random: &mut Random) {
    for _ in 0..40 {
        let p = random.below(pair.counts.points);
        if p < 4 {
            continue;
        }
        let before = pair.ours.points[p];
        let reach = [3, 20, 100][random.below(3)];
        let [x, y, z] = [before.x, before.y, before.z].map(|c| shifted(c, reach, random));
        pair.alter(|t| t.points[p] = PointRecord { x, y, z, ..before });
        let t = &pair.ours;
        if pair.sealed().state(&t.points, &t.readings, &t.tets, &mut Statement::default()).is_err() {
            pair.alter(|t| t.points[p] = before);
        }
    }
}

/// Counts one more point, which is in no tetrahedron.
fn lose_point(pair: &mut Pair, random: &mut Random) {
    let number = pair.counts.points;
    let [x, y, z] = random.place();
    pair.alter(|t| t.points[number] = PointRecord { x, y, z, penalty: 0, mark: 0 });
    pair.counts.points += 1;
}

/// Writes the used records once more behind themselves, as a second mesh over the same points.
fn double(pair: &mut Pair) {
    let used = pair.counts.tets;
    pair.alter(|t| {
        for k in 0..used {
            let mut copy = t.tets[k];
            for neighbour in copy.neighbours.iter_mut().filter(|neighbour| **neighbour != mubdrax::NONE) {
                *neighbour += used as u16;
            }
            t.tets[used + k] = copy;
        }
    });
    pair.counts.tets = 2 * used;
}

fn alter_counts(pair: &mut Pair, random: &mut Random) {
    let any = [0, 1, 3, 4, 5, 1024, 1025, 16_384, 16_385, usize::MAX][random.below(10)];
    let counts = &mut pair.counts;
    match random.below(8) {
        0 => counts.points = any,
        1 => counts.tets = any,
        2 => counts.point_records = any,
        3 => counts.tet_records = any,
        4 => counts.points -= 1,
        5 => counts.tets -= 1,
        6 => counts.tets = 0,
        _ => counts.points += 1,
    }
}

/// As many sites as fit.
fn long_survey(layout: Layout, random: &mut Random, tally: &mut Tally) {
    let Some(mut pair) = Pair::create(Tables::filled(1024, 1024, 16_384, random), tally) else {
        return;
    };
    let sites = sites(layout, 1021, random);
    for site in &sites {
        pair.add(site);
    }
    for _ in 0..20 {
        ask(&mut pair, &sites, random);
    }
}
