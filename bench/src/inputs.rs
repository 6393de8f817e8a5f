//! Surveys to compare and to time: made from a seed, so that every run has the same.
use mubdrax::{ReadingRecord, Site};
use std::collections::HashSet;

/// A small generator of random numbers (splitmix64).
pub struct Random(u64);

impl Random {
    pub fn new(seed: u64) -> Random {
        Random(seed)
    }

    pub fn next(&mut self) -> u64 {
        self.0 = self.0.wrapping_add(0x9e37_79b9_7f4a_7c15);
        let mut z = self.0;
        z = (z ^ (z >> 30)).wrapping_mul(0xbf58_476d_1ce4_e5b9);
        z = (z ^ (z >> 27)).wrapping_mul(0x94d0_49bb_1331_11eb);
        z ^ (z >> 31)
    }

    /// A number below a bound that is not zero.
    pub fn below(&mut self, bound: usize) -> usize {
        (self.next() % bound as u64) as usize
    }

    pub fn chance(&mut self, percent: usize) -> bool {
        self.below(100) < percent
    }

    pub fn coordinate(&mut self) -> u16 {
        1 + self.below(800) as u16
    }

    pub fn place(&mut self) -> [u16; 3] {
        [self.coordinate(), self.coordinate(), self.coordinate()]
    }

    /// A reading that is admitted.
    pub fn reading(&mut self) -> ReadingRecord {
        let most = [12.0, 60.0, 600.0, 20_000.0][self.below(4)];
        let amount = most * self.below(4001) as f64 / 4000.0;
        match self.below(8) {
            0 => ReadingRecord { kind: 1, amount },
            1 => ReadingRecord { kind: 2, amount: 0.0 },
            _ => ReadingRecord { kind: 0, amount },
        }
    }
}

/// How the sites lie.
#[derive(Clone, Copy, Debug, PartialEq, Eq)]
pub enum Layout {
    /// Anywhere.
    Random,
    /// Boreholes on a square grid, five metres apart, sampled every two metres and a half.
    Grid,
    /// Few different coordinates, so that planes, lines and spheres through many sites are the rule.
    Crowded,
}

impl Layout {
    pub fn name(self) -> &'static str {
        match self {
            Layout::Random => "random",
            Layout::Grid => "grid",
            Layout::Crowded => "crowded",
        }
    }
}

/// So many sites at different places.
pub fn sites(layout: Layout, count: usize, random: &mut Random) -> Vec<Site> {
    let mut sites = Vec::with_capacity(count);
    let mut taken = HashSet::new();
    let depths = if count <= 252 { 4 + count / 80 } else { 10 };
    let side = (1..).find(|side| side * side * depths >= count).unwrap_or(1);
    for index in 0.. {
        if sites.len() == count {
            break;
        }
        let place = match layout {
            Layout::Random => random.place(),
            Layout::Grid => {
                let (hole, sample) = (index / depths, index % depths);
                [(hole / side) * 50 + 50, (hole % side) * 50 + 50, sample * 25 + 20].map(|c| c as u16)
            }
            Layout::Crowded => [0; 3].map(|_| 100 + 10 * random.below(7) as u16),
        };
        if taken.insert(place) {
            let [x, y, z] = place;
            let penalty = if random.chance(20) { random.below(1_000_001) as u32 } else { 0 };
            sites.push(Site { x, y, z, penalty, reading: random.reading() });
        }
    }
    sites
}

/// The words of a survey file with these sites, some of them under labels.
pub fn file(sites: &[Site], random: &mut Random) -> Vec<u8> {
    let mut words: Vec<u32> = Vec::new();
    for site in sites {
        if random.chance(10) {
            label(&mut words, random);
        }
        words.push(u32::from(site.x) << 20 | u32::from(site.y) << 10 | u32::from(site.z));
        if site.penalty > 0 {
            words.push(0x7000_0000 | site.penalty);
        }
        let value = (site.reading.amount * 4.0) as u32;
        words.push(match site.reading.kind {
            0 => 0x4000_0000 | value,
            1 => 0x5000_0000 | value,
            _ => 0x6000_0000,
        });
    }
    words.push(0xc000_0000 | sites.len() as u32);
    words.iter().flat_map(|word| word.to_be_bytes()).collect()
}

fn label(words: &mut Vec<u32>, random: &mut Random) {
    let length = 1 + random.below(12);
    words.push(0x8000_0000 | length as u32);
    let mut text = [0u8; 12];
    text[..length].iter_mut().for_each(|byte| *byte = 32 + random.below(95) as u8);
    let padded = length.next_multiple_of(4);
    words.extend(text[..padded].chunks_exact(4).map(|bytes| u32::from_be_bytes([bytes[0], bytes[1], bytes[2], bytes[3]])));
}

/// Damages a file in one of several ways, or leaves it as it is.
pub fn damage(file: &mut Vec<u8>, random: &mut Random) {
    let words = file.len() / 4;
    if words == 0 {
        return;
    }
    let at = 4 * random.below(words);
    match random.below(9) {
        0 => {}
        1 => file.truncate(random.below(file.len() + 1)),
        2 => file.truncate(at),
        3 => file.extend_from_slice(&(random.next() as u32).to_be_bytes()),
        4 => drop(file.drain(at..(at + 4).min(file.len()))),
        5 => drop(file.splice(at..at, (random.next() as u32).to_be_bytes())),
        6 => file[at] ^= 1 << random.below(8),
        7 => {
            let byte = random.below(file.len());
            file[byte] = random.next() as u8;
        }
        _ => {
            let copied: Vec<u8> = file[at..(at + 8).min(file.len())].to_vec();
            drop(file.splice(at..at, copied));
        }
    }
}
