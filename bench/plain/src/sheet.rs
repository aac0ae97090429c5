//! Writing sheets: in order, shuffled with spare records and repeats, and damaged.

use crate::problem::{HEADER, MAX_RECORDS, RECORD};
use crate::random::Random;

/// A ban: lower number, higher number, value of the lower, value of the higher; from 1.
pub type Ban = (u8, u8, u8, u8);

/// A ban of gaps: lower number, higher number, from 1; least and greatest gap.
pub type Gaps = (u8, u8, i8, i8);

/// The rows of an edition of the sheet: what its records say.
#[derive(Clone, Copy)]
pub enum Rows<'a> {
    Slots(&'a [Ban]),
    Gaps(&'a [Gaps]),
}

impl Rows<'_> {
    fn edition(self) -> u8 {
        match self {
            Rows::Slots(_) => 1,
            Rows::Gaps(_) => 2,
        }
    }

    /// The first four bytes of each record.
    fn fields(self) -> Vec<[u8; 4]> {
        match self {
            Rows::Slots(bans) => bans.iter().map(|&(i, j, v, w)| [i, j, v, w]).collect(),
            Rows::Gaps(gaps) => gaps.iter().map(|&(i, j, a, b)| [i, j, a as u8, b as u8]).collect(),
        }
    }
}

/// A sheet whose chain runs through its records in order.
pub fn encode(domains: &[u8], rows: Rows) -> Vec<u8> {
    let fields = rows.fields();
    let m = fields.len();
    let mut sheet = header(rows.edition(), domains, u16::from(m > 0), m);
    for (i, &four) in fields.iter().enumerate() {
        let next = if i + 1 < m { i + 2 } else { 0 };
        sheet.extend(record(four, next));
    }
    sheet
}

/// A sheet with the same rows in a shuffled order, some twice, among `spare` records that are
/// off the chain and hold anything.
pub fn encode_shuffled(
    domains: &[u8],
    rows: Rows,
    repeats: usize,
    spare: usize,
    random: &mut Random,
) -> Vec<u8> {
    let mut chain = rows.fields();
    let once = chain.len();
    if once > 0 {
        for _ in 0..repeats {
            chain.push(chain[random.below(once)]);
        }
    }
    random.shuffle(&mut chain);
    chain.truncate(MAX_RECORDS);
    let m = (chain.len() + spare).min(MAX_RECORDS);
    let mut places: Vec<usize> = (1..=m).collect();
    random.shuffle(&mut places);
    let first = if chain.is_empty() { 0 } else { places[0] };
    let mut sheet = header(rows.edition(), domains, first as u16, m);
    sheet.extend((0..m * RECORD).map(|_| random.next() as u8));
    for (i, &four) in chain.iter().enumerate() {
        let next = if i + 1 < chain.len() { places[i + 1] } else { 0 };
        let at = HEADER + RECORD * (places[i] - 1);
        sheet[at..at + RECORD].copy_from_slice(&record(four, next));
    }
    sheet
}

/// One fault somewhere, or one that does not matter.
pub fn damage(sheet: &mut Vec<u8>, random: &mut Random) {
    let m = (sheet.len() - HEADER) / RECORD;
    match random.below(8) {
        0 => sheet.truncate(random.below(sheet.len() + 1)),
        1 => sheet.extend((0..random.range(1, 9)).map(|_| 0)),
        2 => sheet[random.below(HEADER)] = random.next() as u8,
        3 => sheet[random.below(HEADER)] = random.below(14) as u8,
        4 => {
            let wrong = if random.chance(50) { MAX_RECORDS + 1 } else { m + random.range(1, 3) };
            sheet[4..6].copy_from_slice(&(wrong as u16).to_le_bytes());
        }
        _ if m == 0 => sheet[2] = 1,
        // The chain comes back, or leads beyond the records.
        5 => {
            let at = HEADER + RECORD * random.below(m) + 4;
            let next = random.range(1, m + 1) as u16;
            sheet[at..at + 2].copy_from_slice(&next.to_le_bytes());
        }
        6 => {
            let at = HEADER + random.below(m * RECORD);
            sheet[at] = random.below(14) as u8;
        }
        _ => {
            let at = HEADER + random.below(m * RECORD);
            sheet[at] = random.next() as u8;
        }
    }
}

/// Random domains and bans: each pair of agents is linked with `linked` percent, and then each
/// pair of values banned with `banned` percent.
pub fn random_bans(
    n: usize,
    most_values: usize,
    linked: usize,
    banned: usize,
    random: &mut Random,
) -> (Vec<u8>, Vec<Ban>) {
    let domains: Vec<u8> = (0..n).map(|_| random.range(1, most_values) as u8).collect();
    let bans = random_bans_between(&domains, linked, banned, random);
    (domains, bans)
}

/// As `random_bans`, with the domains given.
pub fn random_bans_between(domains: &[u8], linked: usize, banned: usize, random: &mut Random) -> Vec<Ban> {
    let mut bans = Vec::new();
    for higher in 1..domains.len() {
        for lower in 0..higher {
            if !random.chance(linked) {
                continue;
            }
            for low in 1..=domains[lower] {
                for high in 1..=domains[higher] {
                    if random.chance(banned) {
                        bans.push((lower as u8 + 1, higher as u8 + 1, low, high));
                    }
                }
            }
        }
    }
    bans
}

/// Random bans of gaps between agents with these domains: each pair of agents has up to so many
/// rows with `linked` percent. Some hit no pair of owned values.
pub fn random_gaps(domains: &[u8], linked: usize, most: usize, random: &mut Random) -> Vec<Gaps> {
    let mut gaps = Vec::new();
    for higher in 1..domains.len() {
        for lower in 0..higher {
            if !random.chance(linked) {
                continue;
            }
            for _ in 0..random.range(1, most) {
                let (one, other) = (random.below(15) as i8 - 7, random.below(15) as i8 - 7);
                gaps.push((lower as u8 + 1, higher as u8 + 1, one.min(other), one.max(other)));
            }
        }
    }
    gaps
}

fn header(edition: u8, domains: &[u8], first: u16, m: usize) -> Vec<u8> {
    let mut sheet = vec![0; HEADER];
    sheet[0] = domains.len() as u8;
    sheet[1] = edition;
    sheet[2..4].copy_from_slice(&first.to_le_bytes());
    sheet[4..6].copy_from_slice(&(m as u16).to_le_bytes());
    sheet[8..8 + domains.len()].copy_from_slice(domains);
    sheet
}

fn record([lower, higher, low, high]: [u8; 4], next: usize) -> [u8; RECORD] {
    let [next_low, next_high] = (next as u16).to_le_bytes();
    [lower, higher, low, high, next_low, next_high, 0, 0]
}
