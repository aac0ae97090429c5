//! The problem (what a sheet says): agents, domains, bans; and the decoding of sheets.

use crate::assignment::{Assignment, MAX_AGENTS, MAX_DOMAIN};
use crate::Rejection;

/// Header of a sheet, in bytes.
pub const HEADER: usize = 24;
/// One record, in bytes.
pub const RECORD: usize = 8;
/// Most records of a sheet: 66 pairs of agents, 64 pairs of values each.
pub const MAX_RECORDS: usize = 4224;
/// The longest sheet, in bytes.
pub const MAX_SHEET: usize = HEADER + RECORD * MAX_RECORDS;

/// The bans of one agent against those above it, one word for each: bit
/// `8 * (value of the one above - 1) + own value - 1`.
pub type BanRow = [u64; MAX_AGENTS];

/// n, domains (slot counts) and bans.
#[derive(Clone)]
pub struct Problem {
    pub(crate) n: usize,
    /// Domain of each agent (slot count), as packed digits; 0 beyond n.
    pub(crate) domains: Assignment,
    /// `bans[higher number][lower number]`; zero elsewhere.
    pub(crate) bans: [BanRow; MAX_AGENTS],
}

impl Problem {
    /// What the empty network holds: n = 0, all else zero.
    pub const EMPTY: Problem =
        Problem { n: 0, domains: Assignment::EMPTY, bans: [[0; MAX_AGENTS]; MAX_AGENTS] };

    pub fn agents(&self) -> usize {
        self.n
    }

    /// The number of values (slots) of an agent, counted from 0.
    pub fn domain(&self, agent: usize) -> u8 {
        self.domains.get(agent)
    }

    /// A problem from its parts, for callers that have no sheet: domains, and bans as
    /// (lower number, higher number, value of the lower, value of the higher), numbers from 1.
    /// Panics on anything out of range.
    pub fn new(domains: &[u8], bans: &[(u8, u8, u8, u8)]) -> Problem {
        assert!((1..=MAX_AGENTS).contains(&domains.len()));
        let mut problem = Problem { n: domains.len(), ..Problem::EMPTY };
        for (agent, &domain) in domains.iter().enumerate() {
            assert!((1..=MAX_DOMAIN as u8).contains(&domain));
            problem.domains = problem.domains.with(agent, domain);
        }
        for &(lower, higher, low, high) in bans {
            assert!(1 <= lower && lower < higher && usize::from(higher) <= problem.n);
            assert!(1 <= low && low <= domains[usize::from(lower) - 1]);
            assert!(1 <= high && high <= domains[usize::from(higher) - 1]);
            problem.ban(usize::from(lower) - 1, usize::from(higher) - 1, low, high);
        }
        problem
    }

    /// A word of the ban table: the bans between two agents, counted from 0.
    pub fn bans_between(&self, lower: usize, higher: usize) -> u64 {
        self.bans[higher][lower]
    }

    #[inline(always)]
    fn ban(&mut self, lower: usize, higher: usize, low: u8, high: u8) {
        self.bans[higher][lower] |= 1 << (8 * (low - 1) + high - 1);
    }

    /// A record of edition 1: one pair of owned values. A value 0 wraps around and is above
    /// every domain.
    #[inline(always)]
    fn add_slots(&mut self, lower: usize, higher: usize, low: u8, high: u8) -> bool {
        let owned = low.wrapping_sub(1) < self.domain(lower) && high.wrapping_sub(1) < self.domain(higher);
        if owned {
            self.ban(lower, higher, low, high);
        }
        owned
    }

    /// A record of edition 2: every pair of owned values with a gap from least to greatest.
    #[inline(always)]
    fn add_gaps(&mut self, lower: usize, higher: usize, least: u8, greatest: u8) -> bool {
        let (least, greatest) = (least as i8, greatest as i8);
        let good = -7 <= least && least <= greatest && greatest <= 7;
        if good {
            self.bans[higher][lower] |= band(least, greatest) & self.owned(lower, higher);
        }
        good
    }

    /// The pairs of owned values of two agents.
    #[inline(always)]
    fn owned(&self, lower: usize, higher: usize) -> u64 {
        let rows = u64::MAX >> (64 - 8 * u32::from(self.domain(lower)));
        rows & (u64::from(domain_mask(self.domain(higher))) * 0x0101_0101_0101_0101)
    }

    /// Reads a sheet. The checks come in the rules' order: length under 24, header, total
    /// length, the walk. The first fault decides.
    pub fn decode(sheet: &[u8]) -> Result<Problem, Rejection> {
        let mut problem = Problem::EMPTY;
        problem.read(sheet)?;
        Ok(problem)
    }

    /// As `decode`, over a problem already there. After a refusal it is the empty one.
    pub fn decode_over(&mut self, sheet: &[u8]) -> Result<(), Rejection> {
        *self = Problem::EMPTY;
        let result = self.read(sheet);
        if result.is_err() {
            *self = Problem::EMPTY;
        }
        result
    }

    fn read(&mut self, sheet: &[u8]) -> Result<(), Rejection> {
        let header: &[u8; HEADER] = sheet.first_chunk().ok_or(Rejection::Length)?;
        let word = |at: usize| usize::from(u16::from_le_bytes([header[at], header[at + 1]]));
        let n = usize::from(header[0]);
        let (first, m) = (word(2), word(4));
        let fixed = word(6) == 0 && header[20..] == [0; 4];
        let known = (1..=2).contains(&header[1]);
        if !(1..=MAX_AGENTS).contains(&n) || !known || !fixed || m > MAX_RECORDS || first > m {
            return Err(Rejection::Header);
        }
        let mut domains = Assignment::EMPTY;
        for (agent, &domain) in header[8..20].iter().enumerate() {
            let least = u8::from(agent < n);
            let most = least * MAX_DOMAIN as u8;
            if domain < least || domain > most {
                return Err(Rejection::Header);
            }
            domains = domains.with(agent, domain);
        }
        let (records, rest) = sheet[HEADER..].as_chunks::<RECORD>();
        if records.len() != m || !rest.is_empty() {
            return Err(Rejection::Length);
        }
        self.n = n;
        self.domains = domains;
        if header[1] == 1 {
            self.walk(first, records, Problem::add_slots)
        } else {
            self.walk(first, records, Problem::add_gaps)
        }
    }

    /// Follows the chain. A record met before has passed its checks, so a chain that comes
    /// back is met exactly as one that does not end within m steps. `add` is what depends on
    /// the edition: it puts what a record bans into the table, or says that its last two fields
    /// are out of range.
    #[inline(always)]
    fn walk(
        &mut self,
        first: usize,
        records: &[[u8; RECORD]],
        add: impl Fn(&mut Problem, usize, usize, u8, u8) -> bool,
    ) -> Result<(), Rejection> {
        let mut index = first;
        for _ in 0..records.len() {
            if index == 0 {
                return Ok(());
            }
            let [lower, higher, low, high, next_low, next_high, end @ ..] = records[index - 1];
            let next = usize::from(u16::from_le_bytes([next_low, next_high]));
            // Agents beyond n are caught before their domain is asked.
            if lower < 1 || lower >= higher || usize::from(higher) > self.n {
                return Err(Rejection::Record);
            }
            let (lower, higher) = (usize::from(lower) - 1, usize::from(higher) - 1);
            if next > records.len() || end != [0, 0] || !add(self, lower, higher, low, high) {
                return Err(Rejection::Record);
            }
            index = next;
        }
        if index == 0 {
            Ok(())
        } else {
            Err(Rejection::Chain)
        }
    }
}

/// The pairs of values whose gap lies from least to greatest, of the gaps from -7 to 7.
#[inline(always)]
fn band(least: i8, greatest: i8) -> u64 {
    let inside = |gap: &i8| (least..=greatest).contains(gap);
    (-7..=7).filter(inside).fold(0, |word, gap| word | diagonal(gap))
}

/// The pairs of values with this gap, the higher's value minus the lower's.
#[inline(always)]
fn diagonal(gap: i8) -> u64 {
    const SAME: u64 = 0x8040_2010_0804_0201;
    if gap < 0 {
        SAME << (8 * -gap)
    } else {
        SAME >> (8 * gap)
    }
}

/// The values banned by `value` in one ban word; none for unknown (0).
#[inline(always)]
pub(crate) fn row(word: u64, value: u8) -> u8 {
    if value == 0 {
        0
    } else {
        (word >> ((8 * (u32::from(value) - 1)) & 63)) as u8
    }
}

/// The mask of one value.
#[inline(always)]
pub(crate) fn bit(value: u8) -> u8 {
    1 << ((value - 1) & 7)
}

/// The mask of all values of a domain.
#[inline(always)]
pub(crate) fn domain_mask(domain: u8) -> u8 {
    ((1u32 << domain) - 1) as u8
}
