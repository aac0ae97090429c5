//! The two sides, each with the same seven entries: the proved libraries behind `bench_entry`, and
//! the plain one.

use plain::{Agent, Network, Problem, Rejection, Rule, Word, MAX_AGENTS};

/// One side. What each entry gives is said at `crates/bench_entry/specs/Giving.antt`. A rule is its
/// number, and may be a wrong one.
pub trait Side {
    /// Decoding alone.
    fn decode(&mut self, sheet: &[u8], word: usize) -> u64;
    /// Decoding and the start.
    fn start(&mut self, rule: u8, sheet: &[u8], sender: usize) -> u64;
    /// Decoding, the start and a run.
    fn settle(&mut self, rule: u8, sheet: &[u8], rounds: u64) -> u64;
    /// Decoding, the start and deliveries through the public entry.
    fn deliver(&mut self, rule: u8, sheet: &[u8], calls: &[u8]) -> u64;
    /// Decoding, the start and a run: one agent's counts after it, in one number. Agents are
    /// counted from 0.
    fn counts(&mut self, rule: u8, sheet: &[u8], rounds: u64, agent: usize) -> u64;
    /// Reading an image.
    fn read(&mut self, image: &[u8]) -> u64;
    /// Reading an image once, and writing what it gives so many times into the same buffer, in the
    /// second form or in the first.
    fn write(&mut self, image: &[u8], small: bool, times: u64, buffer: &mut [u8]) -> u64;
    /// Moving an image to the other form.
    fn moved(&mut self, image: &[u8], buffer: &mut [u8]) -> u64;
}

mod entry {
    // A byte slice is passed as its address and its length.
    extern "C" {
        pub fn bench_entry_decode(sheet: *const u8, length: usize, word: usize) -> u64;
        pub fn bench_entry_start(rule: u8, sheet: *const u8, length: usize, sender: usize) -> u64;
        pub fn bench_entry_settle(rule: u8, sheet: *const u8, length: usize, rounds: u64) -> u64;
        pub fn bench_entry_deliver(
            rule: u8,
            sheet: *const u8,
            length: usize,
            calls: *const u8,
            bytes: usize,
        ) -> u64;
        pub fn bench_entry_counts(
            rule: u8,
            sheet: *const u8,
            length: usize,
            rounds: u64,
            agent: usize,
        ) -> u64;
        pub fn bench_entry_read(image: *const u8, length: usize) -> u64;
        pub fn bench_entry_write(
            image: *const u8,
            length: usize,
            small: bool,
            times: u64,
            buffer: *mut u8,
            room: usize,
        ) -> u64;
        pub fn bench_entry_move(image: *const u8, length: usize, buffer: *mut u8, room: usize) -> u64;
    }
}

/// The proved libraries.
pub struct Proved;

// Each call lends slices that live through it, and the entries have no `requires`.
impl Side for Proved {
    fn decode(&mut self, sheet: &[u8], word: usize) -> u64 {
        unsafe { entry::bench_entry_decode(sheet.as_ptr(), sheet.len(), word) }
    }

    fn start(&mut self, rule: u8, sheet: &[u8], sender: usize) -> u64 {
        unsafe { entry::bench_entry_start(rule, sheet.as_ptr(), sheet.len(), sender) }
    }

    fn settle(&mut self, rule: u8, sheet: &[u8], rounds: u64) -> u64 {
        unsafe { entry::bench_entry_settle(rule, sheet.as_ptr(), sheet.len(), rounds) }
    }

    fn deliver(&mut self, rule: u8, sheet: &[u8], calls: &[u8]) -> u64 {
        unsafe { entry::bench_entry_deliver(rule, sheet.as_ptr(), sheet.len(), calls.as_ptr(), calls.len()) }
    }

    fn counts(&mut self, rule: u8, sheet: &[u8], rounds: u64, agent: usize) -> u64 {
        unsafe { entry::bench_entry_counts(rule, sheet.as_ptr(), sheet.len(), rounds, agent) }
    }

    fn read(&mut self, image: &[u8]) -> u64 {
        unsafe { entry::bench_entry_read(image.as_ptr(), image.len()) }
    }

    fn write(&mut self, image: &[u8], small: bool, times: u64, buffer: &mut [u8]) -> u64 {
        let (start, room) = (buffer.as_mut_ptr(), buffer.len());
        unsafe { entry::bench_entry_write(image.as_ptr(), image.len(), small, times, start, room) }
    }

    fn moved(&mut self, image: &[u8], buffer: &mut [u8]) -> u64 {
        let (start, room) = (buffer.as_mut_ptr(), buffer.len());
        unsafe { entry::bench_entry_move(image.as_ptr(), image.len(), start, room) }
    }
}

/// The plain library. It keeps a problem and a network and uses them again.
pub struct Plain {
    problem: Problem,
    network: Network,
}

impl Plain {
    pub fn new() -> Plain {
        Plain { problem: Problem::EMPTY, network: Network::EMPTY }
    }

    /// The start on a sheet, over what is there: the rule is looked at first.
    #[inline(always)]
    fn begin(&mut self, rule: u8, sheet: &[u8]) -> Result<(), Rejection> {
        let rule = Rule::numbered(rule)?;
        self.problem.decode_over(sheet)?;
        self.network.restart(rule, &self.problem);
        Ok(())
    }
}

impl Side for Plain {
    #[inline(never)]
    fn decode(&mut self, sheet: &[u8], word: usize) -> u64 {
        match self.problem.decode_over(sheet) {
            Ok(()) if word < 66 => {
                let (lower, higher) = pair(word);
                self.problem.bans_between(lower, higher)
            }
            Ok(()) => 0,
            Err(rejection) => u64::from(rejection.number()),
        }
    }

    #[inline(never)]
    fn start(&mut self, rule: u8, sheet: &[u8], sender: usize) -> u64 {
        if let Err(rejection) = self.begin(rule, sheet) {
            return u64::from(rejection.number());
        }
        if sender < 12 {
            (0..12).fold(0, |row, to| row | (self.network.waiting(sender, to) as u64) << (4 * to))
        } else {
            0
        }
    }

    #[inline(never)]
    fn settle(&mut self, rule: u8, sheet: &[u8], rounds: u64) -> u64 {
        if let Err(rejection) = self.begin(rule, sheet) {
            return 8 + u64::from(rejection.number());
        }
        let (ending, rounds) = match self.network.run(rounds) {
            Ok(run) => (ending_number(run.word), run.rounds),
            Err(_) => (5, 0),
        };
        let mut values = 0;
        for agent in self.network.agents() {
            values = values * 9 + u64::from(agent.value().unwrap_or(0));
        }
        values *= 9_u64.pow(12 - self.network.n() as u32);
        (values << 20 | rounds) << 4 | ending
    }

    #[inline(never)]
    fn deliver(&mut self, rule: u8, sheet: &[u8], calls: &[u8]) -> u64 {
        let refused = match self.begin(rule, sheet) {
            Ok(()) => 0,
            Err(rejection) => {
                self.network = Network::EMPTY;
                rejection.number()
            }
        };
        let mut sum = u64::from(refused);
        let mut add = |number: u8| sum = mixed(sum, u64::from(number));
        for call in calls.chunks_exact(2) {
            add(self.network.deliver(call[0], call[1]).map_or_else(|rejection| rejection.number(), |()| 0));
        }
        for agent in 0..=12 {
            add(self.network.value(agent).unwrap_or(0));
        }
        sum
    }

    #[inline(never)]
    fn counts(&mut self, rule: u8, sheet: &[u8], rounds: u64, agent: usize) -> u64 {
        if self.begin(rule, sheet).is_err() {
            return 0;
        }
        let _ = self.network.run(rounds);
        let Some(agent) = self.network.agents().nth(agent) else {
            return 0;
        };
        counts_mixed(agent)
    }

    #[inline(never)]
    fn read(&mut self, image: &[u8]) -> u64 {
        let number = match self.network.read_image_over(image) {
            Ok(()) => 0,
            Err(rejection) => rejection.number(),
        };
        let rule = self.network.rule().map_or(0, Rule::number);
        let verdict = u64::from(self.network.verdict());
        let mut sum = (self.network.n() as u64 * 31 + u64::from(rule)) * 31 + verdict;
        for agent in self.network.agents() {
            sum = mixed(sum, counts_mixed(agent) & 0xffff_ffff);
            sum = mixed(sum, u64::from(agent.value().unwrap_or(0)));
            sum = mixed(sum, u64::from(agent.last()));
        }
        // Beyond n all is zero.
        for _ in self.network.n()..MAX_AGENTS {
            sum = mixed(mixed(mixed(sum, 0), 0), 0);
        }
        (sum & 0xffff_ffff) << 4 | u64::from(number)
    }

    #[inline(never)]
    fn write(&mut self, image: &[u8], small: bool, times: u64, buffer: &mut [u8]) -> u64 {
        // What is no image gives the empty network.
        let _ = self.network.read_image_over(image);
        let mut answer = 0;
        for _ in 0..times {
            answer = length_or_number(if small {
                self.network.write_small_image(buffer)
            } else {
                self.network.write_image(buffer)
            });
        }
        answer
    }

    #[inline(never)]
    fn moved(&mut self, image: &[u8], buffer: &mut [u8]) -> u64 {
        length_or_number(self.network.move_image(image, buffer))
    }
}

/// What a writer answers, in one number.
fn length_or_number(answer: Result<usize, Rejection>) -> u64 {
    answer.map_or_else(|rejection| u64::from(rejection.number()), |length| length as u64)
}

/// A number mixed into a sum.
fn mixed(sum: u64, number: u64) -> u64 {
    (sum & 0xffff_ffff) * 31 + number
}

/// An agent's six counts in one number.
fn counts_mixed(agent: &Agent) -> u64 {
    let (sent, received) = agent.counts();
    [sent.infos, received.infos, sent.backs, received.backs, sent.links, received.links]
        .iter()
        .fold(0, |sum, count| mixed(sum, count & 0xffff_ffff))
}

/// The two agents of a word of the ban table, counted from 0.
fn pair(word: usize) -> (usize, usize) {
    let mut before = 0;
    let mut higher = 1;
    while word >= before + higher {
        before += higher;
        higher += 1;
    }
    (word - before, higher)
}

fn ending_number(word: Word) -> u64 {
    match word {
        Word::None => 0,
        Word::Plan => 1,
        Word::Jammed => 2,
        Word::Open => 4,
    }
}
