//! The sheets that are measured, the same on every machine.

use plain::random::Random;
use plain::sheet::{
    damage, encode, encode_shuffled, random_bans, random_bans_between, random_gaps, Ban, Gaps, Rows,
};
use plain::{Network, Problem, Rule, Word, PROGRAM_ROUNDS};

/// k agents with eight values, and a last one with k values: value i of the last is banned
/// against all eight values of agent i. With k = 5 it is the deepest search that ends (`none`,
/// 73,855 rounds).
pub fn deep(k: u8) -> Vec<u8> {
    let bans: Vec<Ban> = (1..=k).flat_map(|i| (1..=8).map(move |value| (i, k + 1, value, i))).collect();
    let mut domains = vec![8; usize::from(k)];
    domains.push(k);
    encode(&domains, Rows::Slots(&bans))
}

/// A sheet of n agents with eight values that is `open` after all the program's rounds under
/// rule 1: of some random ones the one with the most deliveries. Each of the last agents (hubs)
/// has each of its values banned against all values of one agent above, which makes the search
/// deep; other bans are random.
pub fn open(n: usize) -> Vec<u8> {
    const CANDIDATES: u64 = 40;
    let domains = vec![8u8; n];
    let hubs = match n {
        0..=8 => 1,
        9..=10 => 2,
        _ => 3,
    };
    let mut best = (0, Vec::new());
    for seed in 0..CANDIDATES {
        let mut random = Random::new(1_000 * n as u64 + seed);
        let linked = random.range(0, 50);
        let banned = random.range(5, 30);
        let mut bans = random_bans_between(&domains, linked, banned, &mut random);
        for hub in n - hubs + 1..=n {
            let mut above: Vec<u8> = (1..=(n - hubs) as u8).collect();
            random.shuffle(&mut above);
            for value in 1..=8u8 {
                let agent = above[usize::from(value - 1) % above.len()];
                bans.extend((1..=8).map(|its| (agent, hub as u8, its, value)));
            }
        }
        bans.sort_unstable();
        bans.dedup();
        let problem = Problem::new(&domains, &bans);
        let run = Network::start(Rule::Loud, &problem).run(PROGRAM_ROUNDS).expect("a start is in shape");
        if run.word == Word::Open && run.rounds == PROGRAM_ROUNDS {
            let deliveries = first_deliveries(&problem);
            if deliveries > best.0 {
                best = (deliveries, encode_shuffled(&domains, Rows::Slots(&bans), 0, 0, &mut random));
            }
        }
    }
    assert!(best.0 > 0, "no open sheet of {n} agents found");
    best.1
}

/// Deliveries in the first rounds of a run under rule 1.
fn first_deliveries(problem: &Problem) -> usize {
    const ROUNDS: usize = 20_000;
    let mut network = Network::start(Rule::Loud, problem);
    let mut total = 0;
    for _ in 0..ROUNDS {
        total += waiting(&network).len();
        let _ = network.run(1);
    }
    total
}

/// Every pair of values of every pair of agents, 4,224 records, on a shuffled chain.
pub fn longest() -> Vec<u8> {
    let mut bans: Vec<Ban> = Vec::new();
    for higher in 2..=12 {
        for lower in 1..higher {
            for low in 1..=8 {
                bans.extend((1..=8).map(|high| (lower, higher, low, high)));
            }
        }
    }
    encode_shuffled(&[8; 12], Rows::Slots(&bans), 0, 0, &mut Random::new(4_224))
}

/// As `longest`, of edition 2: for every pair of agents 64 of the 120 pairs of a least and a
/// greatest gap.
pub fn longest_gaps() -> Vec<u8> {
    let mut random = Random::new(4_225);
    let mut ranges: Vec<(i8, i8)> =
        (-7..=7).flat_map(|least| (least..=7).map(move |greatest| (least, greatest))).collect();
    let mut gaps: Vec<Gaps> = Vec::new();
    for higher in 2..=12 {
        for lower in 1..higher {
            random.shuffle(&mut ranges);
            gaps.extend(ranges[..64].iter().map(|&(least, greatest)| (lower, higher, least, greatest)));
        }
    }
    encode_shuffled(&[8; 12], Rows::Gaps(&gaps), 0, 0, &mut random)
}

/// Random sheets: up to so many agents and values, with repeats and spare records, so many
/// percent damaged, and so many of edition 2.
pub fn random(
    count: usize,
    agents: usize,
    values: usize,
    damaged: usize,
    gaps: usize,
    seed: u64,
) -> Vec<Vec<u8>> {
    let mut random = Random::new(seed);
    let one = |_| {
        let n = random.range(1, agents);
        let (linked, banned) = (random.range(10, 100), random.range(5, 70));
        let (domains, bans) = random_bans(n, values, linked, banned, &mut random);
        let far = if gaps > 0 { random_gaps(&domains, linked, 3, &mut random) } else { Vec::new() };
        let rows = if gaps > 0 && random.chance(gaps) { Rows::Gaps(&far) } else { Rows::Slots(&bans) };
        let (repeats, spare) = (random.below(4), random.below(6));
        let mut sheet = encode_shuffled(&domains, rows, repeats, spare, &mut random);
        if random.chance(damaged) {
            damage(&mut sheet, &mut random);
        }
        sheet
    };
    (0..count).map(one).collect()
}

/// The sheets one behind the other, each behind its length in two bytes.
pub fn stream(sheets: &[Vec<u8>]) -> Vec<u8> {
    sheets.iter().flat_map(|sheet| [&(sheet.len() as u16).to_le_bytes()[..], sheet].concat()).collect()
}

/// What waits on a network: sender and receiver of each message, in a run's order.
fn waiting(network: &Network) -> Vec<[u8; 2]> {
    let n = network.n();
    let mut heads = Vec::new();
    for from in 0..n {
        for to in 0..n {
            heads.extend(std::iter::repeat_n([from as u8 + 1, to as u8 + 1], network.waiting(from, to)));
        }
    }
    heads
}

/// The first deliveries of a run on a sheet, as calls: two bytes for each.
pub fn calls(rule: Rule, sheet: &[u8], most: usize) -> Vec<u8> {
    let mut network = Network::start_sheet(rule.number(), sheet).expect("an accepted sheet");
    let mut calls = Vec::new();
    while calls.len() < 2 * most {
        let heads = waiting(&network);
        if heads.is_empty() {
            break;
        }
        for [from, to] in heads {
            if network.deliver(from, to).is_err() {
                return calls;
            }
            calls.extend([from, to]);
        }
    }
    calls.truncate(2 * most);
    calls
}

/// How many deliveries the full rounds of a run with so many rounds make.
pub fn deliveries(rule: Rule, sheet: &[u8], rounds: u64) -> usize {
    let mut network = Network::start_sheet(rule.number(), sheet).expect("an accepted sheet");
    let mut total = 0;
    for _ in 0..rounds {
        let waiting = waiting(&network).len();
        match network.run(1) {
            Ok(run) if run.rounds == 1 => total += waiting,
            _ => break,
        }
    }
    total
}
