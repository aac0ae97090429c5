//! The quiet rule (rule 2) beside rule 1.

use plain::sheet::{encode, Ban, Rows};
use plain::{Agent, Network, Rejection, Rule, Run, Word};

fn start(rule: Rule, domains: &[u8], bans: &[Ban]) -> Network {
    Network::start_sheet(rule.number(), &encode(domains, Rows::Slots(bans))).expect("a good rule and sheet")
}

/// A run's word and full rounds, all values (0 for none), and how many messages were sent.
fn ended(rule: Rule, domains: &[u8], bans: &[Ban]) -> (Word, u64, Vec<u8>, u64) {
    let mut network = start(rule, domains, bans);
    let Run { word, rounds } = network.run(1_000).expect("a start is in shape");
    let sent = |agent: &Agent| {
        let (sent, _) = agent.counts();
        sent.infos + sent.backs + sent.links
    };
    let values = network.agents().map(|agent| agent.value().unwrap_or(0)).collect();
    (word, rounds, values, network.agents().map(sent).sum())
}

/// P1, P2, P3, P5 and P9 end the same under both rules.
#[test]
fn nights() {
    let nights: [(&[u8], &[Ban], Word, u64, &[u8]); 5] = [
        (&[1], &[], Word::Plan, 0, &[1]),
        (&[1, 1], &[(1, 2, 1, 1)], Word::None, 2, &[0, 1]),
        (&[2, 2], &[(1, 2, 1, 1)], Word::Plan, 1, &[1, 2]),
        (&[2, 1], &[(1, 2, 1, 1)], Word::Plan, 3, &[2, 1]),
        (&[2, 1, 2], &[(1, 3, 1, 1), (2, 3, 1, 2)], Word::Plan, 5, &[2, 1, 1]),
    ];
    for (domains, bans, word, rounds, values) in nights {
        for rule in Rule::BOTH {
            let (its_word, its_rounds, its_values, _) = ended(rule, domains, bans);
            assert_eq!(
                (its_word, its_rounds, &its_values[..]),
                (word, rounds, values),
                "{rule:?} {domains:?}"
            );
        }
    }
}

/// Fewer messages, and sooner; a search that makes no full round any more under rule 1 ends.
#[test]
fn silence_tells() {
    let sooner = [(1, 2, 1, 1), (1, 3, 1, 1), (2, 3, 1, 2)];
    assert_eq!(ended(Rule::Loud, &[2, 1, 2], &sooner), (Word::Plan, 4, vec![2, 1, 1], 11));
    assert_eq!(ended(Rule::Quiet, &[2, 1, 2], &sooner), (Word::Plan, 3, vec![2, 1, 1], 8));
    let spins =
        [(1, 4, 1, 1), (1, 4, 2, 1), (1, 4, 3, 1), (2, 4, 1, 2), (3, 4, 1, 2), (3, 5, 1, 2), (4, 5, 2, 1)];
    let (word, rounds, ..) = ended(Rule::Loud, &[4, 1, 1, 2, 2], &spins);
    assert_eq!((word, rounds), (Word::Open, 6));
    let (word, rounds, values, _) = ended(Rule::Quiet, &[4, 1, 1, 2, 2], &spins);
    assert_eq!((word, rounds, values), (Word::Plan, 14, vec![4, 1, 1, 1, 1]));
}

/// The refuser is told, the others are not.
#[test]
fn refuser_alone() {
    for (rule, waiting) in [(Rule::Loud, 1), (Rule::Quiet, 0)] {
        let mut network = start(rule, &[2, 1, 2, 1], &[(1, 3, 1, 1), (2, 3, 1, 2), (2, 4, 1, 1)]);
        for (from, to) in [(1, 3), (2, 3), (2, 4), (3, 2)] {
            assert_eq!(network.deliver(from, to), Ok(()));
        }
        assert_eq!((network.waiting(1, 2), network.waiting(1, 3)), (1, waiting), "{rule:?}");
    }
}

/// It stays the one whose refusal is worked while the receiver backs up and chooses again.
#[test]
fn refuser_while_backing_up() {
    let (word, _, values, _) = ended(Rule::Quiet, &[2, 1, 2], &[(1, 3, 1, 2), (2, 3, 1, 1)]);
    assert_eq!((word, values), (Word::Plan, vec![2, 1, 2]));
    // A refuser that is informed gets one message, not two.
    let mut network = start(Rule::Quiet, &[2, 1], &[(1, 2, 1, 1)]);
    assert_eq!((network.deliver(1, 2), network.deliver(2, 1)), (Ok(()), Ok(())));
    assert_eq!(network.waiting(0, 1), 1);
}

/// A rule other than 1 or 2 is refused before the sheet is looked at.
#[test]
fn rule_comes_first() {
    let good = encode(&[1], Rows::Slots(&[]));
    for rule in [0, 3, 255] {
        assert_eq!(Network::start_sheet(rule, &good).err(), Some(Rejection::Rule));
        assert_eq!(Network::start_sheet(rule, &[]).err(), Some(Rejection::Rule));
    }
    assert_eq!(Network::start_sheet(2, &[]).err(), Some(Rejection::Length));
    assert_eq!(Rejection::Rule.number(), 11);
}
