//! The image: written, read, refused.

use plain::random::Random;
use plain::sheet::{encode, random_bans, Ban, Rows};
use plain::{Network, Rejection, Rule, MAX_IMAGE};

fn start(rule: Rule, domains: &[u8], bans: &[Ban]) -> Network {
    Network::start_sheet(rule.number(), &encode(domains, Rows::Slots(bans))).expect("a good rule and sheet")
}

/// The image, and nothing behind it.
fn image(network: &Network) -> Vec<u8> {
    let mut buffer = vec![0xa5; MAX_IMAGE + 1];
    let length = network.write_image(&mut buffer).expect("in shape, and room");
    assert_eq!(length, network.image_length());
    assert!(buffer[length..].iter().all(|&byte| byte == 0xa5));
    buffer.truncate(length);
    buffer
}

fn read(image: &[u8]) -> Result<Network, Rejection> {
    Network::read_image(image)
}

// ---- P9 after two rounds, by hand

fn p9() -> Network {
    let mut network = start(Rule::Loud, &[2, 1, 2], &[(1, 3, 1, 1), (2, 3, 1, 2)]);
    network.run(2).expect("a start is in shape");
    network
}

/// A number below 256 in eight bytes.
fn small(number: u8) -> [u8; 8] {
    u64::from(number).to_le_bytes()
}

/// An agent's record: up to the view, the view, the reason of slot 1 if there is one, and counts.
fn record(links: [u8; 6], view: &[u8], reason: Option<&[u8]>, counts: [u8; 6]) -> Vec<u8> {
    let mut bytes = links.to_vec();
    bytes.extend(view);
    bytes.resize(18, 0);
    if let Some(lhs) = reason {
        bytes.push(1);
        bytes.extend(lhs);
    }
    bytes.resize(18 + 8 * 13, 0);
    counts.iter().for_each(|&count| bytes.extend(small(count)));
    bytes
}

/// The same with other heads for the lines 2 to 1 and 2 to 3, and other messages.
fn p9_with(heads: [u8; 2], messages: [[u8; 4]; 3]) -> Vec<u8> {
    let mut bytes = vec![1, 3, 1, 0, 2, 1, 2];
    bytes.resize(16 + 8, 0);
    // 1:1 with 3:1 is bit 0 of the second pair, 2:1 with 3:2 is bit 1 of the twelfth.
    bytes.extend(small(1));
    bytes.resize(16 + 8 * 11, 0);
    bytes.extend(small(2));
    bytes.resize(16 + 8 * 66, 0);
    bytes.extend(record([1, 1, 0, 0, 4, 0], &[], None, [1, 0, 0, 0, 0, 0]));
    bytes.extend(record([1, 1, 1, 0, 4, 0], &[], None, [2, 1, 1, 0, 1, 0]));
    bytes.extend(record([2, 2, 3, 0, 0, 0], &[1], Some(&[1]), [0, 1, 0, 2, 0, 0]));
    bytes.resize(1_054 + 2 * 11, 0);
    bytes.extend([heads[0], 0, heads[1], 0]);
    bytes.resize(1_318, 0);
    for message in messages {
        bytes.extend(message);
        bytes.extend([0; 12]);
    }
    bytes
}

#[test]
fn p9_after_two_rounds() {
    // A link request, then a refusal of slot 1 with an empty left side; news of slot 1.
    let bytes = p9_with([1, 3], [[3, 0, 2, 0], [2, 1, 0, 0], [1, 1, 0, 0]]);
    assert_eq!(bytes.len(), 1_366);
    assert_eq!(image(&p9()), bytes);
    let mut again = read(&bytes).expect("an image");
    assert_eq!(image(&again), bytes);
    let run = again.run(100).expect("in shape");
    assert_eq!((run.rounds, again.value(1), again.value(2), again.value(3)), (3, Ok(2), Ok(1), Ok(1)));
}

#[test]
fn close_to_p9() {
    let bytes = image(&p9());
    let with = |at: usize, byte: u8| {
        let mut changed = bytes.clone();
        changed[at] = byte;
        changed
    };
    let bad = [
        vec![],
        [&bytes[..], &[0]].concat(),
        [&bytes[..], &[0; 16]].concat(),
        bytes[..1_365].to_vec(),
        bytes[..1_350].to_vec(),
        // Not the first form; a rule 3; a verdict that is neither; a slot at the link request.
        with(0, 2),
        with(2, 3),
        with(3, 2),
        with(1_319, 1),
        // A left side in news; a next behind the end; a line that takes the next one's messages.
        with(1_366 - 12, 1),
        with(1_336, 3),
        with(1_320, 3),
        // Another layout: the line from 2 to 3 first.
        p9_with([2, 1], [[1, 1, 0, 0], [3, 0, 3, 0], [2, 1, 0, 0]]),
        // The line's messages not in a row.
        p9_with([1, 2], [[3, 0, 3, 0], [1, 1, 0, 0], [2, 1, 0, 0]]),
        // It comes back.
        p9_with([1, 3], [[3, 0, 1, 0], [2, 1, 0, 0], [1, 1, 0, 0]]),
    ];
    for image in &bad {
        assert_eq!(read(image).err(), Some(Rejection::Image));
    }
    // A verdict may stand, and only then may a scanner have no slot.
    let mut verdict = with(3, 1);
    verdict[544] = 0;
    assert!(read(&verdict).is_ok_and(|network| network.verdict() && image(&network) == verdict));
    assert_eq!(read(&with(544, 0)).err(), Some(Rejection::Image));
    assert_eq!(Rejection::Image.number(), 13);
}

#[test]
fn refused_writing() {
    let network = p9();
    for room in [0, 1, 1_365] {
        let mut buffer = vec![7; room];
        assert_eq!(network.write_image(&mut buffer), Err(Rejection::Buffer));
        assert!(buffer.iter().all(|&byte| byte == 7));
    }
    // The shape comes first.
    for room in [0, 2_000] {
        let mut buffer = vec![7; room];
        assert_eq!(Network::EMPTY.write_image(&mut buffer), Err(Rejection::Shape));
        assert!(buffer.iter().all(|&byte| byte == 7));
    }
    assert_eq!(Rejection::Buffer.number(), 12);
}

// ---- random networks

/// A network some deliveries after a start.
fn random_network(random: &mut Random, agents: usize, values: usize) -> Network {
    let n = random.range(1, agents);
    let (linked, banned) = (random.range(10, 100), random.range(5, 70));
    let (domains, bans) = random_bans(n, values, linked, banned, random);
    let mut network = start(Rule::BOTH[random.below(2)], &domains, &bans);
    network.run(random.below(20) as u64).expect("a start is in shape");
    for _ in 0..random.below(60) {
        let _ = network.deliver(random.range(1, n) as u8, random.range(1, n) as u8);
    }
    network
}

/// What is read behaves as what was written.
#[test]
fn round_trips() {
    let mut random = Random::new(1);
    let mut over = Network::EMPTY;
    for _ in 0..3_000 {
        let mut network = random_network(&mut random, 12, 8);
        let bytes = image(&network);
        let mut again = read(&bytes).expect("an image");
        over.read_image_over(&bytes).expect("an image");
        assert!(image(&again) == bytes && image(&over) == bytes);
        let rounds = random.below(30) as u64;
        let ran = network.run(rounds);
        assert!(again.run(rounds) == ran && over.run(rounds) == ran);
        let bytes = image(&network);
        assert!(image(&again) == bytes && image(&over) == bytes);
    }
    assert_eq!(over.read_image_over(&[]), Err(Rejection::Image));
    assert_eq!((over.n(), over.verdict(), over.nothing_waits()), (0, false, true));
    assert_eq!(over.write_image(&mut []), Err(Rejection::Shape));
}

/// A changed byte makes it no image, or the image of another network.
#[test]
fn changed_bytes() {
    let mut random = Random::new(2);
    let (mut refused, mut taken) = (0, 0);
    for _ in 0..40 {
        let network = random_network(&mut random, 4, 3);
        let mut bytes = image(&network);
        for at in 0..bytes.len() {
            let before = bytes[at];
            for byte in [before ^ 1 << random.below(8), before.wrapping_add(1), 0] {
                bytes[at] = byte;
                match read(&bytes) {
                    Ok(other) => {
                        assert!(other.has_shape() && image(&other) == bytes);
                        taken += 1;
                    }
                    Err(rejection) => {
                        assert!(rejection == Rejection::Image && byte != before);
                        refused += 1;
                    }
                }
            }
            bytes[at] = before;
        }
    }
    assert!(refused > 10_000 && taken > 10_000, "{refused} {taken}");
}

/// Every line full, twelve agents: the longest image.
#[test]
fn longest() {
    let mut bytes = image(&start(Rule::Loud, &[8; 12], &[]));
    assert_eq!(bytes.len(), 808 + 170 * 12);
    let (heads, agents) = (bytes.len() - 264, 16 + 8 * 66);
    for agent in 0..12 {
        let record = &mut bytes[agents + 170 * agent..][..170];
        record[2..4].copy_from_slice(&(((1 << agent) - 1) as u16).to_le_bytes());
    }
    let mut written = 0u16;
    for (line, (from, to)) in
        (0..12).flat_map(|from| (0..12).filter(move |&to| to != from).map(move |to| (from, to))).enumerate()
    {
        bytes[heads + 2 * line..][..2].copy_from_slice(&(written + 1).to_le_bytes());
        for place in 0..8 {
            written += 1;
            let [low, high] = if place == 7 { [0, 0] } else { (written + 1).to_le_bytes() };
            let mut message = [0; 16];
            // At most one request waits on a line.
            message[..4].copy_from_slice(&match (from < to, place) {
                (true, _) => [1, 8, low, high],
                (false, 3) => [3, 0, low, high],
                (false, _) => [2, 5, low, high],
            });
            if message[0] == 2 {
                message[4..][..to].fill(8);
            }
            bytes.extend(message);
        }
    }
    assert_eq!((bytes.len(), MAX_IMAGE), (19_744, 19_744));
    assert!(read(&bytes).is_ok_and(|network| image(&network) == bytes));
    // A ninth on the last line.
    let at = bytes.len() - 14;
    bytes[at..at + 2].copy_from_slice(&(written + 1).to_le_bytes());
    bytes.extend([2, 5, 0, 0, 0, 0, 0, 0, 0, 0, 0, 0, 0, 0, 0, 0]);
    assert_eq!(read(&bytes).err(), Some(Rejection::Image));
}
