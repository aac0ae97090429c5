//! The images that are measured or compared, the same on every machine.

use plain::random::Random;
use plain::{Network, Rule, MAX_IMAGE};

/// The image of a network.
pub fn image(network: &Network) -> Vec<u8> {
    let mut buffer = vec![0; MAX_IMAGE];
    let length = network.write_image(&mut buffer).expect("in shape, and room");
    buffer.truncate(length);
    buffer
}

/// The image of a network in the second form.
pub fn small_image(network: &Network) -> Vec<u8> {
    let mut buffer = vec![0; MAX_IMAGE];
    let length = network.write_small_image(&mut buffer).expect("in shape, and room");
    buffer.truncate(length);
    buffer
}

/// The network of a sheet after so many rounds of a run.
pub fn network(rule: Rule, sheet: &[u8], rounds: u64) -> Network {
    let mut network = Network::start_sheet(rule.number(), sheet).expect("an accepted sheet");
    network.run(rounds).expect("a start is in shape");
    network
}

/// Some deliveries more, in any order: a round half done.
pub fn play(network: &mut Network, most: usize, random: &mut Random) {
    let n = network.n();
    for _ in 0..random.below(most) {
        let _ = network.deliver(random.range(1, n) as u8, random.range(1, n) as u8);
    }
}

/// Bytes close to an image; few of them are one.
pub fn damaged(image: &[u8], random: &mut Random) -> Vec<u8> {
    let mut bytes = image.to_vec();
    let heads = 544 + 170 * usize::from(image[1]);
    let messages = heads + 264;
    let waiting = (image.len() - messages) / 16;
    match random.below(8) {
        0 => bytes.truncate(random.below(image.len())),
        1 => bytes.extend(vec![0; [1, 16, MAX_IMAGE][random.below(3)]]),
        2 => change(&mut bytes[..16], random),
        3 => change(&mut bytes[544..heads], random),
        4 => change(&mut bytes[heads..messages], random),
        5 if waiting > 0 => change(&mut bytes[messages..], random),
        6 if waiting > 1 => {
            // Two messages change places.
            let (one, other) = (random.below(waiting), random.below(waiting));
            for byte in 0..16 {
                bytes.swap(messages + 16 * one + byte, messages + 16 * other + byte);
            }
        }
        _ => change(&mut bytes, random),
    }
    bytes
}

/// One byte gets one more, one less or anything.
fn change(bytes: &mut [u8], random: &mut Random) {
    let byte = &mut bytes[random.below(bytes.len())];
    *byte = match random.below(3) {
        0 => byte.wrapping_add(1),
        1 => byte.wrapping_sub(1),
        _ => random.next() as u8,
    };
}
