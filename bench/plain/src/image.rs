//! The image of a network (rail): written into a lent buffer, and read back.
//!
//! Header, bans, agents 1 to n, heads of all 132 channels, messages. Numbers are low byte first.
//! A network has one image in each of two forms; bytes that are read are the image of a network in
//! shape. The second form has two lhs values in a byte, and agents and messages laid by place.

use crate::agent::{Agent, Counts};
use crate::assignment::{AgentSet, Assignment, MAX_AGENTS, MAX_DOMAIN, ONES};
use crate::channel::{Channels, Message, CAPACITY};
use crate::network::Network;
use crate::problem::{domain_mask, row};
use crate::rule::Rule;
use crate::Rejection;

/// The first byte of an image in the first form.
const FORM: u8 = 1;
/// The first byte of an image in the second form.
const SECOND: u8 = 2;
/// 1, n, the rule, the verdict, twelve domains.
const HEADER: usize = 16;
/// Eight bytes for each of 66 pairs.
const BANS: usize = 8 * 66;
/// Value, last value, two masks, view, nogoods, counts.
const AGENT: usize = 170;
/// Two bytes for each of 132 channels.
const HEADS: usize = 2 * 132;
/// Kind, value, the index of the next message, lhs.
const MESSAGE: usize = 16;

/// A message of the second form: two values of the lhs in a byte.
const PACKED: usize = 10;

/// The longest image, of twelve agents with eight messages on each channel.
pub const MAX_IMAGE: usize = HEADER + BANS + AGENT * MAX_AGENTS + HEADS + MESSAGE * CAPACITY * 132;

/// The twelve values of an assignment.
type Values = [u8; MAX_AGENTS];
/// 1 if stored, and the lhs.
type Nogood = [u8; 1 + MAX_AGENTS];

/// The length of an image but for its messages.
fn fixed_length(n: usize) -> usize {
    HEADER + BANS + AGENT * n + HEADS
}

// ---- writing

impl Network {
    /// The length of the image, in bytes.
    pub fn image_length(&self) -> usize {
        let waiting: u64 = self.nodes.iter().map(|node| node.out.len()).sum();
        fixed_length(self.n) + MESSAGE * waiting as usize
    }

    /// Writes the image to the buffer's beginning and gives its length. Bytes past it stay; where
    /// it is refused, all do.
    pub fn write_image(&self, buffer: &mut [u8]) -> Result<usize, Rejection> {
        let rule = self.rule.filter(|_| self.has_shape()).ok_or(Rejection::Shape)?;
        let length = self.image_length();
        let image = buffer.get_mut(..length).ok_or(Rejection::Buffer)?;
        let (header, rest) = image.split_at_mut(HEADER);
        let (bans, rest) = rest.split_at_mut(BANS);
        let (agents, rest) = rest.split_at_mut(AGENT * self.n);
        let (heads, messages) = rest.split_at_mut(HEADS);
        header[..4].copy_from_slice(&[FORM, self.n as u8, rule.number(), u8::from(self.verdict)]);
        header[4..].copy_from_slice(&bytes_of(self.domains));
        self.write_bans(bans);
        for (agent, bytes) in self.agents().zip(agents.as_chunks_mut().0) {
            agent.write(bytes);
        }
        self.write_messages(heads, messages);
        Ok(length)
    }

    fn write_bans(&self, bans: &mut [u8]) {
        let mut words = bans.as_chunks_mut().0.iter_mut();
        for lower in 0..MAX_AGENTS {
            for (node, word) in self.nodes[lower + 1..].iter().zip(&mut words) {
                *word = node.agent.bans[lower].to_le_bytes();
            }
        }
    }

    /// Channel by channel, in the order of the heads.
    fn write_messages(&self, heads: &mut [u8], messages: &mut [u8]) {
        let mut places = messages.as_chunks_mut::<MESSAGE>().0.iter_mut();
        let mut written = 0u16;
        for (heads, (from, node)) in heads.chunks_exact_mut(2 * 11).zip(self.nodes.iter().enumerate()) {
            heads.fill(0);
            for to in Assignment(node.out.counts).agents().iter() {
                let head = written + 1;
                let at = 2 * (to - usize::from(from < to));
                heads[at..at + 2].copy_from_slice(&head.to_le_bytes());
                let last = written + node.out.waiting(to) as u16;
                for (message, place) in node.out.messages(to).zip(&mut places) {
                    written += 1;
                    write_message(place, message, if written == last { 0 } else { written + 1 });
                }
            }
        }
    }
}

fn write_message(place: &mut [u8; MESSAGE], message: Message, next: u16) {
    let (kind, value, lhs) = match message {
        Message::Info { value } => (1, value, Assignment::EMPTY),
        Message::Back { lhs, refused } => (2, refused, lhs),
        Message::AddLink => (3, 0, Assignment::EMPTY),
    };
    let [low, high] = next.to_le_bytes();
    place[..4].copy_from_slice(&[kind, value, low, high]);
    place[4..].copy_from_slice(&bytes_of(lhs));
}

impl Agent {
    fn write(&self, bytes: &mut [u8; AGENT]) {
        let (links, rest) = bytes.split_at_mut(6);
        let (view, rest) = rest.split_at_mut(MAX_AGENTS);
        let (nogoods, counts) = rest.split_at_mut(MAX_DOMAIN * (1 + MAX_AGENTS));
        links[..2].copy_from_slice(&[self.value, self.last]);
        links[2..4].copy_from_slice(&mask_of(self.listens).to_le_bytes());
        links[4..].copy_from_slice(&mask_of(self.informs).to_le_bytes());
        view.copy_from_slice(&bytes_of(self.view));
        for (v, place) in nogoods.as_chunks_mut().0.iter_mut().enumerate() {
            *place = self.nogood_bytes(v);
        }
        let Agent { sent, received, .. } = self;
        let numbers = [sent.infos, sent.backs, sent.links, received.infos, received.backs, received.links];
        for (place, number) in counts.as_chunks_mut().0.iter_mut().zip(numbers) {
            *place = number.to_le_bytes();
        }
    }

    /// The nogood of the own value of bit `v`.
    fn nogood_bytes(&self, v: usize) -> Nogood {
        let mut bytes = [0; 1 + MAX_AGENTS];
        if self.stored >> v & 1 != 0 {
            bytes[0] = 1;
            bytes[1..].copy_from_slice(&bytes_of(self.nogoods[v]));
        }
        bytes
    }
}

// ---- the second form

/// The bytes of all records laid by place: the first byte of all, then the second.
#[inline(always)]
fn lay<const WIDTH: usize>(records: &[u8], places: &mut [u8]) {
    let (records, count) = (records.as_chunks::<WIDTH>().0, records.len() / WIDTH);
    for (place, bytes) in places.chunks_exact_mut(count.max(1)).enumerate() {
        for (byte, record) in bytes.iter_mut().zip(records) {
            *byte = record[place];
        }
    }
}

/// Bytes laid by place, as records again.
#[inline(always)]
fn gather_records<const WIDTH: usize>(places: &[u8], records: &mut [u8]) {
    let count = places.len() / WIDTH;
    for (place, bytes) in places.chunks_exact(count.max(1)).enumerate() {
        for (&byte, record) in bytes.iter().zip(records.as_chunks_mut::<WIDTH>().0) {
            record[place] = byte;
        }
    }
}

fn pack(message: &[u8; MESSAGE], packed: &mut [u8; PACKED]) {
    packed[..4].copy_from_slice(&message[..4]);
    for (byte, pair) in packed[4..].iter_mut().zip(message[4..].as_chunks::<2>().0) {
        *byte = pair[0] | pair[1] << 4;
    }
}

fn unpack(packed: &[u8; PACKED], message: &mut [u8; MESSAGE]) {
    message[..4].copy_from_slice(&packed[..4]);
    for (&byte, pair) in packed[4..].iter().zip(message[4..].as_chunks_mut::<2>().0) {
        *pair = [byte & 15, byte >> 4];
    }
}

/// The second form of an image in the first, at the buffer's beginning; gives its length.
fn write_second(image: &[u8], buffer: &mut [u8]) -> Result<usize, Rejection> {
    let n = usize::from(image[1]);
    let (agents, heads, messages) = (HEADER + BANS, fixed_length(n) - HEADS, fixed_length(n));
    let count = (image.len() - messages) / MESSAGE;
    let length = messages + PACKED * count;
    let small = buffer.get_mut(..length).ok_or(Rejection::Buffer)?;
    small[..agents].copy_from_slice(&image[..agents]);
    small[0] = SECOND;
    lay::<AGENT>(&image[agents..heads], &mut small[agents..heads]);
    small[heads..messages].copy_from_slice(&image[heads..messages]);
    let mut packed = [0; PACKED * CAPACITY * 132];
    let packed = &mut packed[..PACKED * count];
    for (message, place) in image[messages..].as_chunks().0.iter().zip(packed.as_chunks_mut().0) {
        pack(message, place);
    }
    lay::<PACKED>(packed, &mut small[messages..]);
    Ok(length)
}

/// What bytes of the second form are in the first, at the buffer's beginning: each of them says one
/// byte or two, so nothing is lost. Gives the length, where there can be one.
fn write_first(small: &[u8], image: &mut [u8; MAX_IMAGE]) -> Option<usize> {
    let n = usize::from(*small.get(1)?);
    let (agents, heads, messages) = (HEADER + BANS, fixed_length(n) - HEADS, fixed_length(n));
    let places = small.get(messages..)?;
    let count = places.len() / PACKED;
    if n > MAX_AGENTS || places.len() % PACKED != 0 || count > CAPACITY * 132 {
        return None;
    }
    image[..agents].copy_from_slice(&small[..agents]);
    image[0] = FORM;
    gather_records::<AGENT>(&small[agents..heads], &mut image[agents..heads]);
    image[heads..messages].copy_from_slice(&small[heads..messages]);
    let mut packed = [0; PACKED * CAPACITY * 132];
    let packed = &mut packed[..PACKED * count];
    gather_records::<PACKED>(places, packed);
    for (place, message) in packed.as_chunks().0.iter().zip(image[messages..].as_chunks_mut().0) {
        unpack(place, message);
    }
    Some(messages + MESSAGE * count)
}

impl Network {
    /// As `write_image`, in the second form.
    pub fn write_small_image(&self, buffer: &mut [u8]) -> Result<usize, Rejection> {
        let mut image = [0; MAX_IMAGE];
        let length = self.write_image(&mut image)?;
        write_second(&image[..length], buffer)
    }

    /// The image of the same network in the other form. The network read is left here.
    pub fn move_image(&mut self, image: &[u8], buffer: &mut [u8]) -> Result<usize, Rejection> {
        if image.first() != Some(&SECOND) {
            self.read_first_over(image)?;
            return write_second(image, buffer);
        }
        let mut first = [0; MAX_IMAGE];
        let length = write_first(image, &mut first).ok_or(Rejection::Image)?;
        self.read_first_over(&first[..length])?;
        let to = buffer.get_mut(..length).ok_or(Rejection::Buffer)?;
        to.copy_from_slice(&first[..length]);
        Ok(length)
    }
}

// ---- reading

impl Network {
    /// The network of an image of either form.
    pub fn read_image(image: &[u8]) -> Result<Network, Rejection> {
        let mut network = Network::EMPTY;
        network.read_image_over(image)?;
        Ok(network)
    }

    /// As `read_image`, over a network already there. After a refusal it is the empty one.
    pub fn read_image_over(&mut self, image: &[u8]) -> Result<(), Rejection> {
        if image.first() != Some(&SECOND) {
            return self.read_first_over(image);
        }
        let mut first = [0; MAX_IMAGE];
        // What cannot be one in the first form is no image: no bytes are none either.
        let length = write_first(image, &mut first).unwrap_or(0);
        self.read_first_over(&first[..length])
    }

    fn read_first_over(&mut self, image: &[u8]) -> Result<(), Rejection> {
        let read = self.read_parts(image).filter(|()| self.has_shape());
        read.ok_or_else(|| {
            *self = Network::EMPTY;
            Rejection::Image
        })
    }

    /// What no network's image has is refused here, but for what the shape says.
    fn read_parts(&mut self, image: &[u8]) -> Option<()> {
        let (&[form, n, rule, verdict], rest) = image.split_first_chunk()?;
        let (domains, rest) = rest.split_first_chunk()?;
        let n = usize::from(n);
        if form != FORM || n > MAX_AGENTS || verdict > 1 {
            return None;
        }
        // What lies beyond n is blank already.
        let used = self.n.max(n);
        self.n = n;
        self.rule = Some(Rule::numbered(rule).ok()?);
        self.verdict = verdict == 1;
        self.domains = values_in(domains)?;
        for node in &mut self.nodes[..used] {
            node.agent = Agent::BLANK;
            node.out.clear();
        }
        let (bans, rest) = rest.split_at_checked(BANS)?;
        let (agents, rest) = rest.split_at_checked(AGENT * n)?;
        let (heads, messages) = rest.split_at_checked(HEADS)?;
        self.read_bans(bans);
        let domains = self.domains;
        for (number, bytes) in agents.as_chunks().0.iter().enumerate() {
            self.nodes[number].agent.read(domain_mask(domains.get(number)), bytes)?;
        }
        self.read_messages(heads, messages)
    }

    fn read_bans(&mut self, bans: &[u8]) {
        let mut words = bans.as_chunks().0.iter();
        for lower in 0..MAX_AGENTS {
            for (node, word) in self.nodes[lower + 1..].iter_mut().zip(&mut words) {
                node.agent.bans[lower] = u64::from_le_bytes(*word);
            }
        }
    }

    /// A channel's head is the first message that none before has, or 0; then the messages are its
    /// own up to one without a next. In the end none is left.
    fn read_messages(&mut self, heads: &[u8], messages: &[u8]) -> Option<()> {
        let (mut places, rest) = messages.as_chunks::<MESSAGE>();
        let mut read = 0u16;
        for (heads, (from, node)) in heads.chunks_exact(2 * 11).zip(self.nodes.iter_mut().enumerate()) {
            for (at, &head) in heads.as_chunks().0.iter().enumerate() {
                let mut next = u16::from_le_bytes(head);
                while next != 0 {
                    let (place, left) = places.split_first()?;
                    places = left;
                    read += 1;
                    if next != read {
                        return None;
                    }
                    next = read_message(place, at + usize::from(from <= at), &mut node.out)?;
                }
            }
        }
        (places.is_empty() && rest.is_empty()).then_some(())
    }
}

/// Puts a message on the channel to a receiver, behind what is there, and gives the index of the
/// next.
fn read_message(place: &[u8; MESSAGE], to: usize, out: &mut Channels) -> Option<u16> {
    let (&[kind, value, low, high], lhs) = place.split_first_chunk()?;
    let lhs = values_in(lhs.first_chunk()?)?;
    let message = match (kind, value) {
        (1, 1..=8) if lhs.is_empty() => Message::Info { value },
        (2, 1..=8) => Message::Back { lhs, refused: value },
        (3, 0) if lhs.is_empty() => Message::AddLink,
        _ => return None,
    };
    out.send_one::<true>(to, message).ok()?;
    Some(u16::from_le_bytes([low, high]))
}

impl Agent {
    /// The record of an agent with these own values and the bans that are there.
    fn read(&mut self, values: u8, bytes: &[u8; AGENT]) -> Option<()> {
        let (&[value, last, low, high, below_low, below_high], rest) = bytes.split_first_chunk()?;
        let (view, rest) = rest.split_first_chunk()?;
        let (nogoods, counts) = rest.split_at(MAX_DOMAIN * (1 + MAX_AGENTS));
        (self.value, self.last, self.values) = (value, last, values);
        self.listens = set_in(u16::from_le_bytes([low, high]))?;
        self.informs = set_in(u16::from_le_bytes([below_low, below_high]))?;
        self.view = values_in(view)?;
        for agent in self.view.agents().iter() {
            let banned = u64::from(row(self.bans[agent], self.view.get(agent)));
            self.banned[agent / 8] |= banned << (8 * (agent % 8));
        }
        for (v, bytes) in nogoods.as_chunks().0.iter().enumerate() {
            self.read_nogood(v, bytes)?;
        }
        let mut numbers = counts.as_chunks().0.iter().map(|&number| u64::from_le_bytes(number));
        let mut three = || {
            let mut one = || numbers.next();
            Some(Counts { infos: one()?, backs: one()?, links: one()? })
        };
        (self.sent, self.received) = (three()?, three()?);
        Some(())
    }

    /// The nogood of the own value of bit `v`.
    fn read_nogood(&mut self, v: usize, bytes: &Nogood) -> Option<()> {
        let (&[stored], lhs) = bytes.split_first_chunk()?;
        self.nogoods[v] = values_in(lhs.first_chunk()?)?;
        self.stored |= stored << v;
        (stored == 1 || stored == 0 && self.nogoods[v].is_empty()).then_some(())
    }
}

// ---- bytes and digits

/// A byte for each agent's value.
#[inline(always)]
fn bytes_of(assignment: Assignment) -> Values {
    let mut bytes = [0; MAX_AGENTS];
    bytes[..8].copy_from_slice(&spread(assignment.0 as u32).to_le_bytes());
    bytes[8..].copy_from_slice(&spread((assignment.0 >> 32) as u32).to_le_bytes()[..4]);
    bytes
}

/// The assignment of twelve bytes, where each is a digit.
#[inline(always)]
fn values_in(bytes: &Values) -> Option<Assignment> {
    const DIGITS: u64 = 0x0f0f_0f0f_0f0f_0f0f;
    let (low, high) = bytes.split_first_chunk()?;
    let low = u64::from_le_bytes(*low);
    let high = u64::from(u32::from_le_bytes(*high.first_chunk()?));
    ((low | high) & !DIGITS == 0).then(|| Assignment(gather(low) | gather(high) << 32))
}

/// Eight digits, each in a byte.
#[inline(always)]
fn spread(digits: u32) -> u64 {
    let x = u64::from(digits);
    let x = (x | x << 16) & 0x0000_ffff_0000_ffff;
    let x = (x | x << 8) & 0x00ff_00ff_00ff_00ff;
    (x | x << 4) & 0x0f0f_0f0f_0f0f_0f0f
}

/// The digits of eight bytes, together.
#[inline(always)]
fn gather(bytes: u64) -> u64 {
    let x = (bytes | bytes >> 4) & 0x00ff_00ff_00ff_00ff;
    let x = (x | x >> 8) & 0x0000_ffff_0000_ffff;
    (x | x >> 16) & 0xffff_ffff
}

/// A bit for each member, agent 1 lowest.
#[inline(always)]
fn mask_of(set: AgentSet) -> u16 {
    let x = (set.0 | set.0 >> 3) & 0x0303_0303_0303;
    let x = (x | x >> 6) & 0x000f_000f_000f;
    (x | x >> 12 | x >> 24) as u16 & 0xfff
}

/// The set of a mask that names agents 1 to 12 alone.
#[inline(always)]
fn set_in(mask: u16) -> Option<AgentSet> {
    let x = u64::from(mask);
    let x = (x | x << 24 | x << 12) & 0x000f_000f_000f;
    let x = (x | x << 6) & 0x0303_0303_0303;
    (mask < 1 << MAX_AGENTS).then_some(AgentSet((x | x << 3) & ONES))
}

#[cfg(test)]
mod tests {
    use super::*;

    #[test]
    fn bytes_and_digits() {
        for agent in 0..MAX_AGENTS {
            for value in 0..16 {
                let one = Assignment::EMPTY.with(agent, value).with(11 - agent, 5);
                let bytes = bytes_of(one);
                assert!((0..MAX_AGENTS).all(|k| bytes[k] == one.get(k)));
                assert_eq!(values_in(&bytes), Some(one));
            }
            let mut bytes = [0; MAX_AGENTS];
            bytes[agent] = 16;
            assert_eq!(values_in(&bytes), None);
        }
    }

    #[test]
    fn masks() {
        for mask in 0..1 << MAX_AGENTS {
            let set = set_in(mask).expect("agents 1 to 12");
            assert!((0..16).all(|agent| set.has(agent) == (mask >> agent & 1 != 0)));
            assert_eq!(mask_of(set), mask);
        }
        assert_eq!(set_in(1 << MAX_AGENTS), None);
    }
}
