//! Messages, and the channels (lines) on which one agent sends.

use crate::assignment::{shift, AgentSet, Assignment, MAX_AGENTS, ONES};

/// Messages that a channel (line) holds at most.
pub const CAPACITY: usize = 8;

/// A message is exactly one of three.
#[derive(Clone, Copy, PartialEq, Eq, Debug)]
pub enum Message {
    /// News: the sender's value. From lower to higher number.
    Info { value: u8 },
    /// Refusal: the lhs (left side) and the value that the receiver must not take. From
    /// higher to lower number.
    Back { lhs: Assignment, refused: u8 },
    /// Link request. From higher to lower number.
    AddLink,
}

/// A message as a channel's place holds it, in one word: the lhs in the low 48 bits, the value
/// above it, then the kind.
#[derive(Clone, Copy, PartialEq, Eq, Debug)]
pub(crate) struct Packed(u64);

impl Packed {
    const VALUE: u32 = 48;
    const KIND: u32 = 56;
    const BACK: u64 = 1;
    const ADD_LINK: u64 = 2;

    #[inline(always)]
    pub fn unpack(self) -> Message {
        let value = (self.0 >> Packed::VALUE) as u8;
        match self.0 >> Packed::KIND {
            Packed::BACK => {
                Message::Back { lhs: Assignment(self.0 & ((1 << Packed::VALUE) - 1)), refused: value }
            }
            Packed::ADD_LINK => Message::AddLink,
            _ => Message::Info { value },
        }
    }
}

impl From<Message> for Packed {
    #[inline(always)]
    fn from(message: Message) -> Packed {
        Packed(match message {
            Message::Info { value } => u64::from(value) << Packed::VALUE,
            Message::Back { lhs, refused } => {
                lhs.0 | u64::from(refused) << Packed::VALUE | Packed::BACK << Packed::KIND
            }
            Message::AddLink => Packed::ADD_LINK << Packed::KIND,
        })
    }
}

/// A channel would come to hold more than eight.
#[derive(Debug)]
pub(crate) struct Full;

/// The channels of one sender, each a ring of eight places.
#[derive(Clone, Copy)]
pub(crate) struct Channels {
    /// How many messages wait for each receiver, as digits.
    pub counts: u64,
    /// The place of the next message to each receiver, as digits from 0 to 7.
    pub tails: u64,
    /// The places, by receiver. What an unused place holds is no part of the network.
    pub rings: [[Packed; CAPACITY]; MAX_AGENTS],
}

impl Channels {
    pub const EMPTY: Channels = Channels { counts: 0, tails: 0, rings: [[Packed(0); CAPACITY]; MAX_AGENTS] };

    /// Takes all messages away.
    pub fn clear(&mut self) {
        self.counts = 0;
        self.tails = 0;
    }

    pub fn waiting(&self, to: usize) -> usize {
        (self.counts >> shift(to)) as usize & 15
    }

    /// How many messages wait in all: the digits of each byte together, then the bytes.
    pub fn len(&self) -> u64 {
        const LOW: u64 = 0x0f0f_0f0f_0f0f_0f0f;
        ((self.counts & LOW) + (self.counts >> 4 & LOW)).wrapping_mul(0x0101_0101_0101_0101) >> 56
    }

    /// The first message to a receiver. Only where one waits.
    #[inline(always)]
    pub fn head(&self, to: usize) -> Packed {
        let head = (self.tails >> shift(to)).wrapping_sub(self.counts >> shift(to));
        self.rings[to][head as usize & (CAPACITY - 1)]
    }

    /// Takes the first message to a receiver away. Only where one waits.
    #[inline(always)]
    pub fn pop(&mut self, to: usize) {
        self.counts -= 1 << shift(to);
    }

    /// The messages to a receiver, head first.
    pub fn messages(&self, to: usize) -> impl Iterator<Item = Message> + '_ {
        let count = self.waiting(to);
        let tail = (self.tails >> shift(to)) as usize;
        (0..count).map(move |i| self.rings[to][tail.wrapping_sub(count - i) & (CAPACITY - 1)].unpack())
    }

    /// Does no channel hold eight?
    #[inline(always)]
    pub fn none_is_full(&self) -> bool {
        self.counts & (8 * ONES) == 0
    }

    /// Sends the same message to each agent of the set. With `CHECKED` it refuses a ninth on a
    /// channel; without, the caller knows that there is room.
    #[inline(always)]
    pub fn send<const CHECKED: bool>(&mut self, to: AgentSet, message: Message) -> Result<(), Full> {
        if CHECKED && self.counts >> 3 & to.0 != 0 {
            return Err(Full);
        }
        let packed = Packed::from(message);
        for agent in to.iter() {
            self.rings[agent][(self.tails >> shift(agent)) as usize & (CAPACITY - 1)] = packed;
        }
        self.advance(to);
        Ok(())
    }

    /// As `send`, to one agent.
    #[inline(always)]
    pub fn send_one<const CHECKED: bool>(&mut self, to: usize, message: Message) -> Result<(), Full> {
        if CHECKED && self.counts >> 3 & AgentSet::one(to).0 != 0 {
            return Err(Full);
        }
        self.rings[to][(self.tails >> shift(to)) as usize & (CAPACITY - 1)] = Packed::from(message);
        self.advance(AgentSet::one(to));
        Ok(())
    }

    #[inline(always)]
    fn advance(&mut self, to: AgentSet) {
        self.counts += to.0;
        self.tails = (self.tails + to.0) & (7 * ONES);
    }
}

#[cfg(test)]
mod tests {
    use super::*;

    #[test]
    fn packing() {
        let lhs = Assignment::EMPTY.with(0, 8).with(11, 3);
        for message in [Message::Info { value: 8 }, Message::Back { lhs, refused: 7 }, Message::AddLink] {
            assert_eq!(Packed::from(message).unpack(), message);
        }
    }

    #[test]
    fn first_in_first_out() {
        let mut channels = Channels::EMPTY;
        for value in 1..=30 {
            assert!(channels.send_one::<true>(5, Message::Info { value }).is_ok());
            assert!(channels.send_one::<true>(5, Message::AddLink).is_ok());
            assert_eq!(channels.messages(5).collect::<Vec<_>>(), [Message::Info { value }, Message::AddLink]);
            assert_eq!(channels.head(5).unpack(), Message::Info { value });
            channels.pop(5);
            assert_eq!(channels.head(5).unpack(), Message::AddLink);
            channels.pop(5);
        }
        for count in 0..8 {
            assert_eq!((channels.waiting(11), channels.none_is_full()), (count, true));
            assert!(channels.send_one::<true>(11, Message::AddLink).is_ok());
        }
        assert!(!channels.none_is_full());
        assert!(channels.send_one::<true>(11, Message::AddLink).is_err());
        assert!(channels.send::<true>(AgentSet(ONES), Message::AddLink).is_err());
        assert_eq!((channels.waiting(11), channels.waiting(5), channels.waiting(10)), (8, 0, 0));
        for receiver in 0..11 {
            assert_eq!(channels.len(), 8 * (receiver as u64 + 1));
            (0..8).for_each(|_| assert!(channels.send_one::<true>(receiver, Message::AddLink).is_ok()));
        }
    }
}
