//! One agent (scanner): its record and its rules, in place.

use crate::assignment::{AgentSet, Assignment, MAX_DOMAIN};
use crate::channel::{Channels, Full, Message};
use crate::problem::{bit, row, BanRow};

/// How many messages of each sort. A count stays at the top when it reaches it.
#[derive(Clone, Copy, PartialEq, Eq, Debug)]
pub struct Counts {
    pub infos: u64,
    pub backs: u64,
    pub links: u64,
}

impl Counts {
    const NONE: Counts = Counts { infos: 0, backs: 0, links: 0 };

    /// So many Infos, and nothing else.
    pub(crate) fn of_infos(infos: u64) -> Counts {
        Counts { infos, ..Counts::NONE }
    }
}

/// Counts so many more.
#[inline(always)]
fn raise(count: &mut u64, by: u64) {
    *count = count.saturating_add(by);
}

/// The record of an agent (scanner), with its domain and bans.
#[derive(Clone, Copy)]
pub struct Agent {
    /// Its value (slot), 0 for none.
    pub(crate) value: u8,
    /// The last value that it took, 0 for none yet.
    pub(crate) last: u8,
    /// Own values that have a nogood, bit v - 1 for value v.
    pub(crate) stored: u8,
    /// All own values, as such a mask.
    pub(crate) values: u8,
    /// The agents above it that it listens to.
    pub(crate) listens: AgentSet,
    /// The agents below it that it informs.
    pub(crate) informs: AgentSet,
    /// The view: a value or unknown for each agent it listens to.
    pub(crate) view: Assignment,
    /// The nogood (stored reason) of each own value: an lhs. It counts where `stored` says so.
    pub(crate) nogoods: [Assignment; MAX_DOMAIN],
    /// The messages that it sent and received.
    pub(crate) sent: Counts,
    pub(crate) received: Counts,
    /// Derived from the view and the bans: byte k holds the own values banned against the
    /// known value of agent k.
    pub(crate) banned: [u64; 2],
    /// The bans that name it together with an agent above.
    pub(crate) bans: BanRow,
}

/// Did a verdict fall?
#[derive(Clone, Copy, PartialEq, Eq)]
pub(crate) enum Step {
    Settled,
    Verdict,
}

/// The lowest bit of each byte.
const LOWEST: u64 = 0x0101_0101_0101_0101;

impl Agent {
    /// No value, no links, nothing known.
    pub(crate) const BLANK: Agent = Agent {
        value: 0,
        last: 0,
        stored: 0,
        values: 0,
        listens: AgentSet::EMPTY,
        informs: AgentSet::EMPTY,
        view: Assignment::EMPTY,
        nogoods: [Assignment::EMPTY; MAX_DOMAIN],
        sent: Counts::NONE,
        received: Counts::NONE,
        banned: [0; 2],
        bans: [0; crate::MAX_AGENTS],
    };

    /// Its value (slot), if it has one.
    pub fn value(&self) -> Option<u8> {
        (self.value != 0).then_some(self.value)
    }

    /// The last value that it took, 0 for none yet.
    pub fn last(&self) -> u8 {
        self.last
    }

    /// The messages that it sent, and those that it received.
    pub fn counts(&self) -> (Counts, Counts) {
        (self.sent, self.received)
    }

    /// Is there nothing in the record, and no ban?
    pub(crate) fn is_blank(&self) -> bool {
        let words = self.listens.0 | self.informs.0 | self.view.0;
        let bytes = self.value | self.last | self.stored;
        let nothing = bytes == 0 && self.bans.iter().fold(words, |all, word| all | word) == 0;
        nothing && self.sent == Counts::NONE && self.received == Counts::NONE
    }

    /// The own values banned against some known value of the view.
    #[inline(always)]
    fn banned_values(&self) -> u8 {
        let x = self.banned[0] | self.banned[1];
        let x = x | x >> 32;
        let x = x | x >> 16;
        (x | x >> 8) as u8
    }

    /// Is the own value of bit `v` banned against some known value of the view?
    #[inline(always)]
    fn is_banned(&self, v: u32) -> bool {
        (self.banned[0] | self.banned[1]) >> v & LOWEST != 0
    }

    /// Whom to blame for the own value of bit `v`: of the agents whose known value bans it, the
    /// lowest-numbered one that some nogood names already, else the lowest-numbered. Only where
    /// there is one.
    #[inline(always)]
    fn blamed(&self, v: usize) -> usize {
        let low = self.banned[0] >> v & LOWEST;
        let high = self.banned[1] >> v & LOWEST;
        let lowest =
            if low != 0 { low.trailing_zeros() as usize / 8 } else { 8 + high.trailing_zeros() as usize / 8 };
        // Nobody else: neither word has a mark beside that one.
        if low & low.wrapping_sub(1) | high & high.wrapping_sub(u64::from(low == 0)) == 0 {
            return lowest;
        }
        let named = self.union();
        for (mut marks, first) in [(low, 0), (high, 8)] {
            while marks != 0 {
                let agent = first + marks.trailing_zeros() as usize / 8;
                if named.names(agent) {
                    return agent;
                }
                marks &= marks - 1;
            }
        }
        lowest
    }

    /// The nogoods joined.
    #[inline(always)]
    fn union(&self) -> Assignment {
        let mut union = 0;
        for (v, nogood) in self.nogoods.iter().enumerate() {
            union |= if self.stored >> v & 1 != 0 { nogood.0 } else { 0 };
        }
        Assignment(union)
    }

    /// Sets the view of one agent, 0 for unknown.
    #[inline(always)]
    fn see(&mut self, agent: usize, value: u8) {
        self.view = self.view.with(agent, value);
        let word = &mut self.banned[(agent / 8) & 1];
        let at = 8 * (agent as u32 & 7);
        *word = *word & !(0xff << at) | u64::from(row(self.bans[agent], value)) << at;
    }

    /// Drops the nogoods that name an agent.
    #[inline(always)]
    fn drop_naming(&mut self, agent: usize) {
        let mut naming = 0;
        for (v, nogood) in self.nogoods.iter().enumerate() {
            naming |= u8::from(nogood.names(agent)) << v;
        }
        self.stored &= !naming;
    }

    /// Takes a message from `sender` and sends what it sends. An AddLink comes only from an
    /// agent not yet informed, by the shape. `QUIET` is the network's rule; it is known before
    /// the code runs, so that neither rule pays for the other.
    #[inline(always)]
    pub(crate) fn receive<const QUIET: bool, const CHECKED: bool>(
        &mut self,
        sender: usize,
        message: Message,
        out: &mut Channels,
    ) -> Result<Step, Full> {
        match message {
            Message::Info { value } => {
                raise(&mut self.received.infos, 1);
                self.info::<QUIET, CHECKED>(sender, value, out)
            }
            Message::Back { lhs, refused } => {
                raise(&mut self.received.backs, 1);
                self.back::<QUIET, CHECKED>(sender, lhs, refused, out)
            }
            Message::AddLink => {
                raise(&mut self.received.links, 1);
                self.informs.add(sender);
                self.tell::<CHECKED>(sender, out)
            }
        }
    }

    /// Sends its value to one agent.
    #[inline(always)]
    fn tell<const CHECKED: bool>(&mut self, agent: usize, out: &mut Channels) -> Result<Step, Full> {
        out.send_one::<CHECKED>(agent, Message::Info { value: self.value })?;
        raise(&mut self.sent.infos, 1);
        Ok(Step::Settled)
    }

    /// News.
    #[inline(always)]
    fn info<const QUIET: bool, const CHECKED: bool>(
        &mut self,
        sender: usize,
        value: u8,
        out: &mut Channels,
    ) -> Result<Step, Full> {
        let old = self.view.get(sender);
        if old != value {
            self.see(sender, value);
            // A nogood agrees with the view, so none names an unknown agent.
            if old != 0 {
                self.drop_naming(sender);
            }
        }
        if self.is_banned(u32::from(self.value - 1)) {
            self.choose::<QUIET, CHECKED>(AgentSet::EMPTY, out)
        } else {
            Ok(Step::Settled)
        }
    }

    /// Refusal.
    #[inline(always)]
    fn back<const QUIET: bool, const CHECKED: bool>(
        &mut self,
        sender: usize,
        lhs: Assignment,
        refused: u8,
        out: &mut Channels,
    ) -> Result<Step, Full> {
        if refused != self.value {
            return Ok(Step::Settled);
        }
        if !lhs.agrees_on(self.view, self.listens) {
            return self.tell::<CHECKED>(sender, out);
        }
        for agent in lhs.agents().minus(self.listens).iter() {
            out.send_one::<CHECKED>(agent, Message::AddLink)?;
            raise(&mut self.sent.links, 1);
            self.listens.add(agent);
            self.see(agent, lhs.get(agent));
        }
        self.nogoods[usize::from(refused - 1) & 7] = lhs;
        self.stored |= bit(refused);
        self.choose::<QUIET, CHECKED>(AgentSet::one(sender), out)
    }

    /// Whom it tells that it takes `value`. The refuser is the sender of the Back being worked,
    /// if there is one.
    #[inline(always)]
    fn told<const QUIET: bool>(&self, refuser: AgentSet, value: u8) -> AgentSet {
        if !QUIET {
            self.informs
        } else if value == self.last {
            refuser
        } else {
            self.informs.union(refuser)
        }
    }

    /// Choosing and backing up, until a value is taken or the verdict falls.
    #[inline(always)]
    fn choose<const QUIET: bool, const CHECKED: bool>(
        &mut self,
        refuser: AgentSet,
        out: &mut Channels,
    ) -> Result<Step, Full> {
        loop {
            let banned = self.banned_values() & !self.stored;
            let free = self.values & !self.stored & !banned;
            // The values below the lowest free one; all where none is free.
            let tried = self.values & (free.wrapping_sub(1) & !free);
            let mut blaming = banned & tried;
            while blaming != 0 {
                let v = blaming.trailing_zeros() as usize & 7;
                self.nogoods[v] = self.view.only(self.blamed(v));
                self.stored |= 1 << v;
                blaming &= blaming - 1;
            }
            if free != 0 {
                let value = free.trailing_zeros() as u8 + 1;
                let told = self.told::<QUIET>(refuser, value);
                (self.value, self.last) = (value, value);
                out.send::<CHECKED>(told, Message::Info { value })?;
                raise(&mut self.sent.infos, told.len());
                return Ok(Step::Settled);
            }
            let union = self.union();
            if union.is_empty() {
                self.value = 0;
                return Ok(Step::Verdict);
            }
            let highest = union.highest();
            let (lhs, refused) = (union.without(highest), union.get(highest));
            out.send_one::<CHECKED>(highest, Message::Back { lhs, refused })?;
            raise(&mut self.sent.backs, 1);
            self.see(highest, 0);
            self.drop_naming(highest);
        }
    }
}
