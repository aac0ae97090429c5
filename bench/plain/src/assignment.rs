//! Packed partial assignments and packed sets of agents.
//!
//! Agents are counted from 0 inside the code: agent `k` of the code is number
//! `k + 1` outside. In a packed word, agent `k` owns the four bits from `4 * k`.

/// At most twelve agents (scanners).
pub const MAX_AGENTS: usize = 12;
/// At most eight values (slots) for each.
pub const MAX_DOMAIN: usize = 8;

/// The lowest bit of each digit of agents 1 to 12.
pub(crate) const ONES: u64 = 0x1111_1111_1111;

/// Where the digit of `agent` begins.
#[inline(always)]
pub(crate) fn shift(agent: usize) -> u32 {
    4 * agent as u32
}

/// The digit mask of one agent.
#[inline(always)]
pub(crate) fn digit_mask(agent: usize) -> u64 {
    15 << shift(agent)
}

/// A partial assignment: a value or unknown (0) for each agent. Used for the view and
/// for an lhs (left side).
#[derive(Clone, Copy, PartialEq, Eq, Default, Debug)]
pub struct Assignment(pub u64);

impl Assignment {
    pub const EMPTY: Assignment = Assignment(0);

    #[inline(always)]
    pub fn is_empty(self) -> bool {
        self.0 == 0
    }

    /// The agent's value, 0 for unknown.
    #[inline(always)]
    pub fn get(self, agent: usize) -> u8 {
        (self.0 >> shift(agent)) as u8 & 15
    }

    #[inline(always)]
    pub fn with(self, agent: usize, value: u8) -> Assignment {
        Assignment(self.0 & !digit_mask(agent) | u64::from(value) << shift(agent))
    }

    #[inline(always)]
    pub fn without(self, agent: usize) -> Assignment {
        Assignment(self.0 & !digit_mask(agent))
    }

    /// Only the digit of `agent`.
    #[inline(always)]
    pub fn only(self, agent: usize) -> Assignment {
        Assignment(self.0 & digit_mask(agent))
    }

    #[inline(always)]
    pub fn names(self, agent: usize) -> bool {
        self.0 & digit_mask(agent) != 0
    }

    /// The agents named, as a set. Meant for whole words too: a digit beyond agent 12
    /// gives a member beyond agent 12.
    #[inline(always)]
    pub fn agents(self) -> AgentSet {
        let x = self.0 | self.0 >> 1;
        AgentSet((x | x >> 2) & 0x1111_1111_1111_1111)
    }

    /// The highest-numbered agent named. Only for a nonempty assignment.
    #[inline(always)]
    pub fn highest(self) -> usize {
        (63 - self.0.leading_zeros()) as usize / 4
    }

    /// Does every agent of `among` that is named here have the same value in `view`?
    #[inline(always)]
    pub fn agrees_on(self, view: Assignment, among: AgentSet) -> bool {
        (self.0 ^ view.0) & (self.agents().0 & among.0).wrapping_mul(15) == 0
    }

    /// Does every agent named here have the same value in `view`?
    #[inline(always)]
    pub fn within(self, view: Assignment) -> bool {
        (self.0 ^ view.0) & self.agents().0.wrapping_mul(15) == 0
    }

    /// Is each digit at most the digit of `bound`?
    #[inline]
    pub fn at_most(self, bound: Assignment) -> bool {
        const LOW: u64 = 0x0f0f_0f0f_0f0f_0f0f;
        const TOP: u64 = 0x8080_8080_8080_8080;
        let even = (bound.0 & LOW | TOP) - (self.0 & LOW);
        let odd = (bound.0 >> 4 & LOW | TOP) - (self.0 >> 4 & LOW);
        even & odd & TOP == TOP
    }
}

/// A set of agents: digit 1 for a member, 0 for the others.
#[derive(Clone, Copy, PartialEq, Eq, Default, Debug)]
pub struct AgentSet(pub u64);

impl AgentSet {
    pub const EMPTY: AgentSet = AgentSet(0);

    #[inline(always)]
    pub fn one(agent: usize) -> AgentSet {
        AgentSet(1 << shift(agent))
    }

    /// The agents before `agent` in the order: those above it.
    #[inline(always)]
    pub fn above(agent: usize) -> AgentSet {
        AgentSet(ONES & ((1 << shift(agent)) - 1))
    }

    #[inline(always)]
    pub fn has(self, agent: usize) -> bool {
        self.0 >> shift(agent) & 1 != 0
    }

    #[inline(always)]
    pub fn add(&mut self, agent: usize) {
        self.0 |= 1 << shift(agent);
    }

    #[inline(always)]
    pub fn union(self, other: AgentSet) -> AgentSet {
        AgentSet(self.0 | other.0)
    }

    #[inline(always)]
    pub fn minus(self, other: AgentSet) -> AgentSet {
        AgentSet(self.0 & !other.0)
    }

    #[inline(always)]
    pub fn is_empty(self) -> bool {
        self.0 == 0
    }

    #[inline(always)]
    pub fn within(self, other: AgentSet) -> bool {
        self.0 & !other.0 == 0
    }

    /// How many members: the sum of the digits, each 0 or 1, comes to stand in the highest.
    #[inline(always)]
    pub fn len(self) -> u64 {
        self.0.wrapping_mul(0x1111_1111_1111_1111) >> 60
    }

    /// The members, upward.
    #[inline(always)]
    pub fn iter(self) -> Members {
        Members(self.0)
    }
}

pub struct Members(u64);

impl Iterator for Members {
    type Item = usize;

    #[inline(always)]
    fn next(&mut self) -> Option<usize> {
        if self.0 == 0 {
            return None;
        }
        let agent = self.0.trailing_zeros() as usize / 4;
        self.0 &= self.0 - 1;
        Some(agent)
    }
}

#[cfg(test)]
mod tests {
    use super::*;

    #[test]
    fn digits() {
        let a = Assignment::EMPTY.with(0, 3).with(11, 8).with(4, 1);
        assert_eq!((a.get(0), a.get(4), a.get(11), a.get(5)), (3, 1, 8, 0));
        assert_eq!(a.highest(), 11);
        assert_eq!(a.without(11).highest(), 4);
        assert_eq!(a.agents().iter().collect::<Vec<_>>(), [0, 4, 11]);
        assert!(a.without(0).within(a));
        assert!(!a.within(a.without(0)));
        assert!(!a.with(0, 2).within(a));
        assert!(a.with(0, 2).agrees_on(a, AgentSet::one(4)));
        assert!(!a.agrees_on(a.without(4), AgentSet::one(4)));
    }

    #[test]
    fn bounds() {
        let bound = Assignment::EMPTY.with(0, 3).with(1, 8).with(2, 1);
        for agent in 0..16 {
            for value in 0..16 {
                let a = Assignment::EMPTY.with(agent, value);
                assert_eq!(a.at_most(bound), value <= bound.get(agent));
            }
        }
    }
}
