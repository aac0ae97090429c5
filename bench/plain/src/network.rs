//! The network (rail): agents, channels, start, delivery, run, asking a value.

use std::ops::ControlFlow;

use crate::agent::{Agent, Counts, Step};
use crate::assignment::{AgentSet, Assignment, MAX_AGENTS};
use crate::channel::{Channels, Full, Message, Packed};
use crate::problem::{domain_mask, Problem};
use crate::rule::Rule;
use crate::Rejection;

/// Rounds that a run uses at most.
pub const MAX_ROUNDS: u64 = 1_000_000;

/// An agent and the channels on which it sends.
#[derive(Clone, Copy)]
#[repr(align(64))]
pub(crate) struct Node {
    pub agent: Agent,
    pub out: Channels,
}

/// The network (rail).
#[derive(Clone)]
pub struct Network {
    pub(crate) n: usize,
    /// None in the empty network alone.
    pub(crate) rule: Option<Rule>,
    /// Domain of each agent (slot count), as packed digits; 0 beyond n.
    pub(crate) domains: Assignment,
    /// The verdict "none" stands.
    pub(crate) verdict: bool,
    pub(crate) nodes: [Node; MAX_AGENTS],
}

/// The word of a run.
#[derive(Clone, Copy, PartialEq, Eq, Debug)]
pub enum Word {
    None,
    Plan,
    Jammed,
    Open,
}

impl Word {
    pub fn text(self) -> &'static str {
        match self {
            Word::None => "none",
            Word::Plan => "plan",
            Word::Jammed => "jammed",
            Word::Open => "open",
        }
    }
}

/// What a run returns beside the network.
#[derive(Clone, Copy, PartialEq, Eq, Debug)]
pub struct Run {
    pub word: Word,
    /// Full rounds made.
    pub rounds: u64,
}

/// The agents that have something waiting on their channels, bit k for agent k. A run keeps it
/// to find them at once.
#[derive(Clone, Copy)]
struct Senders(u32);

impl Senders {
    #[inline(always)]
    fn put(&mut self, agent: usize, member: bool) {
        self.0 = self.0 & !(1 << agent) | u32::from(member) << agent;
    }

    fn is_empty(self) -> bool {
        self.0 == 0
    }
}

impl Iterator for Senders {
    type Item = usize;

    #[inline(always)]
    fn next(&mut self) -> Option<usize> {
        if self.0 == 0 {
            return None;
        }
        let agent = self.0.trailing_zeros() as usize;
        self.0 &= self.0 - 1;
        Some(agent)
    }
}

/// What a round has come to.
struct Round {
    /// Nothing that waited at its start was left.
    full: bool,
    /// Something was delivered.
    moved: bool,
}

impl Network {
    /// The empty network: n = 0, all else zero.
    pub const EMPTY: Network = Network {
        n: 0,
        rule: None,
        domains: Assignment::EMPTY,
        verdict: false,
        nodes: [Node { agent: Agent::BLANK, out: Channels::EMPTY }; MAX_AGENTS],
    };

    /// The start on a sheet, under the rule of a number: the rule is looked at first.
    pub fn start_sheet(rule: u8, sheet: &[u8]) -> Result<Network, Rejection> {
        let rule = Rule::numbered(rule)?;
        Ok(Network::start(rule, &Problem::decode(sheet)?))
    }

    /// The start: all views are unknown, each agent chooses.
    pub fn start(rule: Rule, problem: &Problem) -> Network {
        let mut network = Network::EMPTY;
        network.restart(rule, problem);
        network
    }

    /// A fresh start over a network already there.
    pub fn restart(&mut self, rule: Rule, problem: &Problem) {
        // What lies beyond n is blank already.
        let used = self.n.max(problem.n);
        self.n = problem.n;
        self.rule = Some(rule);
        self.domains = problem.domains;
        self.verdict = false;
        let mut informs = [AgentSet::EMPTY; MAX_AGENTS];
        for (number, Node { agent, out }) in self.nodes[..used].iter_mut().enumerate().rev() {
            let bans = &problem.bans[number];
            let mut listens = AgentSet::EMPTY;
            for above in 0..number {
                if bans[above] != 0 {
                    listens.add(above);
                    informs[above].add(number);
                }
            }
            // Unknown agents ban nothing: each takes its lowest value, and there is room. Nobody has
            // taken a value before, so all that are informed are told, whatever the rule.
            let value = u8::from(number < problem.n);
            *agent = Agent {
                value,
                last: value,
                values: domain_mask(problem.domain(number)),
                listens,
                informs: informs[number],
                sent: Counts::of_infos(informs[number].len()),
                bans: *bans,
                ..Agent::BLANK
            };
            out.clear();
            let _ = out.send::<false>(agent.informs, Message::Info { value: 1 });
        }
    }

    /// The number of agents.
    pub fn n(&self) -> usize {
        self.n
    }

    /// The rule; the empty network alone has none.
    pub fn rule(&self) -> Option<Rule> {
        self.rule
    }

    /// The number of values (slots) of an agent, counted from 0.
    pub(crate) fn domain(&self, agent: usize) -> u8 {
        self.domains.get(agent)
    }

    /// Is the rule the quiet one?
    fn is_quiet(&self) -> bool {
        self.rule == Some(Rule::Quiet)
    }

    /// Does the verdict "none" stand?
    pub fn verdict(&self) -> bool {
        self.verdict
    }

    /// The records of agents 1 to n.
    pub fn agents(&self) -> impl Iterator<Item = &Agent> {
        self.nodes[..self.n].iter().map(|node| &node.agent)
    }

    /// How many messages wait on a channel; agents counted from 0.
    pub fn waiting(&self, from: usize, to: usize) -> usize {
        self.nodes[from].out.waiting(to)
    }

    pub fn nothing_waits(&self) -> bool {
        self.nodes.iter().all(|node| node.out.counts == 0)
    }

    /// Delivers the head of the channel between two agents, by their numbers. A refused
    /// delivery leaves the network as it was.
    pub fn deliver(&mut self, from: u8, to: u8) -> Result<(), Rejection> {
        if !self.has_shape() {
            return Err(Rejection::Shape);
        }
        let (from, to) = (usize::from(from).wrapping_sub(1), usize::from(to).wrapping_sub(1));
        if from >= self.n || to >= self.n || from == to {
            return Err(Rejection::Numbers);
        }
        if self.verdict {
            return Err(Rejection::Verdict);
        }
        if self.waiting(from, to) == 0 {
            return Err(Rejection::Empty);
        }
        let delivered = if self.is_quiet() {
            self.deliver_waiting::<true>(from, to)
        } else {
            self.deliver_waiting::<false>(from, to)
        };
        match delivered {
            Ok(_) => Ok(()),
            Err(Full) => Err(Rejection::Room),
        }
    }

    /// The value (slot) of an agent, by its number; 0 for one that the verdict left without.
    pub fn value(&self, agent: u8) -> Result<u8, Rejection> {
        if !self.has_shape() {
            return Err(Rejection::Shape);
        }
        match self.agents().nth(usize::from(agent).wrapping_sub(1)) {
            Some(agent) => Ok(agent.value),
            None => Err(Rejection::Numbers),
        }
    }

    /// The run: at most `rounds` rounds.
    pub fn run(&mut self, rounds: u64) -> Result<Run, Rejection> {
        if !self.has_shape() {
            return Err(Rejection::Shape);
        }
        Ok(if self.is_quiet() {
            self.run_in_shape::<true>(rounds)
        } else {
            self.run_in_shape::<false>(rounds)
        })
    }

    fn run_in_shape<const QUIET: bool>(&mut self, rounds: u64) -> Run {
        let mut left = rounds.min(MAX_ROUNDS);
        let mut made = 0;
        let mut senders = Senders(0);
        for (agent, node) in self.nodes.iter().enumerate() {
            senders.put(agent, node.out.counts != 0);
        }
        let word = loop {
            if self.verdict {
                break Word::None;
            }
            if senders.is_empty() {
                break Word::Plan;
            }
            if left == 0 {
                break Word::Open;
            }
            left -= 1;
            let round = self.round::<QUIET>(&mut senders);
            made += u64::from(round.full);
            if !round.moved {
                break Word::Jammed;
            }
        };
        Run { word, rounds: made }
    }

    /// One round: the channels by sender, then receiver, upward; of each as many messages as
    /// it held when the round began. It stops at a verdict.
    fn round<const QUIET: bool>(&mut self, senders: &mut Senders) -> Round {
        let visited = *senders;
        let mut quotas = [0; MAX_AGENTS];
        for from in visited {
            quotas[from] = self.nodes[from].out.counts;
        }
        let mut round = Round { full: true, moved: false };
        for from in visited {
            if self.deliver_from::<QUIET>(from, quotas[from], senders, &mut round).is_break() {
                round.full &= quotas[from + 1..].iter().all(|&quota| quota == 0);
                break;
            }
        }
        round
    }

    /// One sender's part of a round: as many messages of each of its channels as the digits of
    /// `quota` say. A channel without room (10) is passed over for the rest of the round.
    #[inline(never)]
    fn deliver_from<const QUIET: bool>(
        &mut self,
        from: usize,
        mut quota: u64,
        senders: &mut Senders,
        round: &mut Round,
    ) -> ControlFlow<()> {
        while quota != 0 {
            let at = quota.trailing_zeros() & !3;
            let to = at as usize / 4;
            quota -= 1 << at;
            match self.deliver_waiting::<QUIET>(from, to) {
                Ok(step) => {
                    round.moved = true;
                    if step == Step::Verdict {
                        round.full &= quota == 0;
                        return ControlFlow::Break(());
                    }
                    senders.put(to, self.nodes[to].out.counts != 0);
                }
                Err(Full) => {
                    round.full = false;
                    quota &= !(15 << at);
                }
            }
        }
        senders.put(from, self.nodes[from].out.counts != 0);
        ControlFlow::Continue(())
    }

    /// Delivers the head of a channel that is not empty, on a network in shape with no
    /// verdict; only room may be missing.
    #[inline(always)]
    fn deliver_waiting<const QUIET: bool>(&mut self, from: usize, to: usize) -> Result<Step, Full> {
        let message = self.nodes[from].out.head(to);
        let Node { agent, out } = &mut self.nodes[to];
        // A delivery sends at most one message on a channel, but two, an AddLink and a Back, where
        // it begins to listen; and on that channel nothing waits, by the shape. So it has room
        // while no channel is full.
        let step = if out.none_is_full() {
            match agent.receive::<QUIET, false>(from, message.unpack(), out) {
                Ok(step) => step,
                Err(Full) => unreachable!(),
            }
        } else {
            self.nodes[to].receive_or_undo::<QUIET>(from, message)?
        };
        self.nodes[from].out.pop(to);
        if step == Step::Verdict {
            self.verdict = true;
        }
        Ok(step)
    }
}

impl Node {
    /// Where a channel is full: each message is checked, and the first that finds no
    /// room undoes the delivery.
    #[inline(never)]
    fn receive_or_undo<const QUIET: bool>(&mut self, from: usize, message: Packed) -> Result<Step, Full> {
        let Node { agent, out } = self;
        let before = (*agent, out.counts, out.tails);
        agent.receive::<QUIET, true>(from, message.unpack(), out).inspect_err(|_| {
            // What was written lies in unused places.
            (*agent, out.counts, out.tails) = before;
        })
    }
}
