//! The shape of a network.

use crate::agent::Agent;
use crate::assignment::{AgentSet, Assignment, MAX_AGENTS, MAX_DOMAIN, ONES};
use crate::channel::{Message, CAPACITY};
use crate::network::{Network, Node};
use crate::problem::domain_mask;

impl Network {
    /// Is the network in shape?
    pub fn has_shape(&self) -> bool {
        let n = self.n;
        // n, rule and domains in range.
        if !(1..=MAX_AGENTS).contains(&n)
            || self.rule.is_none()
            || self.domains.agents() != AgentSet::above(n)
            || !self.domains.at_most(Assignment(MAX_DOMAIN as u64 * ONES))
        {
            return false;
        }
        let (inside, beyond) = self.nodes.split_at(n);
        let mut informed = [AgentSet::EMPTY; MAX_AGENTS];
        for (number, Node { agent, .. }) in inside.iter().enumerate() {
            if !self.agent_has_shape(number, agent) {
                return false;
            }
            // It informs only agents below it, up to n.
            agent.informs.iter().for_each(|below| informed[below].add(number));
        }
        inside.iter().enumerate().all(|(number, node)| {
            // Banned pairs listen and inform; whoever is informed listens.
            informed[number].within(node.agent.listens)
                && self.banning(number, &node.agent).is_some_and(|above| above.within(informed[number]))
                && self.channels_have_shape(number, node)
        }) && beyond.iter().all(|node| node.agent.is_blank() && node.out.counts == 0)
    }

    /// An agent by itself.
    fn agent_has_shape(&self, number: usize, agent: &Agent) -> bool {
        let domain = self.domain(number);
        let below = AgentSet::above(self.n).minus(AgentSet::above(number + 1));
        // It holds an owned value; only under a verdict may it have none.
        let holds = agent.value <= domain && (agent.value != 0 || self.verdict);
        // The last one that it took is owned, and the one held if one is.
        let took = 1 <= agent.last && agent.last <= domain && (agent.value == 0 || agent.value == agent.last);
        holds
            && took
            && agent.listens.within(AgentSet::above(number))
            && agent.informs.within(below)
            // The view names only agents listened to, with values they own.
            && agent.view.agents().within(agent.listens)
            && agent.view.at_most(self.domains)
            // A nogood stands at an owned value and names only agents whose value in the
            // view is the same.
            && agent.stored & !domain_mask(domain) == 0
            && (0..MAX_DOMAIN).all(|v| agent.stored >> v & 1 == 0 || agent.nogoods[v].within(agent.view))
    }

    /// The agents above that are banned against this one somewhere; none where a ban is not
    /// between owned values.
    fn banning(&self, number: usize, agent: &Agent) -> Option<AgentSet> {
        let own = 0x0101_0101_0101_0101 * u64::from(domain_mask(self.domain(number)));
        let mut banning = AgentSet::EMPTY;
        for (other, &word) in agent.bans.iter().enumerate() {
            if word != 0 {
                let rows = u64::MAX >> (64 - 8 * u32::from(self.domain(other).max(1)));
                if other >= number || word & !(own & rows) != 0 {
                    return None;
                }
                banning.add(other);
            }
        }
        Some(banning)
    }

    fn channels_have_shape(&self, from: usize, node: &Node) -> bool {
        let receivers = Assignment(node.out.counts).agents();
        receivers.within(AgentSet::above(self.n).minus(AgentSet::one(from)))
            && receivers.iter().all(|to| {
                let mut asked = self.nodes[to].agent.informs.has(from);
                let mut fits = |message| self.message_has_shape(from, to, message, &mut asked);
                node.out.waiting(to) <= CAPACITY && node.out.messages(to).all(&mut fits)
            })
    }

    /// One message. No AddLink may wait where one was asked for: the receiver informs the sender
    /// already, or another waits in front.
    fn message_has_shape(&self, from: usize, to: usize, message: Message, asked: &mut bool) -> bool {
        let owned = |agent, value| 1 <= value && value <= self.domain(agent);
        let listens = |agent: usize, other| self.nodes[agent].agent.listens.has(other);
        match message {
            Message::Info { value } => from < to && owned(from, value) && listens(to, from),
            Message::Back { lhs, refused } => {
                from > to
                    && owned(to, refused)
                    && listens(from, to)
                    && lhs.agents().within(AgentSet::above(to))
                    && lhs.at_most(self.domains)
            }
            Message::AddLink => from > to && listens(from, to) && !std::mem::replace(asked, true),
        }
    }
}

#[cfg(test)]
mod tests {
    use super::*;
    use crate::sheet::{encode, Rows};
    use crate::{Rejection, Rule};

    /// Three agents without a ban: the last listens to both others, which do not inform it, and
    /// has asked agent 2, by its number, for a link.
    fn asking() -> Network {
        let sheet = encode(&[2, 2, 2], Rows::Slots(&[]));
        let mut network = Network::start_sheet(Rule::Loud.number(), &sheet).expect("a good sheet");
        network.nodes[2].agent.listens = AgentSet::above(2);
        ask(&mut network, 1);
        network
    }

    fn ask(network: &mut Network, to: usize) {
        network.nodes[2].out.send_one::<true>(to, Message::AddLink).expect("room");
    }

    fn is_refused(mut network: Network) -> bool {
        !network.has_shape()
            && network.deliver(3, 2) == Err(Rejection::Shape)
            && network.value(1) == Err(Rejection::Shape)
            && network.run(1) == Err(Rejection::Shape)
    }

    #[test]
    fn links_asked_for() {
        let mut network = asking();
        network.nodes[0].agent.informs.add(2);
        assert!(network.has_shape());
        let mut network = asking();
        ask(&mut network, 0);
        assert!(network.has_shape());
        assert_eq!(network.deliver(3, 2), Ok(()));
        assert!(network.has_shape() && network.nodes[1].agent.informs.has(2));
    }

    #[test]
    fn links_asked_for_twice() {
        let mut network = asking();
        network.nodes[1].agent.informs.add(2);
        assert!(is_refused(network));
        let mut network = asking();
        ask(&mut network, 1);
        assert!(is_refused(network));
        let mut network = asking();
        let refusal = Message::Back { lhs: Assignment::EMPTY, refused: 1 };
        network.nodes[2].out.send_one::<true>(1, refusal).expect("room");
        assert!(network.has_shape());
        ask(&mut network, 1);
        assert!(is_refused(network));
    }
}
