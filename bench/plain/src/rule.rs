//! The rule of a network: whom an agent tells of the value (slot) that it takes.

use crate::Rejection;

#[derive(Clone, Copy, PartialEq, Eq, Debug)]
#[repr(u8)]
pub enum Rule {
    /// All that it informs.
    Loud = 1,
    /// Nobody where the value is the last that it took, else all that it informs; and in any
    /// case the agent whose Back is being worked.
    Quiet = 2,
}

impl Rule {
    pub const BOTH: [Rule; 2] = [Rule::Loud, Rule::Quiet];

    /// The rule of a number, 1 or 2.
    pub fn numbered(number: u8) -> Result<Rule, Rejection> {
        Rule::BOTH.into_iter().find(|rule| rule.number() == number).ok_or(Rejection::Rule)
    }

    pub fn number(self) -> u8 {
        self as u8
    }
}
