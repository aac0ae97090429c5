//! Reads a sheet on standard input, runs with 100,000 rounds under rule 1 and prints.

use std::fmt::Write as _;
use std::io::{Read, Write as _};

use plain::{Network, Rule, Word, MAX_SHEET, PROGRAM_ROUNDS};

fn main() {
    let mut sheet = Vec::with_capacity(MAX_SHEET + 1);
    // One byte beyond the longest sheet decides the same as all that follow.
    let _ = std::io::stdin().lock().take(MAX_SHEET as u64 + 1).read_to_end(&mut sheet);
    let _ = std::io::stdout().lock().write_all(answer(&sheet).as_bytes());
}

fn answer(sheet: &[u8]) -> String {
    let mut network = match Network::start_sheet(Rule::Loud.number(), sheet) {
        Ok(network) => network,
        Err(rejection) => return format!("sheet refused {}\n", rejection.number()),
    };
    let run = match network.run(PROGRAM_ROUNDS) {
        Ok(run) => run,
        Err(rejection) => unreachable!("a started network refused with {}", rejection.number()),
    };
    let mut text = format!("verdict {}\nrounds {}\n", run.word.text(), run.rounds);
    if run.word == Word::Plan {
        for (number, agent) in network.agents().enumerate() {
            let _ = writeln!(text, "scanner {} slot {}", number + 1, agent.value().unwrap_or(0));
        }
    }
    text
}
