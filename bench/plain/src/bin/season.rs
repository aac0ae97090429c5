//! Reads a stream of sheets on standard input, each behind its length in two bytes, runs each with
//! 100,000 rounds under rule 1 and prints eight lines.

use std::io::{self, BufRead, BufReader, Write};

use plain::{Network, Problem, Rule, Word, PROGRAM_ROUNDS};

const MOST_SHEETS: u64 = 1_000_000;

fn main() {
    let mut input = BufReader::with_capacity(1 << 16, io::stdin().lock());
    let mut season = Season::default();
    season.read(&mut input);
    let _ = io::stdout().lock().write_all(season.text().as_bytes());
}

#[derive(Default)]
struct Season {
    sheets: u64,
    refused: [u64; 4],
    words: [u64; 4],
    cut: bool,
    rounds: Option<Rounds>,
}

/// Of the sheets that end `none` or `plan`.
struct Rounds {
    count: u64,
    fewest: u64,
    most: u64,
    sum: u64,
}

impl Season {
    fn read(&mut self, input: &mut impl BufRead) {
        let mut sheet = [0; 65_535];
        let (mut problem, mut network) = (Problem::EMPTY, Network::EMPTY);
        while self.sheets < MOST_SHEETS && input.fill_buf().is_ok_and(|bytes| !bytes.is_empty()) {
            let mut length = [0; 2];
            let whole = input.read_exact(&mut length).is_ok();
            let sheet = &mut sheet[..usize::from(u16::from_le_bytes(length))];
            if !whole || input.read_exact(sheet).is_err() {
                self.cut = true;
                return;
            }
            self.add(sheet, &mut problem, &mut network);
        }
    }

    fn add(&mut self, sheet: &[u8], problem: &mut Problem, network: &mut Network) {
        self.sheets += 1;
        if let Err(rejection) = problem.decode_over(sheet) {
            self.refused[usize::from(rejection.number()) - 1] += 1;
            return;
        }
        network.restart(Rule::Loud, problem);
        let run = network.run(PROGRAM_ROUNDS).expect("a start is in shape");
        let place = match run.word {
            Word::None => 0,
            Word::Plan => 1,
            Word::Jammed => 2,
            Word::Open => 3,
        };
        self.words[place] += 1;
        if place < 2 {
            self.count(run.rounds);
        }
    }

    fn count(&mut self, rounds: u64) {
        let all = self.rounds.get_or_insert(Rounds { count: 0, fewest: rounds, most: rounds, sum: 0 });
        all.count += 1;
        all.fewest = all.fewest.min(rounds);
        all.most = all.most.max(rounds);
        all.sum += rounds;
    }

    fn text(&self) -> String {
        let [length, header, record, chain] = self.refused;
        let [none, plan, jammed, open] = self.words;
        let front = format!(
            "sheets {}\nrefused {length} {header} {record} {chain}\nwords {none} {plan} {jammed} {open}\ncut {}\n",
            self.sheets,
            u8::from(self.cut)
        );
        front
            + &match &self.rounds {
                None => "fewest -\nmost -\nsum -\nmean -\n".to_string(),
                Some(Rounds { count, fewest, most, sum }) => {
                    format!("fewest {fewest}\nmost {most}\nsum {sum}\nmean {sum}/{count}\n")
                }
            }
    }
}
