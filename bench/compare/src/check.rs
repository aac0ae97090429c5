//! Both sides give the same answers: through the entries, under both rules, on images, and as the
//! programs print.

use std::io::Write;
use std::path::Path;
use std::process::{Command, Stdio};

use plain::random::Random;
use plain::{Rule, MAX_IMAGE, PROGRAM_ROUNDS};

use crate::images::{damaged, image, network, play, small_image};
use crate::sheets;
use crate::sides::{Plain, Proved, Side};

/// Gives the number of answers compared, or what differs.
pub fn entries(measured: &[(String, Vec<u8>)]) -> Result<usize, String> {
    let mut compared = Compared { proved: Proved, plain: Plain::new(), count: 0 };
    for (name, sheet) in measured {
        for word in 0..67 {
            compared.same(name, |side| side.decode(sheet, word))?;
        }
        for rule in Rule::BOTH {
            let calls = sheets::calls(rule, sheet, 500);
            let rule = rule.number();
            let name = format!("{name}, rule {rule}");
            compared.on(&name, rule, sheet)?;
            for sender in 0..13 {
                compared.same(&name, |side| side.start(rule, sheet, sender))?;
            }
            compared.same(&name, |side| side.deliver(rule, sheet, &calls))?;
        }
    }
    let mut random = Random::new(11);
    let small = sheets::random(4_000, 5, 4, 20, 40, 21);
    let mixed = sheets::random(1_000, 12, 8, 10, 40, 22);
    for (number, sheet) in small.iter().chain(&mixed).enumerate() {
        let name = format!("random sheet {number}");
        let (word, sender) = (random.below(66), random.below(12));
        compared.same(&name, |side| side.decode(sheet, word))?;
        // Any numbers, so that most calls are refused.
        let calls: Vec<u8> = (0..120).map(|_| random.below(7) as u8).collect();
        for rule in Rule::BOTH.map(Rule::number) {
            let name = format!("{name}, rule {rule}");
            compared.on(&name, rule, sheet)?;
            compared.same(&name, |side| side.start(rule, sheet, sender))?;
            compared.same(&name, |side| side.deliver(rule, sheet, &calls))?;
        }
        // A number that is no rule comes before any fault of the sheet.
        let wrong = [0, 3, 255][random.below(3)];
        let name = format!("{name}, rule {wrong}");
        compared.same(&name, |side| side.start(wrong, sheet, sender))?;
        compared.same(&name, |side| side.settle(wrong, sheet, 5))?;
        compared.same(&name, |side| side.deliver(wrong, sheet, &calls))?;
        compared.same(&name, |side| side.counts(wrong, sheet, 5, sender))?;
    }
    Ok(compared.count)
}

/// Images of the measured sheets' networks after some rounds and deliveries, and of random ones;
/// and bytes close to these. Gives the number of answers compared, or what differs.
pub fn images(measured: &[(String, Vec<u8>)]) -> Result<usize, String> {
    let mut compared = Compared { proved: Proved, plain: Plain::new(), count: 0 };
    let mut random = Random::new(12);
    for (name, sheet) in measured {
        for (rule, rounds) in Rule::BOTH.into_iter().flat_map(|rule| [0, 1, 10, 1_000].map(|k| (rule, k))) {
            let mut network = network(rule, sheet, rounds);
            for _ in 0..10 {
                let name = format!("{name}, {rounds} rounds");
                compared.on_image(&name, &image(&network), &mut random)?;
                compared.on_image(&format!("{name}, small"), &small_image(&network), &mut random)?;
                play(&mut network, 200, &mut random);
            }
        }
    }
    let sheets = [sheets::random(1_000, 5, 4, 0, 40, 23), sheets::random(500, 12, 8, 0, 40, 24)].concat();
    for (number, sheet) in sheets.iter().enumerate() {
        let mut network = network(Rule::BOTH[number % 2], sheet, random.below(20) as u64);
        play(&mut network, 60, &mut random);
        compared.on_image(&format!("random sheet {number}"), &image(&network), &mut random)?;
        compared.on_image(&format!("random sheet {number}, small"), &small_image(&network), &mut random)?;
    }
    Ok(compared.count)
}

struct Compared {
    proved: Proved,
    plain: Plain,
    count: usize,
}

impl Compared {
    fn on(&mut self, name: &str, rule: u8, sheet: &[u8]) -> Result<(), String> {
        for rounds in [0, 1, 2, 5, 37, 1_000, PROGRAM_ROUNDS] {
            self.same(name, |side| side.settle(rule, sheet, rounds))?;
        }
        for agent in 0..13 {
            self.same(name, |side| side.counts(rule, sheet, 1_000, agent))?;
        }
        Ok(())
    }

    /// An image is read, written back the same in its own form, and moved to the other form and
    /// back; so are bytes close to it, if they are one.
    fn on_image(&mut self, name: &str, image: &[u8], random: &mut Random) -> Result<(), String> {
        let small = image[0] == 2;
        self.same(name, |side| side.read(image))?;
        if self.written(name, image, small, image.len())? != image {
            return Err(format!("{name}: the image is written back as another"));
        }
        let other = self.written(name, image, !small, MAX_IMAGE)?;
        let there = self.moved(name, image, MAX_IMAGE)?;
        let back = self.moved(name, &there.1[..there.0], image.len())?;
        if there.1 != other || back.1 != image {
            return Err(format!("{name}: the image is moved to another"));
        }
        for room in [0, random.below(image.len()), image.len() - 1, image.len() + 100] {
            self.written(name, image, small, room)?;
            self.moved(name, image, room)?;
        }
        for _ in 0..8 {
            let bytes = damaged(image, random);
            self.same(name, |side| side.read(&bytes))?;
            self.written(name, &bytes, small, bytes.len() + 40)?;
            self.moved(name, &bytes, MAX_IMAGE)?;
        }
        Ok(())
    }

    /// Both leave the same buffer, of so many bytes.
    fn written(&mut self, name: &str, image: &[u8], small: bool, room: usize) -> Result<Vec<u8>, String> {
        let (mut one, mut other) = (vec![0xa5; room], vec![0xa5; room]);
        for times in 0..3 {
            let proved = self.proved.write(image, small, times, &mut one);
            let plain = self.plain.write(image, small, times, &mut other);
            self.count += 1;
            if proved != plain || one != other {
                return Err(format!("{name}: written differently, {proved} and {plain}, {room} bytes lent"));
            }
        }
        Ok(one)
    }

    /// The same of an image moved to the other form; gives what is answered, too.
    fn moved(&mut self, name: &str, image: &[u8], room: usize) -> Result<(usize, Vec<u8>), String> {
        let (mut one, mut other) = (vec![0xa5; room], vec![0xa5; room]);
        let (proved, plain) = (self.proved.moved(image, &mut one), self.plain.moved(image, &mut other));
        self.count += 1;
        if proved != plain || one != other {
            return Err(format!("{name}: moved differently, {proved} and {plain}, {room} bytes lent"));
        }
        Ok((proved as usize, one))
    }

    fn same(&mut self, name: &str, ask: impl Fn(&mut dyn Side) -> u64) -> Result<(), String> {
        let (proved, plain) = (ask(&mut self.proved), ask(&mut self.plain));
        self.count += 1;
        if proved == plain {
            Ok(())
        } else {
            Err(format!("{name}: the proved side answers {proved:#x}, the plain one {plain:#x}"))
        }
    }
}

/// Gives the number of sheets on which both programs print the same, or what differs.
pub fn programs(proved: &Path, plain: &Path, measured: &[(String, Vec<u8>)]) -> Result<usize, String> {
    let mut count = 0;
    let mut random = sheets::random(1_000, 5, 4, 20, 40, 31);
    random.extend(sheets::random(1_000, 12, 8, 20, 40, 32));
    // Longer than the longest sheet.
    random.extend([vec![1; 200_000], [sheets::longest(), vec![0; 8]].concat(), vec![]]);
    let random = random.iter().enumerate().map(|(number, sheet)| (format!("random sheet {number}"), sheet));
    let measured = measured.iter().map(|(name, sheet)| (name.clone(), sheet));
    for (name, sheet) in measured.chain(random) {
        let (one, other) = (prints(proved, sheet)?, prints(plain, sheet)?);
        if one != other {
            return Err(format!("{name}: the proved program prints\n{one}and the plain one\n{other}"));
        }
        count += 1;
    }
    Ok(count)
}

/// Gives the number of streams whose figures both programs print the same, or what differs: random
/// sheets, none at all, and streams that break off in a length and in a sheet.
pub fn seasons(proved: &Path, plain: &Path) -> Result<usize, String> {
    let many = sheets::stream(&sheets::random(20_000, 5, 4, 20, 40, 33));
    let wide = sheets::stream(&sheets::random(1_000, 12, 8, 20, 40, 34));
    let odd = sheets::stream(&[vec![], vec![1; 65_535], sheets::longest()]);
    let streams =
        [&many[..], &wide, &odd, &[], &many[..many.len() - 1], &[many.clone(), vec![7]].concat(), &[5, 0]];
    for (number, stream) in streams.iter().enumerate() {
        let (one, other) = (prints(proved, stream)?, prints(plain, stream)?);
        if one != other {
            return Err(format!(
                "stream {number}: the proved program prints\n{one}and the plain one\n{other}"
            ));
        }
    }
    Ok(streams.len())
}

fn prints(program: &Path, sheet: &[u8]) -> Result<String, String> {
    let fault = |error: std::io::Error| format!("{}: {error}", program.display());
    let mut child =
        Command::new(program).stdin(Stdio::piped()).stdout(Stdio::piped()).spawn().map_err(fault)?;
    if let Some(mut input) = child.stdin.take() {
        // The program may stop reading early.
        let _ = input.write_all(sheet);
    }
    let output = child.wait_with_output().map_err(fault)?;
    Ok(String::from_utf8_lossy(&output.stdout).into_owned())
}
