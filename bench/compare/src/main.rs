//! `compare PROVED PLAIN`: the proved libraries beside the plain one. First both have to give the
//! same answers, and the programs `dock` and `season` in the two folders given to print the same;
//! then both are timed, alternately, and medians and least times printed.

mod check;
mod images;
mod sheets;
mod sides;
mod timing;

use std::fs::File;
use std::hint::black_box;
use std::path::{Path, PathBuf};
use std::process::{Command, Stdio};

use plain::{Rule, MAX_IMAGE, PROGRAM_ROUNDS};

use crate::sides::{Plain, Proved, Side};
use crate::timing::{alternately, Clock, Times};

fn main() -> Result<(), String> {
    let words: Vec<PathBuf> = std::env::args_os().skip(1).map(PathBuf::from).collect();
    let [proved, plain] = words.as_slice() else {
        return Err("usage: compare PROVED PLAIN, two folders with programs `dock` and `season`".to_string());
    };
    let deep: Vec<_> = (1..=5).map(|k| (format!("deep {k}"), sheets::deep(k))).collect();
    let open: Vec<_> = (7..=12).map(|n| (format!("open {n}"), sheets::open(n))).collect();
    let longest = ("longest".to_string(), sheets::longest());
    let gaps = ("longest of gaps".to_string(), sheets::longest_gaps());
    let measured: Vec<_> = deep.iter().chain(&open).chain([&longest, &gaps]).cloned().collect();

    println!("same answers: {} of the libraries' entries", check::entries(&measured)?);
    println!("same answers: {} on images", check::images(&measured)?);
    let (proved_dock, plain_dock) = (proved.join("dock"), plain.join("dock"));
    println!(
        "same output: {} sheets, by the programs",
        check::programs(&proved_dock, &plain_dock, &measured)?
    );
    let (proved_season, plain_season) = (proved.join("season"), plain.join("season"));
    println!("same output: {} streams of sheets", check::seasons(&proved_season, &plain_season)?);

    let long = &open[open.len() - 1].1;
    let deepest = &deep[deep.len() - 1].1;
    let small = sheets::random(20_000, 5, 4, 20, 0, 7);
    println!("\n{:<62} {:>12} {:>12} {:>7} {:>12} {:>12} {:>7}", "", "medians", "", "", "least", "", "");
    println!(
        "{:<62} {:>12} {:>12} {:>7} {:>12} {:>12} {:>7}",
        "what, and for each", "Rust", "ours", "ratio", "Rust", "ours", "ratio"
    );
    for rule in Rule::BOTH {
        let under = format!("rule {}", rule.number());
        run_row(&format!("long run, 12 scanners, 8 slots, 100,000 rounds, {under}"), rule, long);
        run_row(&format!("deepest search that ends, 73,855 rounds, {under}"), rule, deepest);
        bulk_row(&format!("small sheets in bulk, {under}"), rule, &small);
    }
    row("decoding alone, 4,224 records", both(|side| side.decode(&longest.1, black_box(65))), 1);
    row("decoding alone, 4,224 records of gaps", both(|side| side.decode(&gaps.1, black_box(65))), 1);
    row(
        "decoding and start of the long run's sheet",
        both(|side| side.start(Rule::Loud.number(), long, black_box(0))),
        1,
    );
    delivery_row("a delivery by the public entry, 12 scanners", long);
    delivery_row("a delivery by the public entry, 6 scanners", deepest);
    image_rows("12 scanners", long, 50_000);
    image_rows("6 scanners", deepest, 36_900);
    program_row("the program on the long run's sheet", &plain_dock, &proved_dock, long)?;
    let season = sheets::stream(&sheets::random(100_000, 5, 4, 20, 40, 8));
    program_row("a season of 100,000 sheets", &plain_season, &proved_season, &season)?;

    println!("\ngrowth with n, 100,000 rounds of eight slots each");
    for (n, (_, sheet)) in (7..).zip(&open) {
        run_row(&format!("  {n} scanners"), Rule::Loud, sheet);
    }
    println!("\ngrowth with rounds");
    for rounds in [100, 1_000, 10_000, 100_000] {
        let times = both(|side| side.settle(Rule::Loud.number(), long, rounds));
        row(&format!("  long run's sheet, {rounds} rounds, a round"), times, rounds as usize);
    }
    for (k, (_, sheet)) in (1..).zip(&deep) {
        run_row(&format!("  deep search of {} scanners", k + 1), Rule::Loud, sheet);
    }
    Ok(())
}

/// Both sides at the same work.
fn both(work: impl Fn(&mut dyn Side) -> u64) -> Times {
    let (mut plain, mut proved) = (Plain::new(), Proved);
    alternately(
        Clock::Thread,
        || {
            black_box(work(&mut plain));
        },
        || {
            black_box(work(&mut proved));
        },
    )
}

fn row(what: &str, times: Times, parts: usize) {
    let each = times.each(parts);
    println!(
        "{what:<62} {:>12} {:>12} {:>7.3} {:>12} {:>12} {:>7.3}",
        time(each.plain.median),
        time(each.proved.median),
        times.ratio(),
        time(each.plain.least),
        time(each.proved.least),
        times.least_ratio()
    );
}

/// A whole run, and the same for each delivery.
fn run_row(what: &str, rule: Rule, sheet: &[u8]) {
    let times = both(|side| side.settle(rule.number(), sheet, black_box(PROGRAM_ROUNDS)));
    let deliveries = sheets::deliveries(rule, sheet, PROGRAM_ROUNDS);
    row(what, times, 1);
    row(&format!("    each of {deliveries} deliveries"), times, deliveries);
}

fn bulk_row(what: &str, rule: Rule, sheets: &[Vec<u8>]) {
    let rule = rule.number();
    let times =
        both(|side| sheets.iter().fold(0, |sum, sheet| sum ^ side.settle(rule, sheet, PROGRAM_ROUNDS)));
    row(&format!("{what}, a sheet"), times, sheets.len());
}

fn delivery_row(what: &str, sheet: &[u8]) {
    let calls = sheets::calls(Rule::Loud, sheet, 4_000);
    row(what, both(|side| side.deliver(Rule::Loud.number(), sheet, &calls)), calls.len() / 2);
}

/// The image after so many rounds, in both forms: written over and over into the same buffer, read,
/// and moved to the other form.
fn image_rows(what: &str, sheet: &[u8], rounds: u64) {
    const TIMES: u64 = 1_000;
    let network = images::network(Rule::Loud, sheet, rounds);
    for (small, image) in [(false, images::image(&network)), (true, images::small_image(&network))] {
        let what = format!("an image, {what}, form {}, {} bytes", 1 + u8::from(small), image.len());
        let write = |side: &mut dyn Side| {
            let mut buffer = [0; MAX_IMAGE];
            side.write(&image, small, TIMES, black_box(&mut buffer))
        };
        let moved = |side: &mut dyn Side| {
            let mut buffer = [0; MAX_IMAGE];
            side.moved(&image, black_box(&mut buffer))
        };
        row(&format!("writing {what}"), both(write), TIMES as usize);
        row(&format!("reading {what}"), both(|side| side.read(&image)), 1);
        row(&format!("moving {what}"), both(moved), 1);
    }
}

fn program_row(what: &str, plain: &Path, proved: &Path, input: &[u8]) -> Result<(), String> {
    let file = std::env::temp_dir().join(format!("bench-{}.input", std::process::id()));
    std::fs::write(&file, input).map_err(|error| error.to_string())?;
    let run = |program: &Path| {
        let input = File::open(&file).expect("the input just written");
        let status = Command::new(program).stdin(input).stdout(Stdio::null()).status();
        assert!(status.is_ok_and(|status| status.success()), "{} failed", program.display());
    };
    row(what, alternately(Clock::Wall, || run(plain), || run(proved)), 1);
    std::fs::remove_file(&file).map_err(|error| error.to_string())
}

fn time(nanoseconds: f64) -> String {
    if nanoseconds < 1e3 {
        format!("{nanoseconds:.1} ns")
    } else if nanoseconds < 1e6 {
        format!("{:.2} µs", nanoseconds / 1e3)
    } else {
        format!("{:.2} ms", nanoseconds / 1e6)
    }
}
