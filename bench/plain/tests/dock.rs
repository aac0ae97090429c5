//! The program `dock`, by what it prints.

use std::io::Write;
use std::process::{Command, Stdio};

use plain::sheet::{encode, Rows};

const P9: [u8; 40] = [
    3, 1, 1, 0, 2, 0, 0, 0, 2, 1, 2, 0, 0, 0, 0, 0, 0, 0, 0, 0, 0, 0, 0, 0, //
    1, 3, 1, 1, 2, 0, 0, 0, 2, 3, 1, 2, 0, 0, 0, 0,
];

fn dock(input: &[u8]) -> String {
    let mut child = Command::new(env!("CARGO_BIN_EXE_dock"))
        .stdin(Stdio::piped())
        .stdout(Stdio::piped())
        .stderr(Stdio::piped())
        .spawn()
        .unwrap();
    // The program may stop reading early.
    let _ = child.stdin.take().unwrap().write_all(input);
    let output = child.wait_with_output().unwrap();
    assert!(output.status.success() && output.stderr.is_empty());
    String::from_utf8(output.stdout).unwrap()
}

#[test]
fn dock_prints() {
    assert_eq!(dock(&P9), "verdict plan\nrounds 5\nscanner 1 slot 2\nscanner 2 slot 1\nscanner 3 slot 1\n");
    assert_eq!(dock(&encode(&[1], Rows::Slots(&[]))), "verdict plan\nrounds 0\nscanner 1 slot 1\n");
    assert_eq!(dock(&encode(&[1, 1], Rows::Slots(&[(1, 2, 1, 1)]))), "verdict none\nrounds 2\n");
    assert_eq!(dock(&[]), "sheet refused 1\n");
    assert_eq!(dock(&P9[..39]), "sheet refused 1\n");
    assert_eq!(dock(&encode(&[1, 1], Rows::Gaps(&[(1, 2, -1, 1)]))), "verdict none\nrounds 2\n");
    let far = "verdict plan\nrounds 1\nscanner 1 slot 1\nscanner 2 slot 3\n";
    assert_eq!(dock(&encode(&[2, 3], Rows::Gaps(&[(1, 2, -7, 1)]))), far);
    assert_eq!(dock(&encode(&[1, 1], Rows::Gaps(&[(1, 2, -8, 1)]))), "sheet refused 3\n");
    assert_eq!(dock(&encode(&[1, 1], Rows::Gaps(&[(1, 2, 1, 0)]))), "sheet refused 3\n");
    let mut sheet = P9;
    sheet[1] = 3;
    assert_eq!(dock(&sheet), "sheet refused 2\n");
    assert_eq!(dock(&vec![1; 200_000]), "sheet refused 2\n");
    let mut long = P9.to_vec();
    long.resize(200_000, 0);
    assert_eq!(dock(&long), "sheet refused 1\n");
    sheet = P9;
    sheet[24] = 3;
    assert_eq!(dock(&sheet), "sheet refused 3\n");
    sheet = P9;
    sheet[36] = 1;
    assert_eq!(dock(&sheet), "sheet refused 4\n");
}

/// A line without room is passed over for the rest of a round; `jammed` is said where a whole
/// round delivered nothing.
#[test]
fn dock_passes_over_full_lines() {
    // Other lines free the place.
    let plan =
        [(1, 2, 1, 1), (1, 3, 1, 1), (1, 3, 2, 1), (1, 3, 3, 1), (2, 3, 1, 2), (2, 4, 1, 1), (3, 4, 2, 2)];
    let found =
        "verdict plan\nrounds 10\nscanner 1 slot 4\nscanner 2 slot 1\nscanner 3 slot 1\nscanner 4 slot 2\n";
    assert_eq!(dock(&encode(&[4, 1, 2, 2], Rows::Slots(&plan))), found);
    let none = [
        (1, 4, 1, 2),
        (2, 4, 1, 2),
        (2, 4, 2, 2),
        (3, 4, 1, 1),
        (3, 4, 2, 1),
        (3, 4, 2, 2),
        (3, 5, 1, 1),
        (3, 5, 2, 1),
        (4, 5, 1, 1),
        (4, 5, 1, 2),
        (4, 5, 2, 1),
        (4, 5, 2, 2),
    ];
    assert_eq!(dock(&encode(&[2, 2, 2, 2, 2], Rows::Slots(&none))), "verdict none\nrounds 15\n");
    // Each round one line stays full and something is delivered all the same.
    let spins =
        [(1, 4, 1, 1), (1, 4, 2, 1), (1, 4, 3, 1), (2, 4, 1, 2), (3, 4, 1, 2), (3, 5, 1, 2), (4, 5, 2, 1)];
    assert_eq!(dock(&encode(&[4, 1, 1, 2, 2], Rows::Slots(&spins))), "verdict open\nrounds 6\n");
    let stuck = [
        (1, 4, 1, 1),
        (1, 4, 2, 1),
        (1, 4, 3, 1),
        (1, 4, 4, 2),
        (2, 5, 1, 1),
        (3, 4, 1, 2),
        (3, 6, 1, 1),
        (4, 5, 2, 2),
        (4, 6, 2, 2),
    ];
    assert_eq!(dock(&encode(&[4, 1, 1, 2, 2, 2], Rows::Slots(&stuck))), "verdict jammed\nrounds 8\n");
}
