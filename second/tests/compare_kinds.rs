//! `second compare --kinds`: the table of the windows, and the first one that differs.

mod programs;

use programs::{run, script, text, SECOND};

/// Compares questions for the windows.
fn compare_kinds(program: &str, count: &str) -> (i32, String) {
    let arguments = [
        "compare", "--kinds", "--seed", "4", "--count", count, "--replay", program,
    ];
    let (status, output, _) = run(&arguments, &[]);
    (status, text(output))
}

#[test]
fn windows_are_compared_by_kind_and_answer() {
    let program = script("same-kinds", &format!("exec '{SECOND}' answer"));
    let (status, output) = compare_kinds(&program, "3000");
    assert_eq!(status, 0);
    let lines: Vec<&str> = output.lines().collect();
    assert!(lines[0].starts_with("address window") && lines[1].starts_with("lane window"));
    let counts = |line: &str| -> Vec<u64> {
        let cells = line.split_whitespace();
        cells.filter_map(|cell| cell.parse().ok()).collect()
    };
    let counted = [counts(lines[0]), counts(lines[1])];
    assert_eq!((counted[0].len(), counted[1].len()), (3, 4));
    assert!(
        counted.iter().flatten().all(|count| *count > 100),
        "{output}"
    );
    assert_eq!(counted.iter().flatten().sum::<u64>(), 3000);
    assert!(lines[2].starts_with("3000 questions of seed 4 in ") && lines.len() == 3);
}

#[test]
fn compare_shows_the_first_window_that_differs() {
    let line = format!("'{SECOND}' answer | tr '\\002' '\\001'");
    let (status, output) = compare_kinds(&script("other-kinds", &line), "3000");
    assert_eq!(status, 1);
    for part in ["difference at case", " window: ", "second: ", "replay: "] {
        assert!(output.contains(part), "{part}: {output}");
    }
    let repeat = output.lines().last().expect("a line");
    let again = "repeat: second case --kinds --seed 4 --number ";
    let number = repeat.strip_prefix(again).expect(again);
    let case = ["case", "--kinds", "--seed", "4", "--number", number];
    let (status, shown, _) = run(&case, &[]);
    assert_eq!(status, 0);
    let shown = text(shown);
    assert!(shown.contains(" window: ") && shown.contains("outcome\n"));
}
