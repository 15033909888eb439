//! Wear by frame (document 02, L12): worked inputs, the sums, and copies cut short.

use model::script::powerhit::powerhit;
use model::script::wear::wear;

const LISTING: &str =
    "F,2,1,2\nB,0\nW,0,0,0,0,1,165\nK,4\nC,0\nR,0,0,0,0\nB,0\nW,0,0,0,0,1,165\nC,0\nX\nR,0,0,0,0\n";

/// The copies of frames 0 to 14, the stores to the five parts, those not made by W lines and those that were.
fn worn(input: &str) -> (Vec<u64>, Vec<u64>, Vec<u64>) {
    let printed = String::from_utf8(wear(input.as_bytes())).expect("decimals");
    let numbers: Vec<u64> = printed.lines().map(|line| line.parse().expect("a number")).collect();
    assert_eq!(numbers.len(), 22);
    (numbers[..15].to_vec(), numbers[15..20].to_vec(), numbers[20..].to_vec())
}

/// The stores in the listings of all inputs.
fn listed(input: &str) -> u64 {
    let stores = |input: &str| -> u64 {
        let listing = String::from_utf8(powerhit(input.as_bytes())).expect("text");
        listing
            .lines()
            .skip(1)
            .map(|line| line.split(',').nth(3).expect("stores").parse::<u64>().expect("a number"))
            .sum()
    };
    let lines: Vec<&str> = input.lines().collect();
    lines.split(|line| *line == "=").map(|lines| stores(&lines.join("\n"))).sum()
}

fn copies(first: &[u64]) -> Vec<u64> {
    let mut all = first.to_vec();
    all.resize(15, 0);
    all
}

#[test]
fn nothing_is_worn_without_a_store() {
    for input in ["", "\n", "=", "=\n=\n", "B,0\nX\n", "F,0,1,1\nF,20,1,1\n", "K,0\nF,0,1,1\n"] {
        assert_eq!(worn(input), (copies(&[]), vec![0; 5], vec![0; 2]), "{input:?}");
    }
}

#[test]
fn the_worked_inputs() {
    assert_eq!(worn("F,2,1,2\n"), (copies(&[64, 64, 64]), vec![1536, 9, 5, 8, 3], vec![1561, 0]));
    assert_eq!(worn(LISTING), (copies(&[64, 64, 66]), vec![1552, 10, 5, 16, 3], vec![1570, 16]));
    let twice = format!("{LISTING}=\n{LISTING}");
    assert_eq!(worn(&twice), (copies(&[128, 128, 132]), vec![3104, 20, 10, 32, 6], vec![3140, 32]));
}

#[test]
fn only_the_line_itself_parts_inputs() {
    let second = "B,0\nW,0,0,0,0,1,1\n";
    for line in ["=,", " =", "==", "= ", "=\r", "=,0"] {
        assert_eq!(worn(&format!("F,2,1,2\n{line}\n{second}")).2, vec![1561, 8], "{line:?}");
    }
    assert_eq!(worn(&format!("F,2,1,2\n=\n{second}")).2, vec![1561, 0], "before any F");
}

#[test]
fn an_input_starts_with_zeros_and_no_cut() {
    // a K of the first input does not wait; a format cut before its first store finds no old image
    assert_eq!(worn("F,2,1,2\nK,3\n=\nF,2,1,2\n").2, vec![3122, 0]);
    assert_eq!(worn("F,2,1,2\n=\nF,1,1,1\nK,0\nF,2,1,2\nB,0\nW,0,0,0,0,1,1\n").2, vec![1561 + 1041, 8]);
    assert_eq!(worn("F,2,1,2\n=\nK,0\nF,2,1,2\nB,0\n").2, vec![3122, 0]);
}

#[test]
fn a_write_cut_after_each_store() {
    for k in 0..=9 {
        let (copied, parts, by) = worn(&format!("F,2,1,2\nB,0\nK,{k}\nW,0,0,0,0,1,1\n"));
        let made: u64 = k.min(8);
        assert_eq!(copied, copies(&[64, 64, 64 + made / 8]));
        assert_eq!((parts, by), (vec![1536 + made, 9, 5, 8, 3], vec![1561, made]));
    }
}

#[test]
fn a_consolidation_cut_after_each_store() {
    // two lines of page 0 are in frame 2: they go to frame 0, then the page-table word, the record's four and head
    let round = "F,2,1,2\nB,0\nW,0,0,5,0,1,1\nW,0,0,9,0,1,1\nC,0\n";
    for k in 0..=23u64 {
        let (copied, parts, _) = worn(&format!("{round}K,{k}\nD,0\n"));
        let within = |from: u64, size: u64| k.saturating_sub(from).min(size);
        assert_eq!(copied, copies(&[64 + within(0, 16) / 8, 64, 66]));
        let wanted = [1552 + within(0, 16), 10 + within(21, 1), 5 + within(16, 1), 12 + within(17, 4), 3];
        assert_eq!(parts, wanted);
    }
}

#[test]
fn a_format_cut_after_each_store() {
    // P = 2, S = 1, J = 1: words 8 to 12 are tables, 13 to 16 journal, 17 to 23 padding, then three frames
    for k in (0..=40).chain((41..1560).step_by(7)).chain(1550..=1562u64) {
        let (copied, parts, by) = worn(&format!("F,1,1,1\nK,{k}\nF,2,1,1\n"));
        let made = k.min(1561);
        let within = |from: u64, size: u64| made.saturating_sub(from).min(size);
        let frame = |f: u64| within(24 + 512 * f, 512) / 8;
        assert_eq!(copied, copies(&[64 + frame(0), 64 + frame(1), frame(2)]), "{k}");
        let header = within(0, 8) + within(1560, 1);
        assert_eq!(
            parts,
            [1024 + within(24, 1536), 9 + header, 4 + within(8, 5), 4 + within(13, 4), within(17, 7)],
            "{k}"
        );
        assert_eq!(by, vec![1041 + made, 0]);
    }
}

#[test]
fn fifteen_frames() {
    let (copied, parts, by) = worn("F,14,1,1\n");
    assert_eq!(copied, vec![64; 15]);
    assert_eq!((parts, by), (vec![7680, 9, 17, 4, 3], vec![7713, 0]));
    assert_eq!(worn("F,15,1,1\n").2, vec![0, 0]);
}

#[test]
fn the_parts_add_up_to_the_listings() {
    for seed in 0..60 {
        let script = model::compare::Kind::Wear.script(7, seed, 80);
        let Ok(input) = String::from_utf8(script) else { continue };
        if input.contains('\r') {
            continue;
        }
        let (copied, parts, by) = worn(&input);
        assert_eq!(parts.iter().sum::<u64>(), listed(&input));
        assert_eq!(by.iter().sum::<u64>(), listed(&input));
        assert!(8 * copied.iter().sum::<u64>() <= parts[0]);
    }
}
