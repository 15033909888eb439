//! The programs on edges of their input: what is a line, a field, a number.

use model::script::powerhit::{powerhit, HEADING};
use model::script::probe::probe;

/// What powerhit prints below its heading.
fn hit(input: &[u8]) -> String {
    let printed = String::from_utf8(powerhit(input)).expect("decimals and letters");
    printed.strip_prefix(HEADING).expect("the heading").to_string()
}

fn probed(input: &str) -> String {
    String::from_utf8(probe(input.as_bytes())).expect("decimals and letters")
}

/// The answers of an input's lines, parted by blanks.
fn answers(printed: &str) -> String {
    printed.lines().map(|line| line.split(',').nth(2).expect("an answer")).collect::<Vec<_>>().join(" ")
}

#[test]
fn the_listing_of_document_01() {
    let input =
        "F,2,1,2\nB,0\nW,0,0,0,0,1,165\nK,4\nC,0\nR,0,0,0,0\nB,0\nW,0,0,0,0,1,165\nC,0\nX\nR,0,0,0,0\n";
    let wanted =
        "1,F,0,1561,-\n2,B,0,0,-\n3,W,0,8,-\n4,K,0,0,-\n5,C,0,4,-\n6,R,0,0,0\n7,B,0,0,-\n8,W,0,8,-\n\
                  9,C,0,5,-\n10,X,0,0,-\n11,R,0,0,165\n";
    assert_eq!(hit(input.as_bytes()), wanted);
    assert_eq!(hit(input.trim_end().as_bytes()), wanted, "no final newline");
}

#[test]
fn a_round_cut_after_each_store() {
    for k in 0..=6 {
        let input = format!("F,2,1,2\nB,0\nW,0,0,0,0,1,165\nK,{k}\nC,0\nR,0,0,0,0\n");
        let byte = if k < 5 { 0 } else { 165 };
        assert!(hit(input.as_bytes()).ends_with(&format!("5,C,0,{},-\n6,R,0,0,{byte}\n", k.min(5))));
    }
}

#[test]
fn empty_inputs_and_lines() {
    assert_eq!(hit(b""), "");
    assert_eq!(probed(""), "");
    assert_eq!(hit(b"\n"), "1,?,?,0,-\n");
    assert_eq!(probed("\n\nH"), "1,?,?,0,-\n2,?,?,0,-\n3,H,0,0,0\n");
    assert_eq!(hit(b"F,2,1,2\n\nB,0"), "1,F,0,1561,-\n2,?,?,0,-\n3,B,0,0,-\n");
}

#[test]
fn before_a_taken_f_all_but_f_is_of_another_form() {
    assert_eq!(
        answers(&hit(b"B,0\nX\nK,1\nF,0,1,1\nP\nF,20,1,1\nF,1,1,1\nP\nF,0,1,1\nP\n")),
        "? ? ? 3 ? 4 0 0 3 0"
    );
}

#[test]
fn lines_of_another_form() {
    let wrong: [&[u8]; 24] = [
        b" ",
        b" B,0",
        b"B,0 ",
        b"B, 0",
        b"B,0\r",
        b"\r",
        b"b,0",
        b"BB,0",
        b"B",
        b"B,",
        b"B,0,0",
        b"B,,0",
        b",B,0",
        b"B,+1",
        b"B,-1",
        b"B,0000000001",
        b"B,1234567890",
        b"K,0x1",
        b"X,0",
        b"P,",
        b"F,2,1",
        b"B,\xb2",
        b"\xff,0",
        b"B\0",
    ];
    for line in wrong {
        let input = [b"F,2,1,2\n", line, b"\nB,0\n"].concat();
        assert_eq!(answers(&hit(&input)), "0 ? 0", "{:?}", String::from_utf8_lossy(line));
    }
    assert_eq!(answers(&hit(b"F,000000002,01,2\nB,000000000\n")), "0 0", "leading zeros within 9 digits");
}

#[test]
fn a_writes_bytes() {
    let write = |length: u64, bytes: usize, last: &str| {
        let bytes = ",7".repeat(bytes.saturating_sub(1)) + last;
        answers(&hit(format!("F,2,1,2\nB,0\nW,0,0,0,0,{length}{bytes}\n").as_bytes()))
    };
    assert_eq!(write(64, 64, ",255"), "0 0 0");
    assert_eq!(write(64, 65, ",255"), "0 0 ?");
    assert_eq!(write(1, 64, ",255"), "0 0 0", "more than the length");
    assert_eq!(write(1, 64, ",256"), "0 0 ?");
    assert_eq!(write(1, 1, ",000000255"), "0 0 0");
    assert_eq!(write(1, 1, ""), "0 0 11", "none at all");
    assert_eq!(write(1, 1, ","), "0 0 ?");
    assert_eq!(write(2, 1, ",1"), "0 0 11");
    assert_eq!(write(0, 1, ",1"), "0 0 11");
    assert_eq!(write(999_999_999, 1, ",1"), "0 0 11");
}

#[test]
fn lines_of_a_mebibyte() {
    for byte in [b'9', b',', b'W', 0xff, b' '] {
        let input = [&b"F,2,1,2\n"[..], &vec![byte; 1 << 20], b"\nB,0\nB,"].concat();
        let input = [input, vec![byte; 1 << 20]].concat();
        assert_eq!(answers(&hit(&input)), "0 ? 0 ?");
    }
}

#[test]
fn a_cut_waits_for_an_operation_that_needs_stores() {
    let input = "F,2,1,2\nK,0\nB,0\nC,0\nP\nX\nC,0\nF,2,1,0\nB,0\nW,0,0,0,0,1,9\nC,0\n";
    let wanted = "7,C,13,0,-\n8,F,3,0,-\n9,B,0,0,-\n10,W,0,0,-\n11,C,13,0,-\n";
    assert!(hit(input.as_bytes()).ends_with(wanted), "through an empty commit, P, X and refusals");
    let input = "F,2,1,2\nB,0\nK,0\nK,999999999\nW,0,0,0,0,1,9\nC,0\n";
    assert!(
        hit(input.as_bytes()).ends_with("5,W,0,8,-\n6,C,13,0,-\n"),
        "a later K; a mount follows all the same"
    );
}

/// Byte 7 at page 0, line 0, then a K and a format, and what follows; the lines from the format on.
fn cut_format(format: &str, k: u64, then: &str) -> String {
    let input = format!("F,2,1,2\nB,0\nW,0,0,0,0,1,7\nC,0\nK,{k}\n{format}\n{then}");
    let printed = hit(input.as_bytes());
    printed.split_once("5,K,0,0,-\n").expect("the K is taken").1.to_string()
}

#[test]
fn a_format_cut_after_each_store() {
    for (format, words) in [("F,2,1,2", 1_560), ("F,3,2,5", 2_600), ("F,1,1,1", 1_040)] {
        let at = |k| cut_format(format, k, "R,0,0,0,0\n");
        assert_eq!(at(0), "6,F,0,0,-\n7,R,0,0,7\n", "the old image");
        for k in (1..=40).chain((41..words).step_by(83)).chain(words - 2..=words) {
            assert_eq!(at(k), format!("6,F,2,{k},-\n7,?,?,0,-\n"), "{format} after {k} stores");
        }
        for k in [words + 1, words + 2, 999_999_999] {
            assert_eq!(at(k), format!("6,F,0,{},-\n7,R,0,0,0\n", words + 1), "{format} after {k} stores");
        }
    }
}

#[test]
fn after_a_cut_format_all_but_f_is_of_another_form() {
    let then = "B,0\nX\nP\nK,1\nR,0,0,0,0\nF,0,1,1\nB,0\nF,20,1,1\nX\nF,1,1,1\nB,0\nW,0,0,0,0,1,9\nC,0\n";
    let printed = cut_format("F,2,1,2", 1_560, then);
    assert_eq!(answers(&printed), "2 ? ? ? ? ? 3 ? 4 ? 0 0 0 0");
    assert!(
        printed.ends_with("16,F,0,1041,-\n17,B,0,0,-\n18,W,0,8,-\n19,C,0,5,-\n"),
        "the K set nothing: {printed}"
    );
}

#[test]
fn a_format_turned_back_uses_up_no_cut() {
    let printed = cut_format("F,0,1,2", 3, "F,15,1,1\nR,0,0,0,0\nF,2,1,2\nF,2,1,2\n");
    assert_eq!(printed, "6,F,3,0,-\n7,F,4,0,-\n8,R,0,0,7\n9,F,2,3,-\n10,F,0,1561,-\n");
    let printed = cut_format("F,2,1,2", 0, "F,2,1,2\nR,0,0,0,0\n");
    assert_eq!(printed, "6,F,0,0,-\n7,F,0,1561,-\n8,R,0,0,0\n", "one of no stores uses it up");
}

#[test]
fn an_open_round_ends_with_a_format_cut_before_its_first_store() {
    let input = "F,2,1,2\nB,0\nW,0,0,0,0,1,7\nK,0\nF,1,1,1\nC,0\nR,0,1,63,0\nR,0,0,0,0\n";
    let printed = hit(input.as_bytes());
    assert!(printed.ends_with("5,F,0,0,-\n6,C,13,0,-\n7,R,0,0,0\n8,R,0,0,0\n"), "mounted: {printed}");
}

#[test]
fn a_read_past_the_line() {
    assert_eq!(answers(&hit(b"F,2,1,2\nR,0,0,0,63\nR,0,0,0,64\nR,4,0,0,0\nR,3,1,63,0\n")), "0 0 11 11 0");
}

#[test]
fn probe_starts_with_zeros() {
    assert_eq!(
        probed("G\nM\nB,0\nN,1\n"),
        "1,G,0,0,0 0 0 0 0 0 0 0 0 0 0 4 4 0 0 0 0 0 0 0 0\n2,M,2,0,-\n3,B,8,0,-\n4,N,8,0,-\n"
    );
    assert!(
        probed("T,1,0,1\nG\n").starts_with("1,T,0,0,-\n2,G,0,0,0 1 0 0 0 0 0 0 0 0 0 0 "),
        "last position 0"
    );
}

#[test]
fn probe_numbers() {
    let at = |line: &str| answers(&probed(line));
    for (line, answer) in [
        ("N,18446744073709551615", "8"),
        ("N,18446744073709551616", "?"),
        ("N,00000000000000000001", "8"),
        ("N,000000000000000000001", "?"),
        ("L,65536", "0"),
        ("L,65537", "?"),
        ("Y,65535,255", "0"),
        ("Y,65536,0", "?"),
        ("Y,0,256", "?"),
        ("U,8191,1", "0"),
        ("U,8192,1", "?"),
        ("T,0,1,1", "?"),
        ("T,7,15,4294967295", "0"),
        ("T,7,15,4294967296", "?"),
        ("T,6,16,0", "?"),
        ("T,11,3,1", "0"),
        ("T,11,0,2", "?"),
        ("T,11,4,1", "?"),
        ("T,12,63,1", "0"),
        ("T,12,64,1", "?"),
        ("T,13,1023,65535", "0"),
        ("T,13,1024,0", "?"),
        ("T,13,0,65536", "?"),
        ("T,14,0,18446744073709551615", "0"),
        ("T,14,1,0", "?"),
        ("T,16,0,18446744073709551615", "0"),
        ("T,17,63,18446744073709551615", "0"),
        ("T,17,64,0", "?"),
        ("T,18,0,65", "0"),
        ("T,19,0,0", "?"),
        ("O,10,0,0,0,0,0,0", "0"),
        ("O,11,0,0,0,0,0,0", "?"),
        ("O,4,0,0,0,0,0", "?"),
        ("O,4,0,0,0,0,0,0,0", "?"),
        ("Q,0,0", "?"),
        ("m,23,0", "0"),
        ("m,24,0", "?"),
        ("k,24", "0"),
        ("k,25", "?"),
        ("l,65536,0", "8"),
        ("l,65536,1", "?"),
        ("l,18446744073709551615,1", "?"),
        ("R,0,0,0,129", "?"),
        ("R,0,0,0,128", "8"),
        ("E,0,0,0", "2"),
        ("G,0", "?"),
        ("X", "8"),
        ("x", "?"),
        ("F,1,1", "?"),
        ("F,1,1,1,65", "3"),
        ("F,1,1,1,64,0", "?"),
    ] {
        assert_eq!(at(line), answer, "{line}");
    }
}

/// Bytes 64 to 127 are an event's alone.
#[test]
fn probe_sets_finished_bytes() {
    let pending =
        |k: u64| answers(&probed(&format!("O,{k},0,0,0,0,0,0\nQ,63,255\nQ,64,1\nQ,127,1\nQ,128,1\n")));
    for (k, wanted) in
        [(0, "0 ? ? ? ?"), (1, "0 0 ? ? ?"), (2, "0 ? ? ? ?"), (5, "0 0 0 0 ?"), (8, "0 0 ? ? ?")]
    {
        assert_eq!(pending(k), wanted, "{k}");
    }
}

#[test]
fn probe_leaves_places_past_s_and_p() {
    let held = "F,1,1,1\nN,9999\nT,12,1,9\nT,9,1,8\nT,13,1,7\nB,0\nA,0\nB,0\nC,0\nT,1,0,2\nT,0,0,2\nG\n";
    let line = probed(held).lines().last().expect("G").to_string();
    let numbers: Vec<&str> = line.split(',').nth(4).expect("the state").split(' ').collect();
    assert_eq!(
        (numbers[15], numbers[18], numbers[24]),
        ("8", "7", "9"),
        "bitmap, entry and held lines past S and P"
    );
    let none = probed("T,9,1,8\nT,13,1,7\nF,1,1,1\nT,1,0,2\nT,0,0,2\nG\n");
    assert!(none.contains(" 0 0 0 0 18446744073709551615 0 0 0 0 0 0 "), "format empties them: {none}");
}
