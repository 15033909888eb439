//! A venue's own moduli (document 02): which texts are turned back and where, the stored meters, and events that are lent other tables.

mod common;

use common::Store;
use model::meters::fixed_moduli;

fn text_of(moduli: &[u64]) -> String {
    moduli.iter().enumerate().map(|(meter, modulus)| format!("{meter},{modulus}\n")).collect()
}

/// The text with line `meter` in place of its own.
fn with_line(meter: usize, line: &str) -> String {
    let text = text_of(&fixed_moduli());
    text.split_inclusive('\n').enumerate().map(|(m, own)| if m == meter { line } else { own }).collect()
}

#[test]
fn a_table_is_24_right_lines() {
    let store = Store::fresh(2, 2, 4);
    let fixed = text_of(&fixed_moduli());
    assert_eq!(store.load(fixed.as_bytes()), Ok(fixed_moduli()));
    assert_eq!(store.load(&fixed.as_bytes()[..fixed.len() - 1]), Err(25), "the last line is not ended");
    assert_eq!(store.load(format!("{fixed}\n").as_bytes()), Err(25), "one more");
    assert_eq!(store.load(format!("{fixed}24,100\n").as_bytes()), Err(25), "one more");
    assert_eq!(store.load(b""), Err(25));
    let wrong = [
        "5,\n",
        ",100\n",
        "5 100\n",
        "5,0100\n",
        "05,100\n",
        "4,100\n",
        "6,100\n",
        "5,100\r\n",
        "5,1 00\n",
        "5,100,\n",
        "5,+100\n",
        "5,-100\n",
        "\n",
        " 5,100\n",
        "5, 100\n",
        "5,100",
        "5,100\n\n",
        "5,00\n",
        "5,1e5\n",
        "5;100\n",
    ];
    for line in wrong {
        assert_eq!(store.load(with_line(5, line).as_bytes()), Err(25), "{line:?}");
    }
    let digits = "1".repeat(400);
    for modulus in [
        "0",
        "1",
        "99",
        "1000000000001",
        "9999999999999",
        "18446744073709551716",
        "340282366920938463463374607431768211556",
        &digits,
    ] {
        assert_eq!(store.load(with_line(23, &format!("23,{modulus}\n")).as_bytes()), Err(26), "{modulus}");
    }
    for modulus in ["100", "1000000000000"] {
        assert!(store.load(with_line(23, &format!("23,{modulus}\n")).as_bytes()).is_ok(), "{modulus}");
    }
}

/// 25 first in each line, and the first line decides.
#[test]
fn rows_come_line_by_line() {
    let mut store = Store::fresh(2, 2, 4);
    assert_eq!(store.event(5, 23, 200), Ok(13));
    let two = |first: &str, second: &str| {
        let text = with_line(3, first);
        text.split_inclusive('\n')
            .enumerate()
            .map(|(m, own)| if m == 7 { second } else { own })
            .collect::<String>()
    };
    assert_eq!(store.load(two("3,99\n", "7,x\n").as_bytes()), Err(26));
    assert_eq!(store.load(two("3,x\n", "7,99\n").as_bytes()), Err(25));
    assert_eq!(store.load(two("4,99\n", "7,99\n").as_bytes()), Err(25), "a wrong number and range");
    let low = text_of(&[100; 24]);
    assert_eq!(store.load(low.as_bytes()), Err(27));
    assert_eq!(store.load(format!("{low}x").as_bytes()), Err(25), "before 27");
    assert_eq!(store.load(low.replace("23,100", "23,99").as_bytes()), Err(26), "before 27");
    let mut pending = Store { state: store.state.clone(), image: store.image.clone() };
    pending.ask_event(1, 0, 5).unwrap();
    assert_eq!(pending.load(b"x"), Err(9));
    pending.image.truncate(100);
    assert_eq!(pending.load(b"x"), Err(4));
    pending.state.next = 9;
    assert_eq!(pending.load(b"x"), Err(8));
}

#[test]
fn row_26_comes_before_27() {
    let mut store = Store::fresh(2, 2, 4);
    let meter = store.state.sizes.line_start(0, 23);
    store.image[meter..meter + 8].copy_from_slice(&100u64.to_le_bytes());
    assert_eq!(store.load(text_of(&[100; 24]).as_bytes()), Err(27));
    assert_eq!(store.load(text_of(&[99; 24]).as_bytes()), Err(26));
}

/// What is not committed is not stored.
#[test]
fn a_stored_meter_is_the_committed_one() {
    let mut store = Store::fresh(2, 2, 4);
    assert_eq!(store.event(5, 23, 299), Ok(13));
    let with = |modulus| with_line(23, &format!("23,{modulus}\n"));
    assert_eq!(store.load(with(299).as_bytes()), Err(27));
    assert!(store.load(with(300).as_bytes()).is_ok());
    store.begin(1).unwrap();
    store.write(1, 0, 22, 255).unwrap();
    store.write(1, 0, 23, 255).unwrap();
    assert!(store.load(with(300).as_bytes()).is_ok(), "writer 1's own lines");
    let other = with_line(22, "22,100\n");
    assert!(store.load(other.as_bytes()).is_ok());
    store.commit(1).unwrap();
    assert_eq!(store.load(other.as_bytes()), Err(27));
}

#[test]
fn an_event_goes_by_the_moduli_lent() {
    let mut store = Store::fresh(2, 2, 4);
    let mut venue = fixed_moduli();
    (venue[0], venue[1], venue[23]) = (200, 1_000_000_000_000, 10_007);
    assert_eq!(store.ask_event_with(1, 0, 200, &venue), Err(21), "credit ends at 199");
    assert_eq!(store.ask_event_with(1, 0, 199, &venue), Ok(21));
    store.run(21).unwrap();
    assert_eq!(store.ask_event_with(4, 0, 1, &venue), Err(21));
    assert_eq!(store.ask_event_with(5, 23, 10_007, &venue), Err(21));
    assert_eq!(store.ask_event_with(5, 23, 10_006, &venue), Ok(13));
    store.run(13).unwrap();
    assert_eq!(store.ask_event_with(5, 23, 3, &venue), Ok(13), "10,009 by 10,007");
    store.run(13).unwrap();
    assert_eq!(
        store
            .load(with_line(23, "23,100\n").replace("0,100000000", "0,200").as_bytes())
            .map(|moduli| moduli[0]),
        Ok(200)
    );
}

/// 26 stands after 20 and before 12, and row 8 leaves it out: a pending event holds no table.
#[test]
fn an_event_is_lent_24_moduli_in_the_range() {
    let mut store = Store::fresh(2, 2, 4);
    store.begin(1).unwrap();
    let fixed = fixed_moduli();
    let mut high = fixed.clone();
    high[23] = 1_000_000_000_001;
    let mut low = fixed.clone();
    low[12] = 99;
    let long: Vec<u64> = fixed.iter().copied().chain([100]).collect();
    for moduli in [&fixed[1..], &long, &[], &high, &low, &[0; 24]] {
        assert_eq!(store.ask_event_with(6, 0, 1, moduli), Err(20));
        assert_eq!(store.ask_event_with(1, 0, 1, moduli), Err(26));
    }
    assert_eq!(store.ask_event_with(1, 0, 1, &fixed), Err(12));
}
