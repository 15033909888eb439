//! The lists of rounds that every scheme plays.

use model::layout::{Sizes, LINES};

use crate::scheme::Line;

pub struct List {
    pub name: &'static str,
    pub rounds: u64,
    pub lines_of: fn(u64) -> Vec<Line>,
    /// The sizes that this store plays it with.
    pub sizes: Sizes,
}

pub const LISTS: [List; 3] = [
    List { name: "near", rounds: 5000, lines_of: near, sizes: Sizes { p: 16, s: 4, j: 64, l: 0 } },
    List { name: "far", rounds: 5000, lines_of: far, sizes: Sizes { p: 16, s: 4, j: 64, l: 0 } },
    List { name: "bonus", rounds: 640, lines_of: bonus, sizes: Sizes { p: 48, s: 4, j: 64, l: 40 } },
];

/// The pages of a bonus game.
pub const BONUS_PAGES: u64 = 40;

/// A pair of pages stays for 64 rounds.
fn near(round: u64) -> Vec<Line> {
    pair(round, 64)
}

/// Each round takes the next pair.
fn far(round: u64) -> Vec<Line> {
    pair(round, 1)
}

/// As the program `rounds` plays: one of 24 lines of the pair's first page, the next of the 64 of its second; eight pairs.
fn pair(round: u64, stay: u64) -> Vec<Line> {
    let first = 2 * (round / stay % 8);
    vec![(first, round % 24), (first + 1, round % LINES)]
}

/// The next line of each page.
fn bonus(round: u64) -> Vec<Line> {
    (0..BONUS_PAGES).map(|page| (page, round % LINES)).collect()
}

#[cfg(test)]
mod tests {
    use super::*;
    use crate::scheme::{Scheme, WORD};
    use crate::store::Store;

    #[test]
    fn lines_by_hand() {
        assert_eq!(near(24), [(0, 0), (1, 24)]);
        assert_eq!(near(64), [(2, 16), (3, 0)]);
        assert_eq!(far(9), [(2, 9), (3, 9)]);
        assert_eq!(bonus(65), (0..40).map(|page| (page, 1)).collect::<Vec<_>>());
    }

    /// The proved program `rounds` on its own arguments makes as many stores as are counted here.
    #[test]
    fn the_program_rounds_plays_these() {
        let text = |name| {
            let path = format!("{}/../crates/rounds/{name}", env!("CARGO_MANIFEST_DIR"));
            std::fs::read_to_string(path).expect("the program's text")
        };
        let arguments: Vec<u64> =
            text("args").split_whitespace().map(|n| n.parse().expect("a number")).collect();
        let mut store = Store::of(LISTS[0].sizes);
        (0..arguments[0]).for_each(|round| store.play(&pair(round, arguments[1])));
        let stores = format!(": {} stores,", store.traffic().bytes / WORD);
        assert!(text("stdout").contains(&stores), "{stores}");
    }
}
