//! Write traffic of the source documents' schemes beside this store's, counted on the same rounds. Prints that section of bench/RESULTS.md.
//!
//! Each scheme is a file of its own, by its document's record sizes and fences, with the section named.

mod asynchronous;
mod indirection;
mod rounds;
mod scheme;
mod speculative;
mod store;
mod undo_log;
mod wrapping;

use asynchronous::{Asynchronous, LogWrites};
use indirection::Indirection;
use rounds::{List, BONUS_PAGES, LISTS};
use scheme::{Scheme, Traffic, LINE};
use speculative::{Data, Speculative};
use store::Store;
use undo_log::UndoLog;
use wrapping::wrapped;

struct Row {
    what: &'static str,
    fresh: fn(&List) -> Box<dyn Scheme>,
    /// What the document itself says.
    claim: &'static str,
}

const ROWS: [Row; 7] = [
    Row {
        what: "this store (004)",
        fresh: |list| Box::new(Store::of(list.sizes)),
        claim: "45 % fewer writes than a hardware undo log, on average (5.2)",
    },
    Row {
        what: "hardware undo log (003)",
        fresh: |_| Box::new(UndoLog::default()),
        claim: "8 writes for 7 log entries where 14 would be needed (IV-C)",
    },
    Row {
        what: "asynchronous undo log (002), all of it sent",
        fresh: |_| Box::new(Asynchronous::with(LogWrites::Sent)),
        claim: "dropping log writes takes off some 33 %, dropping data writes some 31 % more (7.2)",
    },
    Row {
        what: "the same, all of the log dropped in the queue",
        fresh: |_| Box::new(Asynchronous::with(LogWrites::Dropped)),
        claim: "0.52 of a hardware undo log's traffic, 0.39 of a software one's (7.2)",
    },
    Row {
        what: "speculative log (001), lines written back at commit",
        fresh: |_| Box::new(Speculative::with(Data::AtCommit)),
        claim: "one fence a transaction (3); as much traffic as an undo log (7.3, in hardware)",
    },
    Row {
        what: "the same, lines left in the cache",
        fresh: |_| Box::new(Speculative::with(Data::Later)),
        claim: "second lowest of the designs compared (7.3, in hardware; the figure is a picture)",
    },
    Row {
        what: "indirection table (000)",
        fresh: |_| Box::new(Indirection::default()),
        claim: "55.6 % fewer writes beside the data's own than 004, on average (IV-B)",
    },
];

fn main() {
    let counts: Vec<Vec<Traffic>> =
        ROWS.iter().map(|row| LISTS.iter().map(|list| played(row, list)).collect()).collect();
    println!("## Write traffic\n");
    print_head();
    for (row, counts) in ROWS.iter().zip(&counts) {
        let cells: Vec<String> =
            LISTS.iter().zip(counts).map(|(list, traffic)| cells(list, *traffic)).collect();
        println!("| {} | {} | {} |", row.what, cells.join(" | "), row.claim);
    }
    print_notes(&counts[0], &counts[1]);
    // the next section follows
    println!();
}

fn played(row: &Row, list: &List) -> Traffic {
    let mut scheme = (row.fresh)(list);
    for round in 0..list.rounds {
        scheme.play(&(list.lines_of)(round));
    }
    scheme.traffic()
}

fn print_head() {
    let columns: Vec<String> =
        LISTS.iter().map(|list| format!("{}: bytes | lines | fences", list.name)).collect();
    println!("| | {} | the document's own claim |", columns.join(" | "));
    println!("|---|{}---|", "---|".repeat(3 * LISTS.len()));
}

/// The means of a round.
fn cells(list: &List, traffic: Traffic) -> String {
    let mean = |sum: u64| sum as f64 / list.rounds as f64;
    format!("{:.0} | {:.1} | {:.1}", mean(traffic.bytes), mean(traffic.lines), mean(traffic.fences))
}

fn print_notes(ours: &[Traffic], undo_log: &[Traffic]) {
    let beside = |of: fn(&Traffic) -> u64| {
        let each = LISTS.iter().zip(ours.iter().zip(undo_log));
        let told: Vec<String> =
            each.map(|(list, (us, log))| format!("{} {}", list.name, less(of(us), of(log)))).collect();
        told.join(", ")
    };
    let (bytes, lines) = (beside(|traffic| traffic.bytes), beside(|traffic| traffic.lines));
    let payload = 2 * LINE;
    let bonus = BONUS_PAGES * LINE;
    let [near, _, wide] = &LISTS;
    print_paragraph(&format!(
        "Means of a round, counted by `model-traffic`: a file a scheme in model/src/bin/model-traffic, by its document's record sizes and fences, \
         sections named there. Bytes are those stored. Lines are those of 64 bytes written back, each once between two fences: what memory that \
         takes whole lines sees. Near and far are {} rounds each as above, {payload} bytes of payload a round. Bonus is {} rounds that write a line \
         to each of {BONUS_PAGES} pages, {bonus} bytes, which this store plays as wide rounds. A round is durable when it ends.",
        near.rounds, wide.rounds
    ));
    print_paragraph(&format!("This store beside the hardware undo log. Bytes: {bytes}. Lines: {lines}."));
    print_paragraph("What the figures leave out:");
    println!();
    for left_out in LEFT_OUT {
        println!("{}", wrapped(&format!("- {left_out}"), "  "));
    }
}

/// How much less a is than b, or more.
fn less(a: u64, b: u64) -> String {
    let percent = 100.0 * a.abs_diff(b) as f64 / b as f64;
    format!("{percent:.0} % {}", if a <= b { "less" } else { "more" })
}

fn print_paragraph(text: &str) {
    println!("\n{}", wrapped(text, ""));
}

const LEFT_OUT: [&str; 5] = [
    "All: reads, time, wear. A fence of this store waits for lines of its own program; in 000, 002 and 003 hardware that does not exist in \
     these cabinets keeps the order, and only a round's end is waited for.",
    "This store: the stores of a format. 004's own hardware gathers its records, 16 bytes for this store's 32 (3.3), in a buffer \
     of the memory controller and writes whole lines of them (4.1.2), so it writes fewer lines; here each round writes back its records and head.",
    "003 and 002: lines that leave the cache within a round and are logged again; what the controller saves when power is lost. 002 without \
     `asap_fence` has no fence, but then a round that has ended may still be undone (5.2); with it, it is an undo log with log writes dropped \
     (6.4). A data write still queued when a later round logs the same line is dropped too (5.1): that lies below both rows.",
    "001: making room in the log. Each cycle writes all fresh entries again, with two fences (4.2); when one is due the document leaves \
     open. Pointers between log blocks. Lines left in the cache go to memory some time, at most as in the row above.",
    "000: the entries and the list of free blocks that are saved when power is lost (III-D). Its cache of entries holds all lines played here, so \
     none is written for want of room.",
];
