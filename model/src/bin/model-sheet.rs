//! The cut sheet of a powerhit script by the model, for `tests/cut_sheet.sh`, which holds `examples/cut_sheet` to it.
//!
//! `model-sheet < script` prints the sheet as CSV. Bad lines are named on standard error instead, and nothing is printed: exit
//! status 1. `model-sheet script SEED INDEX LINES` prints a random script.
//!
//! A cut leaves the words that have landed new and all others old (document 01), and no operation but a format stores to a
//! word twice: so the image after i stores is the old one with the first i of the words stored to as the operation leaves them.

use std::io::{self, Read, Write};
use std::process::ExitCode;
use std::{env, fmt};

use model::compare::Kind;
use model::image::{line as line_at, put_word, word};
use model::layout::{Sizes, HEADER, HEAD_AT, LAYOUT_AT, LINE, LINES, TAIL_AT, WORD};
use model::mount::mount;
use model::script::lines::{letter_and_numbers, lines};
use model::script::powerhit::Session;

const HEADING: &str = "line,call,answer,store,of,address,place,value,decides,recall,screen,shows\n";
const FRAME_WORDS: u64 = LINES * LINE / WORD;

fn main() -> ExitCode {
    let arguments: Vec<String> = env::args().skip(1).collect();
    match arguments.iter().map(String::as_str).collect::<Vec<_>>().as_slice() {
        [] => {}
        ["script", rest @ ..] if rest.len() == 3 => {
            let numbers: Vec<u64> = rest.iter().map(|text| text.parse().expect("a number")).collect();
            let script = Kind::Powerhit.script(numbers[0], numbers[1], numbers[2]);
            io::stdout().write_all(&script).expect("standard output");
            return ExitCode::SUCCESS;
        }
        _ => {
            eprintln!("model-sheet < script, or model-sheet script SEED INDEX LINES");
            return ExitCode::from(2);
        }
    }
    let mut input = vec![];
    io::stdin().read_to_end(&mut input).expect("standard input");
    match sheet(&input) {
        Ok(text) => {
            io::stdout().write_all(text.as_bytes()).expect("standard output");
            ExitCode::SUCCESS
        }
        Err(named) => {
            eprint!("{named}");
            ExitCode::from(1)
        }
    }
}

/// The whole sheet, or the bad lines by number.
fn sheet(input: &[u8]) -> Result<String, String> {
    let mut session = Session::default();
    let mut screens = Screens { last: Err(2), number: 0 };
    let (mut text, mut named) = (HEADING.to_string(), String::new());
    for (number, line) in (1..).zip(lines(input)) {
        let had_image = session.state().is_some();
        let asked = Asked::new(&session, line);
        let printed = session.turn(line);
        let fields: Vec<&str> = printed.trim_end().split(',').collect();
        if fields[1] == "?" {
            // a line of its own form is met by `?` for want of an image alone
            let wants_image = !had_image && has_form(line);
            let wrong = if wants_image {
                "no image: an F must be taken first"
            } else {
                "not a line of a powerhit script"
            };
            named += &format!("line {number}: {wrong}\n");
            continue;
        }
        let call = format!("{number},{},{}", fields[1], fields[2]);
        text += &asked.rows(&call, session.stored().at.len(), &mut screens);
    }
    if named.is_empty() {
        Ok(text)
    } else {
        Err(named)
    }
}

/// Whether a session with an image takes the line.
fn has_form(line: &[u8]) -> bool {
    let mut session = Session::default();
    session.turn(b"F,1,1,1");
    !session.turn(line).contains('?')
}

/// A line of the script before it is performed: what it would store, were it not cut.
struct Asked {
    letter: u8,
    numbers: Vec<u64>,
    sizes: Sizes,
    old: Vec<u8>,
    /// Address and value of each store.
    stores: Vec<(usize, u64)>,
}

impl Asked {
    fn new(session: &Session, line: &[u8]) -> Asked {
        let (letter, numbers) = letter_and_numbers(line, 9).unwrap_or((b'?', vec![]));
        let mut whole = session.clone();
        // a K replaces the one before it: with this one nothing is cut. Before any F there is none
        whole.turn(b"K,999999999");
        whole.turn(line);
        let (at, new) = (&whole.stored().at, whole.buffer());
        let mut stores: Vec<(usize, u64)> = at.iter().map(|&at| (at, word(new, at))).collect();
        if letter == b'F' && !stores.is_empty() {
            // "layout word 0 first" (document 02, L6)
            stores[0].1 = 0;
        }
        Asked { letter, numbers, sizes: whole.stored().sizes, old: session.buffer().to_vec(), stores }
    }

    /// A row for each of the stores made, or one that has none.
    fn rows(self, call: &str, made: usize, screens: &mut Screens) -> String {
        let mut image = self.old.clone();
        let needed = self.stores.len();
        if made == 0 {
            return format!("{call},0,{needed},-,-,-,-,{}\n", screens.next(&image));
        }
        let mut text = String::new();
        for (i, &(at, value)) in (1..).zip(&self.stores[..made]) {
            put_word(&mut image, at, value);
            let decides = if self.decides(at) { "yes" } else { "no" };
            let place = Place { asked: &self, at: at as u64 / WORD };
            text += &format!("{call},{i},{needed},{at},{place},{value},{decides},{}\n", screens.next(&image));
        }
        text
    }

    /// Whether a mount goes by what is changed there: head and tail; of a format the layout, without which it goes by nothing.
    fn decides(&self, at: usize) -> bool {
        match self.letter {
            b'F' => at == LAYOUT_AT,
            _ => at == HEAD_AT || at == TAIL_AT,
        }
    }
}

/// A word of the image by its number, as the sheet calls it.
struct Place<'a> {
    asked: &'a Asked,
    at: u64,
}

impl fmt::Display for Place<'_> {
    fn fmt(&self, text: &mut fmt::Formatter) -> fmt::Result {
        let Place { asked, at } = *self;
        let sizes = asked.sizes;
        let word_of = |address: usize| address as u64 / WORD;
        let (slots, journal) = (word_of(sizes.slot_word(0, 0)), word_of(sizes.record_word(0, 0)));
        let (padding, frames) = (journal + 4 * sizes.j, sizes.frames_start() / WORD);
        if at < HEADER / WORD {
            text.write_str(header_word(at))
        } else if at < slots {
            write!(text, "page table word of page {}", at - word_of(sizes.page_word(0)))
        } else if at < journal {
            write!(text, "word {} of slot {} of the slot table", (at - slots) % 3, (at - slots) / 3)
        } else if at < padding {
            write!(text, "word {} of record {} of the journal", (at - journal) % 4, (at - journal) / 4)
        } else if at < frames {
            write!(text, "word {} of the padding", at - padding)
        } else {
            let (frame, rest) = ((at - frames) / FRAME_WORDS, (at - frames) % FRAME_WORDS);
            let (line, i) = (rest / 8, rest % 8);
            match (asked.letter, asked.numbers.as_slice()) {
                (b'W', [_, page, ..]) | (b'D', [page]) => {
                    write!(text, "word {i} of the copy of line {line} of page {page} in frame {frame}")
                }
                _ => write!(text, "word {i} of line {line} of frame {frame}"),
            }
        }
    }
}

/// "P, S, J, layout (1), head, tail" (document 01); "n in word 6", "word 7 is L" (document 02, L14).
fn header_word(at: u64) -> &'static str {
    match at {
        0 => "number of pages",
        1 => "number of slots",
        2 => "number of journal places",
        3 => "layout word",
        4 => "head",
        5 => "tail",
        6 => "count of entries",
        _ => "number of entries",
    }
}

/// The lines of the recall screen, page by page, or the number that recall is turned back with.
type Screen = Result<Vec<[u8; 64]>, u8>;

struct Screens {
    last: Screen,
    number: u64,
}

impl Screens {
    /// The last three fields of a row: what recall answers, the screen's number, and what of it differs from the row above.
    fn next(&mut self, image: &[u8]) -> String {
        let screen = screen(image);
        let last = std::mem::replace(&mut self.last, screen);
        let lines = match &self.last {
            Err(number) => return format!("{number},-,no image"),
            Ok(lines) => lines,
        };
        let changed = !matches!(&last, Ok(above) if same(above, lines));
        self.number += u64::from(changed);
        let above = last.unwrap_or_default();
        let shows = changes(&above, lines);
        let shows = match (shows.is_empty(), changed) {
            (false, _) => shows,
            (true, true) => "blank".to_string(),
            (true, false) => "as before".to_string(),
        };
        format!("0,{},{shows}", self.number)
    }
}

/// A page that is not there shows as one that is blank.
fn shown(lines: &[[u8; 64]], i: usize) -> [u8; 64] {
    lines.get(i).copied().unwrap_or([0; 64])
}

fn same(above: &[[u8; 64]], lines: &[[u8; 64]]) -> bool {
    (0..above.len().max(lines.len())).all(|i| shown(above, i) == shown(lines, i))
}

/// The lines that differ, each with its bytes, the zeros at its end left out but one.
fn changes(above: &[[u8; 64]], lines: &[[u8; 64]]) -> String {
    let mut texts = vec![];
    for i in 0..above.len().max(lines.len()) {
        let line = shown(lines, i);
        if line != shown(above, i) {
            let end = line.iter().rposition(|&byte| byte != 0).unwrap_or(0);
            let bytes: Vec<String> = line[..=end].iter().map(u8::to_string).collect();
            texts.push(format!("page {} line {}: {}", i / 64, i % 64, bytes.join(" ")));
        }
    }
    texts.join("; ")
}

/// What recall gives of each line: it mounts, and copies the committed one.
fn screen(image: &[u8]) -> Screen {
    let state = mount(image).map_err(|refusal| refusal.number())?;
    let sizes = state.sizes;
    let committed = |page, line| {
        let frame = match state.slot_of(page) {
            Some(slot) => state.slots[slot].committed_frame(line),
            None => word(image, sizes.page_word(page)),
        };
        line_at(image, sizes.line_start(frame, line))
    };
    Ok((0..sizes.p)
        .flat_map(|page| (0..LINES).map(move |line| (page, line)))
        .map(|(page, line)| committed(page, line))
        .collect())
}
