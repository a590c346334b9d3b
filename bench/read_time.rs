// How long it takes to read a full sheet: 64 blocks and 32 routes of 24 blocks each.
//
// Build the static library, then compile and run this program, both from the root of the repository:
//     (cd crates/exports && rt lib)
//     mkdir -p target && rustc -O bench/read_time.rs -L crates/exports/out -l static=exports -o target/read_time && target/read_time

use std::fmt::Write;
use std::hint::black_box;
use std::time::Instant;

// What the library exports. A text is passed as its address and its length.
unsafe extern "C" {
    fn vizgolen_sheet_number(text: *const u8, length: usize) -> u8;
    fn vizgolen_sheet_line(text: *const u8, length: usize) -> usize;
}

fn number(text: &[u8]) -> u8 {
    // SAFETY: the library reads `length` bytes from `text`, keeps nothing and writes nothing
    unsafe { vizgolen_sheet_number(text.as_ptr(), text.len()) }
}

fn line(text: &[u8]) -> usize {
    // SAFETY: as above
    unsafe { vizgolen_sheet_line(text.as_ptr(), text.len()) }
}

// Plain blocks joined in a row, with an outer end at both ends of the row.
fn add_chain(sheet: &mut String, first: u8, last: u8) {
    for block in first..=last {
        sheet.push_str("plain");
        if block == first {
            sheet.push_str(" -");
        } else {
            write!(sheet, " {}.1", block - 1).unwrap();
        }
        if block == last {
            sheet.push_str(" -");
        } else {
            write!(sheet, " {}.0", block + 1).unwrap();
        }
        sheet.push('\n');
    }
}

// The route through a chain, up or down.
fn add_route(sheet: &mut String, blocks: impl Iterator<Item = u8>) {
    sheet.push_str("route");
    for block in blocks {
        write!(sheet, " {block}").unwrap();
    }
    sheet.push('\n');
}

// Three chains of 24, 24 and 16 blocks, and the first two run through in both directions, eight times each.
fn full_sheet() -> String {
    let mut sheet = String::new();
    add_chain(&mut sheet, 0, 23);
    add_chain(&mut sheet, 24, 47);
    add_chain(&mut sheet, 48, 63);
    for _ in 0..8 {
        add_route(&mut sheet, 0..=23);
        add_route(&mut sheet, (0..=23).rev());
        add_route(&mut sheet, 24..=47);
        add_route(&mut sheet, (24..=47).rev());
    }
    sheet
}

const READS: u32 = 20_000;

fn main() {
    let sheet = full_sheet();
    assert_eq!(number(sheet.as_bytes()), 0, "the full sheet is accepted");
    assert_eq!(line(sheet.as_bytes()), 0, "the full sheet is accepted");

    // a joint to a block that is not there, on the last block line
    let broken = sheet.replacen("plain 62.1 -", "plain 64.1 -", 1);
    assert_eq!(
        (number(broken.as_bytes()), line(broken.as_bytes())),
        (5, 64)
    );

    let start = Instant::now();
    for _ in 0..READS {
        black_box(number(black_box(sheet.as_bytes())));
    }
    let micros = start.elapsed().as_secs_f64() * 1e6 / f64::from(READS);
    println!(
        "{} bytes: {micros:.1} microseconds a read, over {READS} reads",
        sheet.len()
    );
}
