//! `procedures`: times check and compare of each hard sheet with itself. `procedures write FOLDER`: writes the sheets
//! into the folder. The exit status is 0 only if the answers are as they should be.

#[allow(dead_code)]
#[path = "../../bindings/rust/src/boundary.rs"]
mod boundary;
mod chains;
#[path = "../clock.rs"]
mod clock;
#[allow(dead_code)]
#[path = "../../tests/independent/reader.rs"]
mod reader;
#[allow(dead_code)]
#[path = "../../tests/independent/sheet.rs"]
mod sheet;
mod sheets;
mod terms;
#[path = "../../tests/independent/weigh.rs"]
mod weigh;

use boundary::{negyvosal_check, negyvosal_compare, state_words, ACCEPTED, OLD_MARK, REFUSED, SAME, WORDS};
use clock::now;
use sheets::Hard;
use std::path::Path;
use std::process::ExitCode;

const RUNS: usize = 21;
const TOO_LARGE: u32 = 11;
/// The most milliseconds that a check and a comparison may take.
const CHECK_LIMIT: f64 = 1.0;
const COMPARE_LIMIT: f64 = 40.0;

fn check(sheet: &[u8]) -> [u32; WORDS] {
    let mut out = [0; WORDS];
    // SAFETY: both pointers are to as many elements as the lengths say.
    unsafe { negyvosal_check(sheet.as_ptr(), sheet.len(), out.as_mut_ptr(), WORDS) };
    out
}

/// Compares a sheet with itself.
fn compare(sheet: &[u8], words: &mut [u32], space: &mut [u8]) -> [u32; WORDS] {
    let (mut out, length) = ([0; WORDS], sheet.len());
    let (words_length, space_length) = (words.len(), space.len());
    // SAFETY: every pointer is to as many elements as its length says; only what is read overlaps.
    unsafe {
        negyvosal_compare(
            sheet.as_ptr(),
            length,
            sheet.as_ptr(),
            length,
            words.as_mut_ptr(),
            words_length,
            space.as_mut_ptr(),
            space_length,
            out.as_mut_ptr(),
            WORDS,
        )
    };
    out
}

/// The answer of so many runs, which is always the same, and their least processor time in milliseconds.
fn timed(run: &mut dyn FnMut() -> [u32; WORDS]) -> ([u32; WORDS], f64) {
    let answer = run();
    let mut least = f64::INFINITY;
    for _ in 0..RUNS {
        let start = now();
        run();
        least = least.min((now() - start) / 1e3);
    }
    (answer, least)
}

/// Times a sheet and prints its line: whether its answers are right, and whether both times are within the limits.
fn time(hard: &Hard) -> (bool, bool) {
    let (checked, check_time) = timed(&mut || check(&hard.sheet));
    let size = hard.size.unwrap_or(0);
    let needed = state_words(hard.sheet[0]) * (2 * size as usize + 1);
    let (mut words, mut space) = (vec![0; needed], vec![0; 8 * size as usize]);
    let (compared, compare_time) = timed(&mut || compare(&hard.sheet, &mut words, &mut space));
    let (checked, compared) = (&checked[..OLD_MARK], &compared[..OLD_MARK]);
    let (right, told) = match hard.size {
        Some(size) => (checked == [ACCEPTED, 0, size, 0, 0] && compared == [SAME, 0, 0, 0, 0], format!("size {size}")),
        None => (checked == [REFUSED, TOO_LARGE, 0, 0, 0] && compared == checked, "refused 11".to_string()),
    };
    let within = check_time <= CHECK_LIMIT && compare_time <= COMPARE_LIMIT;
    let remark = if !right {
        "  WRONG"
    } else if !within {
        "  OVER"
    } else {
        ""
    };
    println!(
        "{:48}{:6}  {told:11}{:7}{:7}{check_time:10.3}{CHECK_LIMIT:6}{compare_time:10.3}{COMPARE_LIMIT:6}{remark}",
        hard.what,
        hard.sheet.len(),
        hard.parts,
        hard.depth
    );
    (right, within)
}

fn time_all() -> bool {
    println!(
        "{:48}{:>6}  {:11}{:>7}{:>7}{:>10}{:>6}{:>10}{:>6}",
        "sheet", "bytes", "answer", "parts", "depth", "check ms", "limit", "same ms", "limit"
    );
    let told: Vec<(bool, bool)> = sheets::all().iter().map(time).collect();
    let wrong = told.iter().filter(|(right, _)| !right).count();
    let over = told.iter().filter(|(_, within)| !within).count();
    println!("{} sheets, {wrong} wrong, {over} over a limit", told.len());
    wrong == 0
}

/// Writes the sheets by number, and prints what they are.
fn write_all(folder: &Path) -> std::io::Result<()> {
    std::fs::create_dir_all(folder)?;
    for (hard, number) in sheets::all().iter().zip(1..) {
        std::fs::write(folder.join(format!("{number:02}.sheet")), &hard.sheet)?;
        let size = hard.size.map_or("refused 11".to_string(), |size| format!("size {size}"));
        println!("{number:02} {size} parts {} depth {} | {}", hard.parts, hard.depth, hard.what);
    }
    Ok(())
}

fn main() -> ExitCode {
    let arguments: Vec<String> = std::env::args().skip(1).collect();
    let well = match arguments.iter().map(String::as_str).collect::<Vec<&str>>()[..] {
        [] => time_all(),
        ["write", folder] => write_all(Path::new(folder)).is_ok(),
        _ => {
            eprintln!("usage: procedures [write FOLDER]");
            return ExitCode::from(2);
        }
    };
    if well {
        ExitCode::SUCCESS
    } else {
        ExitCode::FAILURE
    }
}
