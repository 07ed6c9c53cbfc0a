//! Writes the test program's named session files and what it must print.
//!
//! `cases_main DIR` writes DIR/data/NAME, DIR/args (the names) and DIR/stdout.
//! `cases_main --self-check` checks the reference against the worked cases.

mod cases;
mod random;
mod reference;
mod registers;
mod self_check;
mod sheet;

use std::path::Path;
use std::{fs, io};

fn main() -> io::Result<()> {
    let arguments: Vec<String> = std::env::args().skip(1).collect();
    match arguments.as_slice() {
        [option] if option == "--self-check" => {
            self_check::check();
            println!("worked cases hold");
            Ok(())
        }
        [directory] => write_cases(Path::new(directory)),
        _ => {
            eprintln!("usage: cases_main DIR | cases_main --self-check");
            std::process::exit(2);
        }
    }
}

fn write_cases(directory: &Path) -> io::Result<()> {
    let data = directory.join("data");
    fs::create_dir_all(&data)?;
    let mut names = String::new();
    let mut printed = String::new();
    for case in cases::all() {
        fs::write(data.join(&case.name), &case.bytes)?;
        names += &format!("{}\n", case.name);
        printed += &format!("{}:\n", case.name);
        for lengths in cases::lendings() {
            printed += &reference::pool_text(&case.bytes, &mut lengths.lend_zeros());
        }
    }
    fs::write(directory.join("args"), names)?;
    fs::write(directory.join("stdout"), printed)
}
