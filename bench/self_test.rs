//! Checks the plain console alone against sample games.
//! Usage: self_test FOLDER, where index.txt lists names and each NAME has NAME.game and NAME.expected.

#[allow(dead_code)]
mod plain;

use std::path::Path;
use std::{env, fs, process};

fn agrees(folder: &Path, name: &str) -> Result<bool, std::io::Error> {
    let game = fs::read(folder.join(format!("{name}.game")))?;
    let expected = fs::read(folder.join(format!("{name}.expected")))?;
    let got = plain::statement(&game);
    if got != expected {
        println!("{name} differs");
        println!("expected:\n{}", String::from_utf8_lossy(&expected));
        println!("got:\n{}", String::from_utf8_lossy(&got));
    }
    Ok(got == expected)
}

fn check(folder: &Path) -> Result<bool, std::io::Error> {
    let index = fs::read_to_string(folder.join("index.txt"))?;
    let (mut equal, mut all) = (0, 0);
    for name in index.split_whitespace() {
        all += 1;
        if agrees(folder, name)? {
            equal += 1;
        }
    }
    println!("{equal} of {all} sample games agree");
    Ok(all > 0 && equal == all)
}

fn main() {
    let folder = match env::args_os().nth(1) {
        Some(folder) => folder,
        None => {
            eprintln!("usage: self_test FOLDER");
            process::exit(2);
        }
    };
    match check(Path::new(&folder)) {
        Ok(true) => {}
        Ok(false) => process::exit(1),
        Err(error) => {
            eprintln!("{error}");
            process::exit(2);
        }
    }
}
