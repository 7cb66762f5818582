//! Compares the proved console with a plain one on many files, and times both on long games.
//! Usage: bench [FILES], the number of made files to compare (4,000 if not given).

mod files;
mod plain;

use std::collections::BTreeMap;
use std::hint::black_box;
use std::time::{Duration, Instant};
use std::{env, process};

const FILES: u64 = 4_000;
const BATCHES: usize = 15;
const BATCH_TIME: Duration = Duration::from_millis(60);

unsafe extern "C" {
    fn console_statement(file: *const u8, file_len: usize, buffer: *mut u8, buffer_len: usize) -> usize;
}

/// What the proved console prints for the file.
fn proved(file: &[u8]) -> Vec<u8> {
    let mut buffer = [0; 1_024];
    // The pointers and lengths are those of two slices that live through the call and do not overlap.
    let length = unsafe { console_statement(file.as_ptr(), file.len(), buffer.as_mut_ptr(), buffer.len()) };
    buffer[..length].to_vec()
}

// ------------------------------------------------------------- comparison

const CALLS: [&str; 12] =
    ["empty", "open", "sell", "buy", "end", "close", "bill", "payout", "train", "done", "reopen", "unknown"];

/// How many files end in each refusal, by its number (0 for none) and the call of its record.
type Met = BTreeMap<(u8, usize), u32>;

fn count(met: &mut Met, file: &[u8]) {
    let key = match plain::replay(file) {
        Ok(_) => (0, 0),
        Err(fault) => {
            let call = match file.get(fault.place) {
                None => 0,
                Some(&kind @ 1..=10) => usize::from(kind),
                Some(_) => 11,
            };
            (fault.refusal.number(), call)
        }
    };
    *met.entry(key).or_insert(0) += 1;
}

fn print_met(met: &Met) {
    let mut shown = None;
    for (&(number, call), times) in met {
        match number {
            0 => print!("no refusal: {times}"),
            _ if shown == Some(number) => print!(", {} {times}", CALLS[call]),
            _ => print!("\nrefusal {number}: {} {times}", CALLS[call]),
        }
        shown = Some(number);
    }
    println!();
}

fn compare(name: &str, file: &[u8], met: &mut Met) -> bool {
    let (ours, theirs) = (plain::statement(file), proved(file));
    count(met, file);
    if ours != theirs {
        println!("{name}, {} bytes: the two differ", file.len());
        println!("plain:\n{}", String::from_utf8_lossy(&ours));
        println!("proved:\n{}", String::from_utf8_lossy(&theirs));
    }
    ours == theirs
}

fn compare_all(seeds: u64) -> bool {
    let mut met = Met::new();
    let (mut all, mut different) = (0, 0);
    for (index, file) in files::edge_files().iter().enumerate() {
        all += 1;
        different += u64::from(!compare(&format!("edge file {index}"), file, &mut met));
    }
    for seed in 0..seeds {
        all += 1;
        different += u64::from(!compare(&format!("seed {seed}"), &files::test_file(seed), &mut met));
    }
    println!("{all} files compared, {different} differ");
    print_met(&met);
    different == 0
}

// -------------------------------------------------------------- benchmark

fn time(console: fn(&[u8]) -> Vec<u8>, file: &[u8], times: u32) -> Duration {
    let start = Instant::now();
    for _ in 0..times {
        black_box(console(black_box(file)));
    }
    start.elapsed() / times
}

/// So many replays that a batch of them takes about the time of a batch.
fn batch_size(console: fn(&[u8]) -> Vec<u8>, file: &[u8]) -> u32 {
    let once = time(console, file, 3).max(Duration::from_nanos(100));
    (BATCH_TIME.as_nanos() / once.as_nanos()).clamp(3, 100_000) as u32
}

struct Timing {
    least: Duration,
    median: Duration,
}

fn summed_up(mut batches: Vec<Duration>) -> Timing {
    batches.sort();
    Timing { least: batches[0], median: batches[batches.len() / 2] }
}

fn micros(time: Duration) -> f64 {
    time.as_secs_f64() * 1e6
}

fn benchmark(name: &str, book: u8) -> bool {
    let file = files::long_game(plain::LONGEST_FILE, book);
    let (ours, theirs) = (plain::statement(&file), proved(&file));
    if ours != theirs || ours.starts_with(b"refused") {
        println!("{name}: the long game is refused or the two differ");
        return false;
    }
    let (plain_size, proved_size) = (batch_size(plain::statement, &file), batch_size(proved, &file));
    let (mut plain_batches, mut proved_batches) = (Vec::new(), Vec::new());
    for _ in 0..BATCHES {
        plain_batches.push(time(plain::statement, &file, plain_size));
        proved_batches.push(time(proved, &file, proved_size));
    }
    let (plain, proved) = (summed_up(plain_batches), summed_up(proved_batches));
    println!("{name}, {} bytes, {BATCHES} batches each, microseconds for a replay:", file.len());
    println!("  plain:  least {:9.1}, median {:9.1}", micros(plain.least), micros(plain.median));
    println!("  proved: least {:9.1}, median {:9.1}", micros(proved.least), micros(proved.median));
    println!(
        "  proved / plain: least {:.2}, median {:.2}",
        micros(proved.least) / micros(plain.least),
        micros(proved.median) / micros(plain.median)
    );
    true
}

fn main() {
    let seeds = match env::args().nth(1).map(|word| word.parse()) {
        None => FILES,
        Some(Ok(seeds)) => seeds,
        Some(Err(_)) => {
            eprintln!("usage: bench [FILES]");
            process::exit(2);
        }
    };
    let equal = compare_all(seeds);
    if !equal || !benchmark("North", 1) || !benchmark("Berg", 2) {
        process::exit(1);
    }
}
