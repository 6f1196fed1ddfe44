//! Fragments through streams, beside plain rings of acquire and release in Rust and in C, and beside the kit's `rtrb` and a
//! `duo`, in the same run.
//!
//! `cargo run --release` times all; with the word `alone` both sides are in one thread, with `threads` in two.

mod alone;
mod c_ring;
mod plain;
mod threads;

/// How many fragments a slice has.
pub const SLICE: usize = 16;

fn main() {
    let mut words = std::env::args().skip(1);
    match words.next().as_deref() {
        Some("alone") => alone::report(),
        Some("threads") => threads::report(),
        Some("plain") => threads::run_plain(words),
        _ => {
            alone::report();
            threads::report();
        }
    }
}

/// The first, second or third quarter of some times.
pub fn quarter(times: &mut [f64], part: usize) -> f64 {
    times.sort_by(f64::total_cmp);
    times[part * (times.len() - 1) / 4]
}

/// A line for each row: its middle run (and the middle half of its runs), and other rows' middle times over it.
pub fn report_rows(rows: &[(&str, Vec<f64>)], beside: &[&str]) {
    let middle = |name: &str| {
        let row = rows.iter().find(|(other, _)| *other == name).expect("a row");
        quarter(&mut row.1.clone(), 2)
    };
    for (name, times) in rows {
        let [low, own, high] = [1, 2, 3].map(|part| quarter(&mut times.clone(), part));
        print!("{name:<28} {own:7.2} ({low:.2} to {high:.2})");
        for other in beside {
            print!("   {other} {:.2}", middle(other) / own);
        }
        println!();
    }
}
