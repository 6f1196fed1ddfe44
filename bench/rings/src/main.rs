//! Fragments through each link, beside plain Rust in the same run: queues and rings with one owner,
//! and rings between two threads.
//!
//! `cargo run --release` times both; with the word `queues` or `threads` it times one. With the word `ordering` it
//! times plain rings alone: by acquire and release, and with several fragments at a time (`ordering alone` in one
//! thread, `ordering between` between two, `ordering trips` round trips).

mod ordering;
mod orders;
mod plain;
mod queues;
mod shared;
mod threads;

fn main() {
    let mut words = std::env::args().skip(1);
    match words.next().as_deref() {
        Some("queues") => queues::report(),
        Some("threads") => threads::report(words.next().as_deref()),
        Some("ordering") => ordering::report(words.next().as_deref()),
        Some("plain") => threads::run_plain(words),
        _ => {
            queues::report();
            threads::report(None);
        }
    }
}
