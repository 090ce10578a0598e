//! Times of a call, the proved library beside the same rules in plain Rust, in one run. usage: bench
#[cfg(source)]
mod antennas;
mod boards;
mod books;
mod calendar;
mod clock;
mod leaves;
mod levels;

fn main() {
    leaves::run();
    calendar::run();
    boards::run();
    #[cfg(source)]
    antennas::run();
    books::run();
    levels::run();
}
