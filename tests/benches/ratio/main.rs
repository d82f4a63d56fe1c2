//! The library's time as a ratio to the tuned rival's (tests/rival): both built for release, alternating in one process, the best of many.
//! `cargo bench --offline`. No test: it prints, and asserts nothing about time, only that both come to the same bytes for all that is measured, and
//! in `turns` and `depths` that each turn is a step, waits or is idle as it is called.

mod bytes;
mod calls;
mod dealing;
mod depths;
mod jobs;
#[path = "../../tests/linked/mod.rs"]
mod linked;
mod measure;
mod pricing;
mod table;
mod tidying;
mod turns;
mod whole;

fn main() {
    whole::print();
    turns::print();
    depths::print();
    bytes::print();
    tidying::print();
    dealing::print();
    pricing::print();
}
