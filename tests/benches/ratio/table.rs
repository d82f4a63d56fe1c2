//! What is printed.

use crate::measure::Times;

/// The heading of a part of the table.
pub fn heading(title: &str) {
    println!(
        "\n{title:<60} {:>12} {:>12} {:>7}",
        "library ns", "rival ns", "ratio"
    );
}

/// A line of it, in nanoseconds with so many decimals. The ratio is the library's time over the rival's.
pub fn line(name: &str, times: Times, decimals: usize) {
    let Times { library, rival } = times;
    println!(
        "{name:<60} {library:>12.decimals$} {rival:>12.decimals$} {:>7.2}",
        library / rival
    );
}
