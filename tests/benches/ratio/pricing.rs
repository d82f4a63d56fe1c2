//! The charges of a switch's log: a small site's, a month's of a large one, and one that no cache holds.

use chargefile_tests::make_tariff;
use chargefile_tests::random::Random;
use chargefile_tests::tariff::{log_bytes, tariff_bytes, Band, Logged, BAND_LENGTH, HOUR};

use crate::calls::Call;
use crate::measure::{best, rotation};
use crate::table;

pub fn print() {
    table::heading("Pricing a switch's log");
    let small = given(4, 64);
    let times = best(Call::Price(4 * BAND_LENGTH), &small);
    table::line("64 records of 4 bands", times, 1);
    let month = given(32, 4_096);
    let times = best(Call::Price(32 * BAND_LENGTH), &month);
    table::line("4,096 records of 32 bands", times, 1);
    // too long to be measured so often
    let long = [given(32, 100_000)];
    let times = rotation(Call::Price(32 * BAND_LENGTH), &long);
    table::line("100,000 records of 32 bands", times, 1);
}

/// A tariff and behind it a log, as a site has them: calls of some minutes, all through the month, and prices in cents.
fn given(bands: usize, records: usize) -> Vec<u8> {
    let random = &mut Random::new(records as u64, "logs to be priced");
    let mut bands = make_tariff::tariff(random, bands);
    for band in &mut bands {
        band.unit = random.one_of(&[1, 6, 30, 60, 180]);
        band.fee = random.below(50) as u32;
        band.prices = [(); 3].map(|()| random.below(200) as u32);
    }
    let log: Vec<Logged> = (0..records).map(|_| call(random, &bands)).collect();
    [tariff_bytes(&bands), log_bytes(&log)].concat()
}

/// One call in eight is not answered, and has no seconds.
fn call(random: &mut Random, bands: &[Band]) -> Logged {
    let answered = random.below(8) > 0;
    Logged {
        call: random.word(),
        extension: random.below(900) as u16,
        band: random.one_of(bands).code,
        start: random.below(31 * 24 * HOUR as usize) as u32,
        talked: if answered {
            random.between(1, 1_800) as u32
        } else {
            0
        },
    }
}
