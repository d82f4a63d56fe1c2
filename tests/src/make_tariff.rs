//! Random tariffs and switch's logs, and damaged ones.
//!
//! Seconds and prices are drawn near the places where a charge changes: the last
//! free second, the last second of a unit, the last second of an hour, and the
//! largest charge there can be.

use crate::random::Random;
use crate::tariff::{
    log_bytes, tariff_bytes, Band, Logged, BAND_LENGTH, HOUR, MAX_BANDS, MAX_UNIT, RECORD_LENGTH,
};

/// The hours of a month.
const HOURS: usize = 31 * 24;

/// A tariff of so many bands, each with a code of its own.
pub fn tariff(random: &mut Random, bands: usize) -> Vec<Band> {
    let mut codes: Vec<u8> = (0..=255).collect();
    random.shuffle(&mut codes);
    let codes = codes.into_iter().take(bands);
    codes.map(|code| band(random, code)).collect()
}

fn band(random: &mut Random, code: u8) -> Band {
    let any_unit = random.between(1, MAX_UNIT.into()) as u16;
    let any_free = random.bits() as u8;
    Band {
        code,
        free: random.one_of(&[0, 0, 10, 255, any_free]),
        unit: random.one_of(&[1, 6, 60, MAX_UNIT, any_unit]),
        fee: money(random),
        prices: [(); 3].map(|()| money(random)),
    }
}

/// Mostly a small sum, now and then any sum, or as much as can be.
fn money(random: &mut Random) -> u32 {
    match random.below(25) {
        0 => random.word(),
        1 => u32::MAX - random.below(3) as u32,
        2 => 0,
        3..=6 => random.below(100_000) as u32,
        _ => random.below(500) as u32,
    }
}

/// A record of a call of one of these bands, whatever its charge.
pub fn any_record(random: &mut Random, bands: &[Band]) -> Logged {
    let band = random.one_of(bands);
    Logged {
        call: random.word(),
        extension: random.bits() as u16,
        band: band.code,
        start: start(random),
        talked: talked(random, &band),
    }
}

/// A start in the month or far behind it, many near the end of an hour.
fn start(random: &mut Random) -> u32 {
    let hour = HOUR * random.below(HOURS) as u32;
    match random.below(6) {
        0 | 1 => hour + random.one_of(&[0, 1, HOUR - 2, HOUR - 1]),
        2 => u32::MAX - random.below(100_000) as u32,
        3 => random.word(),
        _ => hour + random.below(HOUR as usize) as u32,
    }
}

fn talked(random: &mut Random, band: &Band) -> u32 {
    let (free, unit) = (u32::from(band.free), u32::from(band.unit));
    match random.below(12) {
        0 => 0,
        1 => random.below(free as usize + 2) as u32,
        2..=5 => (free + unit * random.below(40) as u32 + random.below(3) as u32).saturating_sub(1),
        6 => random.word(),
        7 => u32::MAX - random.below(300) as u32,
        _ => random.below(8_000) as u32,
    }
}

/// A record that no row refuses: the call is the shorter, the dearer it would be.
pub fn record(random: &mut Random, bands: &[Band]) -> Logged {
    let mut record = any_record(random, bands);
    let its_own = |band: &&Band| band.code == record.band;
    let band = bands.iter().find(its_own).expect("a band of the tariff");
    while band.charge(record.start, record.talked) > u32::MAX.into() {
        record.talked /= 2;
    }
    record
}

/// A log of so many records that no row refuses. An empty tariff has an empty log.
pub fn log(random: &mut Random, bands: &[Band], records: usize) -> Vec<Logged> {
    let records = if bands.is_empty() { 0 } else { records };
    (0..records).map(|_| record(random, bands)).collect()
}

/// A few bands, or as many as can be, or none.
pub fn some_bands(random: &mut Random) -> Vec<Band> {
    let any = random.below(MAX_BANDS + 1);
    let bands = random.one_of(&[0, 1, 2, 4, MAX_BANDS - 1, MAX_BANDS, any, any]);
    tariff(random, bands)
}

/// A tariff of one band and a log of one call, whose charge is by its fee just 2^32 - 1;
/// before it the same with a fee of one less, and behind it with one of one more.
pub fn around_the_limit(random: &mut Random) -> [(Vec<u8>, Vec<u8>); 3] {
    let most = u64::from(u32::MAX);
    let (mut band, mut record);
    loop {
        band = tariff(random, 1)[0];
        record = any_record(random, &[band]);
        band.fee = 0;
        let units = band.charge(record.start, record.talked);
        if record.talked > 0 && (1..most).contains(&units) {
            band.fee = (most - units) as u32;
            break;
        }
    }
    [band.fee - 1, band.fee, band.fee + 1].map(|fee| {
        let band = Band { fee, ..band };
        (band.to_bytes(), record.to_bytes())
    })
}

/// What can be wrong with a tariff and a log.
#[derive(Clone, Copy, Debug)]
enum Fault {
    TariffNotWhole,
    LogNotWhole,
    TooManyBands,
    CodeTwice,
    BadUnit,
    ZeroByte,
    NoSuchBand,
    TooDear,
}

const FAULTS: [Fault; 8] = [
    Fault::TariffNotWhole,
    Fault::LogNotWhole,
    Fault::TooManyBands,
    Fault::CodeTwice,
    Fault::BadUnit,
    Fault::ZeroByte,
    Fault::NoSuchBand,
    Fault::TooDear,
];

/// The bytes of a tariff and of a log of a few records. Half of them have one fault,
/// others two or three, and some none. Those of a record are the more frequent, for
/// they are looked for last.
pub fn damaged(random: &mut Random) -> (Vec<u8>, Vec<u8>) {
    let bands = some_bands(random);
    let records = random.below(9);
    let mut tariff = tariff_bytes(&bands);
    let mut log = log_bytes(&self::log(random, &bands, records));
    for _ in 0..random.one_of(&[0, 1, 1, 1, 2, 3]) {
        let of_a_record = random.percent(50);
        let fault = random.one_of(if of_a_record { &FAULTS[5..] } else { &FAULTS });
        damage(random, fault, &mut tariff, &mut log);
    }
    (tariff, log)
}

/// Makes a fault, where the tariff and the log are long enough for it. Whether it is
/// told has to be found out some other way.
fn damage(random: &mut Random, fault: Fault, tariff: &mut Vec<u8>, log: &mut Vec<u8>) {
    let band = some_piece(random, tariff, BAND_LENGTH);
    let other = some_piece(random, tariff, BAND_LENGTH);
    let record = some_piece(random, log, RECORD_LENGTH);
    match (fault, band, record) {
        (Fault::TariffNotWhole, ..) => not_whole(random, tariff, BAND_LENGTH),
        (Fault::LogNotWhole, ..) => not_whole(random, log, RECORD_LENGTH),
        (Fault::TooManyBands, ..) => {
            let bands = MAX_BANDS + random.one_of(&[1, 1, 2, 8, 224]);
            tariff.extend(tariff_bytes(&self::tariff(random, bands)));
            tariff.truncate(BAND_LENGTH * bands);
        }
        (Fault::CodeTwice, Some(band), _) => tariff[band] = tariff[other.unwrap_or(band)],
        (Fault::BadUnit, Some(band), _) => {
            let unit = random.one_of(&[0, 0, MAX_UNIT + 1, 3_840, 1 << 15, u16::MAX]);
            tariff[band + 2..band + 4].copy_from_slice(&unit.to_le_bytes());
        }
        (Fault::ZeroByte, _, Some(record)) => log[record + 7] = random.nonzero_byte(),
        (Fault::NoSuchBand, _, Some(record)) => log[record + 6] = random.bits() as u8,
        (Fault::TooDear, _, Some(record)) => too_dear(random, tariff, &mut log[record..]),
        _ => {}
    }
}

/// Where one of the pieces of this length begins, if there is a whole one.
fn some_piece(random: &mut Random, bytes: &[u8], length: usize) -> Option<usize> {
    let pieces = bytes.len() / length;
    (pieces > 0).then(|| length * random.below(pieces))
}

/// Some bytes too few or too many.
fn not_whole(random: &mut Random, bytes: &mut Vec<u8>, length: usize) {
    let some = random.between(1, length - 1);
    if random.percent(50) && bytes.len() > some {
        bytes.truncate(bytes.len() - some);
    } else {
        bytes.resize(bytes.len() + some, random.bits() as u8);
    }
}

/// The record's call is as long as can be, or its band has as high a fee.
fn too_dear(random: &mut Random, tariff: &mut [u8], record: &mut [u8]) {
    if random.percent(50) {
        record[12..16].fill(255);
        return;
    }
    record[13] = 1;
    let its_own = |band: &&mut [u8]| band[0] == record[6];
    if let Some(band) = tariff.chunks_exact_mut(BAND_LENGTH).find(its_own) {
        band[4..8].fill(255);
    }
}
