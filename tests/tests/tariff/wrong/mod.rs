//! Pricers that are wrong on purpose, each by one word of what is said. Each is told from the right one by a case that is named, and by what it makes of it;
//! on many others it is right.

mod charges;
mod refusals;

use chargefile_tests::little_endian::four_at;
use chargefile_tests::tariff::{insert_bytes, Band, Logged, BAND_LENGTH, RECORD_LENGTH};
use chargefile_tests::Outcome;

use crate::priced::{case_of, cases, Case};

/// What a pricer is given.
struct Given<'a> {
    tariff: &'a [u8],
    log: &'a [u8],
    room: usize,
}

impl Given<'_> {
    fn bands(&self) -> Vec<Band> {
        let bands = self.tariff.chunks_exact(BAND_LENGTH);
        bands.map(Band::from_bytes).collect()
    }

    fn records(&self) -> impl Iterator<Item = &[u8]> {
        self.log.chunks_exact(RECORD_LENGTH)
    }
}

/// Number and place of a refusal.
type Refusal = (u32, usize);

/// Looks for something to be refused.
type Step = fn(&Pricer, &Given) -> Option<Refusal>;

/// A pricer in its parts, each of which can be wrong by itself.
#[derive(Clone, Copy)]
struct Pricer {
    /// What is looked for, in this order.
    steps: [Step; 6],
    /// The band of a code.
    band: fn(&[Band], u8) -> Option<Band>,
    /// The hour that counts.
    hour: fn(&Logged) -> u64,
    /// The class of an hour, as the place of its price.
    class: fn(u64) -> usize,
    /// How many units are paid for.
    units: fn(&Band, u64) -> u64,
    /// Fee, price and units make a charge, of a call of so many seconds.
    sum: fn(u128, u128, u128, u128) -> u128,
    /// The charge as it is told, if it can be.
    told: fn(u128) -> Option<u32>,
    /// The inserts as they are written.
    written: fn(Vec<Vec<u8>>) -> Vec<Vec<u8>>,
}

const RIGHT: Pricer = Pricer {
    steps: refusals::RIGHT,
    band: |bands, code| bands.iter().find(|band| band.code == code).copied(),
    hour: |record| u64::from(record.start) / 3_600 % 24,
    class: |hour| match hour {
        7 | 18 | 19 => 1,
        8..=17 => 2,
        _ => 0,
    },
    units: |band, talked| {
        talked
            .saturating_sub(band.free.into())
            .div_ceil(band.unit.into())
    },
    sum: |fee, price, units, talked| if talked > 0 { fee + price * units } else { 0 },
    told: |charge| u32::try_from(charge).ok(),
    written: |inserts| inserts,
};

impl Pricer {
    fn price(&self, given: &Given) -> Outcome {
        if let Some((number, place)) = self.steps.iter().find_map(|step| step(self, given)) {
            let place = place as u32;
            return Outcome::Refused { number, place };
        }
        let bands = given.bands();
        let insert = |bytes| {
            let record = Logged::from_bytes(bytes);
            insert_bytes(record.call, self.charge(&bands, &record).unwrap_or(0))
        };
        let inserts = given.records().map(insert).collect();
        Outcome::Done {
            result: (self.written)(inserts).concat(),
        }
    }

    /// The charge of a record, if it has a band and can be told.
    fn charge(&self, bands: &[Band], record: &Logged) -> Option<u32> {
        let band = (self.band)(bands, record.band)?;
        let price = band.prices[(self.class)((self.hour)(record))];
        let talked = u64::from(record.talked);
        let units = (self.units)(&band, talked);
        (self.told)((self.sum)(
            band.fee.into(),
            price.into(),
            units.into(),
            talked.into(),
        ))
    }
}

/// What a pricer comes to: a charge for each insert, or a refusal.
#[derive(Debug, PartialEq, Eq)]
enum Came {
    Charges(Vec<u32>),
    Refused(u32, u32),
}

fn came_to(outcome: &Outcome) -> Came {
    match outcome {
        Outcome::Done { result } => {
            let charges = result.chunks(10).map(|insert| four_at(insert, 6));
            Came::Charges(charges.collect())
        }
        Outcome::Refused { number, place } => Came::Refused(*number, *place),
    }
}

/// The case of this name tells a pricer from the right one, by what it comes to there. In more than half of all cases it is right.
fn told_apart(wrong: Pricer, by: &str, came: Came) {
    let outcome = |case: &Case| {
        wrong.price(&Given {
            tariff: &case.tariff,
            log: &case.log,
            room: case.room,
        })
    };
    let case = case_of(by);
    assert_eq!(came_to(&outcome(&case)), came, "{by}");
    assert_ne!(came_to(&case.wanted), came, "{by}: it is right");
    let all = cases();
    let right = all.iter().filter(|case| outcome(case) == case.wanted);
    let right = right.count();
    assert!(2 * right > all.len(), "{by}: right in {right} cases only");
}

/// With nothing wrong in it, it is right in every case.
#[test]
fn the_right_pricer() {
    for case in cases() {
        let (tariff, log, room) = (&case.tariff[..], &case.log[..], case.room);
        let outcome = RIGHT.price(&Given { tariff, log, room });
        assert_eq!(outcome, case.wanted, "{}", case.name);
    }
}
