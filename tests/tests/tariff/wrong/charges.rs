//! Wrong charges: "No seconds talked costs nothing. Otherwise the charge is the fee, plus price times the started units beyond the free seconds."

use chargefile_tests::tariff::{Band, Logged};

use super::{told_apart, Came, Pricer, RIGHT};

/// A pricer with other units.
fn by_units(units: fn(&Band, u64) -> u64) -> Pricer {
    Pricer { units, ..RIGHT }
}

/// A pricer with another hour.
fn by_hour(hour: fn(&Logged) -> u64) -> Pricer {
    Pricer { hour, ..RIGHT }
}

/// A pricer with another class for each hour.
fn by_class(class: fn(u64) -> usize) -> Pricer {
    Pricer { class, ..RIGHT }
}

/// A pricer that looks for bands otherwise.
fn by_band(band: fn(&[Band], u8) -> Option<Band>) -> Pricer {
    Pricer { band, ..RIGHT }
}

/// A pricer that tells charges otherwise.
fn by_limit(told: fn(u128) -> Option<u32>) -> Pricer {
    Pricer { told, ..RIGHT }
}

/// A pricer with another sum: of fee, price, units and seconds talked.
fn by_sum(sum: fn(u128, u128, u128, u128) -> u128) -> Pricer {
    Pricer { sum, ..RIGHT }
}

/// It comes to this charge, for one call.
fn charge(charge: u32) -> Came {
    Came::Charges(vec![charge])
}

#[test]
fn units_rounded_down() {
    let wrong =
        by_units(|band, talked| talked.saturating_sub(band.free.into()) / u64::from(band.unit));
    told_apart(wrong, "behind the free seconds", charge(5));
}

/// One unit more than the whole ones, also where none is begun.
#[test]
fn always_a_unit_more() {
    let wrong =
        by_units(|band, talked| talked.saturating_sub(band.free.into()) / u64::from(band.unit) + 1);
    told_apart(wrong, "a unit's last second", charge(5 + 2 * 2));
    told_apart(wrong, "the last free second", charge(5 + 2));
}

#[test]
fn at_least_one_unit() {
    let wrong = by_units(|band, talked| (RIGHT.units)(band, talked).max(1));
    told_apart(wrong, "one second", charge(5 + 2));
}

#[test]
fn free_seconds_are_paid_for() {
    let wrong = by_units(|band, talked| talked.div_ceil(band.unit.into()));
    told_apart(wrong, "the last free second", charge(5 + 2));
}

/// The call is rounded up to whole units, and then the free seconds are taken off.
#[test]
fn free_seconds_taken_off_after_rounding() {
    let wrong = by_units(|band, talked| {
        let rounded = talked.next_multiple_of(band.unit.into());
        rounded
            .saturating_sub(band.free.into())
            .div_ceil(band.unit.into())
    });
    told_apart(wrong, "a unit's last second", charge(5 + 2 * 2));
}

/// Once the free seconds are over, they are paid for too.
#[test]
fn free_seconds_only_for_short_calls() {
    let wrong = by_units(|band, talked| match talked {
        _ if talked <= band.free.into() => 0,
        _ => talked.div_ceil(band.unit.into()),
    });
    told_apart(wrong, "a unit's last second", charge(5 + 2 * 2));
}

#[test]
fn the_last_free_second_is_not_free() {
    let wrong = by_units(|band, talked| {
        let free = u64::from(band.free).saturating_sub(1);
        talked.saturating_sub(free).div_ceil(band.unit.into())
    });
    told_apart(wrong, "the last free second", charge(5 + 2));
}

#[test]
fn units_of_one_byte() {
    let wrong = by_units(|band, talked| {
        let unit = u64::from(band.unit as u8).max(1);
        talked.saturating_sub(band.free.into()).div_ceil(unit)
    });
    // 300 seconds by 44
    told_apart(wrong, "a unit of 300 seconds", charge(5 + 2 * 7));
}

#[test]
fn seconds_of_two_bytes() {
    let wrong = by_units(|band, talked| (RIGHT.units)(band, talked & 0xFFFF));
    told_apart(wrong, "more seconds than 16 bits", charge(5));
}

#[test]
fn a_fee_without_seconds() {
    let wrong = by_sum(|fee, price, units, _| fee + price * units);
    told_apart(wrong, "no seconds", charge(5));
}

#[test]
fn free_calls_have_no_fee() {
    let wrong = by_sum(|fee, price, units, _| if units > 0 { fee + price * units } else { 0 });
    told_apart(wrong, "the last free second", charge(0));
}

#[test]
fn a_fee_for_each_unit() {
    let wrong = by_sum(|fee, price, units, talked| match talked {
        0 => 0,
        _ => fee * units.max(1) + price * units,
    });
    told_apart(wrong, "the second unit's first second", charge(2 * (5 + 2)));
}

/// What is no longer cheap when the call ends is not charged as cheap.
#[test]
fn the_hour_of_the_end() {
    let wrong = by_hour(|record| (u64::from(record.start) + u64::from(record.talked)) / 3_600 % 24);
    told_apart(
        wrong,
        "from a cheap hour into a dear one",
        charge(5 + 7 * 240),
    );
    told_apart(
        wrong,
        "from a dear hour into a standard one",
        charge(5 + 3 * 60),
    );
}

#[test]
fn an_hour_rounded_up() {
    let wrong = by_hour(|record| u64::from(record.start).div_ceil(3_600) % 24);
    told_apart(wrong, "the last cheap second of the morning", charge(5 + 3));
}

/// Behind the first day every hour is past 23, and cheap.
#[test]
fn an_hour_that_is_not_of_a_day() {
    let wrong = by_hour(|record| u64::from(record.start) / 3_600);
    told_apart(wrong, "dear on the second day", charge(5 + 2));
    told_apart(wrong, "the last dear hour of the month", charge(5 + 2));
}

/// Behind the 31 days of a month their last hour counts.
#[test]
fn a_start_behind_the_month() {
    let wrong = by_hour(|record| (u64::from(record.start) / 3_600).min(31 * 24 - 1) % 24);
    told_apart(wrong, "behind 31 days", charge(5 + 2));
    told_apart(wrong, "dear in the far future", charge(5 + 2));
}

/// 4,294,800,000 as a number with a sign: 167,296 seconds before the month, which is in the 47th hour before it.
#[test]
fn a_start_with_a_sign() {
    let wrong = by_hour(|record| {
        let hours = i64::from(record.start as i32).div_euclid(3_600);
        hours.rem_euclid(24) as u64
    });
    told_apart(wrong, "dear in the far future", charge(5 + 2));
}

/// The class of each hour is that of the hour before or behind it.
#[test]
fn classes_an_hour_early_or_late() {
    let early = by_class(|hour| (RIGHT.class)((hour + 1) % 24));
    told_apart(early, "the last cheap second of the morning", charge(5 + 3));
    let late = by_class(|hour| (RIGHT.class)((hour + 23) % 24));
    told_apart(late, "the first dear second", charge(5 + 3));
}

#[test]
fn prices_in_another_order() {
    let wrong = by_class(|hour| [0, 2, 1][(RIGHT.class)(hour)]);
    told_apart(wrong, "the first dear second", charge(5 + 3));
}

/// The evening's two standard hours are one, or three.
#[test]
fn other_standard_hours() {
    let one = by_class(|hour| if hour == 19 { 0 } else { (RIGHT.class)(hour) });
    told_apart(one, "the last standard second", charge(5 + 2));
    let three = by_class(|hour| if hour == 20 { 1 } else { (RIGHT.class)(hour) });
    told_apart(
        three,
        "the first cheap second of the evening",
        charge(5 + 3),
    );
}

/// A code is taken for the number of its band, from 1 on.
#[test]
fn a_band_by_its_number() {
    let wrong = by_band(|bands, code| bands.get(usize::from(code).checked_sub(1)?).copied());
    told_apart(wrong, "the first of 32 bands", charge(130));
    told_apart(wrong, "the last of 32 bands", Came::Refused(14, 0));
}

/// The band before or behind the one with the code.
#[test]
fn a_neighbour_of_the_band() {
    let before = by_band(|bands, code| {
        let own = bands.iter().position(|band| band.code == code)?;
        Some(bands[own.saturating_sub(1)])
    });
    told_apart(before, "the last of 32 bands", charge(130));
    let behind = by_band(|bands, code| {
        let own = bands.iter().position(|band| band.code == code)?;
        Some(bands[(own + 1).min(bands.len() - 1)])
    });
    told_apart(behind, "the first of 32 bands", charge(101));
}

#[test]
fn the_last_band_is_not_looked_at() {
    let wrong = by_band(|bands, code| (RIGHT.band)(&bands[..bands.len().min(31)], code));
    told_apart(wrong, "the last of 32 bands", Came::Refused(14, 0));
}

/// A code of 0 or of 255 is taken for none.
#[test]
fn no_band_for_the_first_or_last_code() {
    let above_0 = by_band(|bands, code| (RIGHT.band)(bands, code).filter(|_| code > 0));
    told_apart(above_0, "codes 0 and 255", Came::Refused(14, 0));
    let below_255 = by_band(|bands, code| (RIGHT.band)(bands, code).filter(|_| code < 255));
    told_apart(below_255, "codes 0 and 255", Came::Refused(14, 16));
}

#[test]
fn a_charge_modulo_2_to_32() {
    let wrong = by_limit(|charge| Some(charge as u32));
    told_apart(wrong, "units to 2^32", Came::Charges(vec![0, 0]));
    told_apart(
        wrong,
        "the highest charge there is",
        Came::Charges(vec![0, 0]),
    );
    told_apart(wrong, "units past 2^32 - 1", Came::Charges(vec![0, 65_536]));
}

#[test]
fn a_charge_cut_to_the_highest() {
    let wrong = by_limit(|charge| Some(charge.min(u32::MAX.into()) as u32));
    let most = u32::MAX;
    told_apart(wrong, "fee and unit to 2^32", Came::Charges(vec![0, most]));
}

#[test]
fn a_charge_of_2_to_32_less_one_refused() {
    let wrong = by_limit(|charge| (RIGHT.told)(charge).filter(|told| *told < u32::MAX));
    told_apart(wrong, "units to 2^32 - 1", Came::Refused(15, 0));
}

/// The sum is one of 32 bits, and what is looked at is the product alone.
#[test]
fn a_fee_that_is_not_counted() {
    let wrong = by_sum(|fee, price, units, talked| match talked {
        0 => 0,
        _ if price * units > u32::MAX.into() => price * units,
        _ => (fee + price * units) & u128::from(u32::MAX),
    });
    told_apart(wrong, "fee and unit to 2^32", Came::Charges(vec![0, 0]));
}

/// By call number, or each call once.
#[test]
fn another_order_than_the_log_has() {
    let sorted = Pricer {
        written: |mut inserts| {
            inserts.sort_by_key(|insert| insert[2..6].to_vec());
            inserts
        },
        ..RIGHT
    };
    let came = Came::Charges(vec![19, 12, 26, 12, 0]);
    told_apart(sorted, "the log's order, calls twice", came);
    let once = Pricer {
        written: |mut inserts| {
            let all = inserts.clone();
            let mut number = 0..;
            inserts.retain(|insert| {
                let earlier = &all[..number.next().expect("a number")];
                earlier.iter().all(|other| other[2..6] != insert[2..6])
            });
            inserts
        },
        ..RIGHT
    };
    let came = Came::Charges(vec![12, 19, 0]);
    told_apart(once, "the log's order, calls twice", came);
}
