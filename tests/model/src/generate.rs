//! Seeded day files and scripts. A shadow engine runs beside the writing, so
//! that exact amounts, fitting lots and waiting codes can be aimed at.

mod collecting;
mod day;
mod groups;
mod repurchase;
mod script;
mod single;
mod spoiled;
mod walls;

use day::{Day, LONGEST_CALL};
use repurchase::date;

use crate::calls::{Opening, SecurityLine};
use crate::damage;
use crate::engine::{
    CURRENCY_LIMIT, LOT_SIZE_LIMIT, NOMINALS, NO_NOMINAL, PARTICIPANT_LIMIT, PERCENT_LIMIT,
    PRICE_LIMIT, RATE_LIMIT, SECURITY_LIMIT,
};
use crate::random::Random;
use crate::reader::TEXT_LIMIT;

const NEVER: usize = usize::MAX;

/// What a day mostly does: its length in bytes, weights of its calls,
/// percentages, and at which length the closing session starts and ends.
#[derive(Clone, Copy)]
struct Plan {
    length: usize,
    orders: u64,
    exact_fills: u64,
    squeezes: u64,
    cancels: u64,
    groups: u64,
    movements: u64,
    spoiled: u64,
    kept_percent: u64,
    crossing_percent: u64,
    buy_percent: u64,
    /// Of spoiled calls: those whose lots sixteen bits would cut.
    cut_percent: u64,
    /// Of orders: those with large lots.
    large_percent: u64,
    /// Of calls while open: those that many large orders come before.
    wall_percent: u64,
    closing_at: usize,
    ending_at: usize,
    lend_percent: u64,
    show_percent: u64,
    collect_percent: u64,
    phase_calls: u64,
    tariff_percent: u64,
    nominal_percent: u64,
    price_edges: u64,
    tight_groups: u64,
    tight_closing_orders: u64,
    date_percent: u64,
    offers: u64,
    counter_percent: u64,
    offer_edges: u64,
    tight_offers: u64,
    second_parts: u64,
    new_days: u64,
    unfit_days: u64,
    /// Of the days after the first.
    day_length: usize,
}

/// A day file lends nothing, shows nothing of its own, knows no collecting, no
/// tariff, no nominals and no repurchase deals, and is over with its day.
const SENSIBLE: Plan = Plan {
    length: 2_000,
    orders: 60,
    exact_fills: 10,
    squeezes: 3,
    cancels: 8,
    groups: 8,
    movements: 5,
    spoiled: 6,
    kept_percent: 60,
    crossing_percent: 70,
    buy_percent: 50,
    cut_percent: 25,
    large_percent: 0,
    wall_percent: 0,
    closing_at: NEVER,
    ending_at: NEVER,
    lend_percent: 0,
    show_percent: 0,
    collect_percent: 0,
    phase_calls: 0,
    tariff_percent: 0,
    nominal_percent: 0,
    price_edges: 0,
    tight_groups: 0,
    tight_closing_orders: 0,
    date_percent: 0,
    offers: 0,
    counter_percent: 0,
    offer_edges: 0,
    tight_offers: 0,
    second_parts: 0,
    new_days: 0,
    unfit_days: 0,
    day_length: 0,
};

const SCRIPTED: Plan = Plan {
    lend_percent: 3,
    show_percent: 2,
    collect_percent: 60,
    phase_calls: 1,
    tariff_percent: 75,
    nominal_percent: 60,
    price_edges: 2,
    tight_groups: 2,
    tight_closing_orders: 5,
    date_percent: 60,
    offers: 10,
    counter_percent: 60,
    offer_edges: 2,
    tight_offers: 1,
    second_parts: 2,
    new_days: 6,
    unfit_days: 1,
    day_length: 1_500,
    ..SENSIBLE
};

/// The day file of a seed.
pub fn day_file(seed: u64) -> Vec<u8> {
    text(seed, SENSIBLE)
}

/// The script of a seed: mostly a day with words of scripts among its calls,
/// often one with an auction before trading opens, or several days with
/// repurchase deals; at times with large lots, with such words put in anywhere,
/// with another rate, date or nominal, hardly more than a heading, or one that
/// never was good.
pub fn script(seed: u64) -> Vec<u8> {
    let mut random = Random::new(!seed);
    match random.below(30) {
        0 => damage::script_oddity(&mut random),
        1..=3 => damage::with_script_lines(&mut random, text(seed, SCRIPTED)),
        4 => {
            let text = auction_day(Random::new(random.number()));
            damage::with_script_lines(&mut random, text)
        }
        5 => {
            let text = auction_day(Random::new(random.number()));
            damage::damaged(&mut random, text)
        }
        6 => damage::with_rate(&mut random, text(seed, SCRIPTED)),
        7 => damage::with_nominals(&mut random, text(seed, SCRIPTED)),
        8 => damage::asked_heading(&mut random),
        9..=13 => auction_day(random),
        14 => damage::with_date(&mut random, text(seed, SCRIPTED)),
        15 => {
            let text = repurchase_days(Random::new(random.number()));
            damage::with_script_lines(&mut random, text)
        }
        16 => {
            let text = repurchase_days(Random::new(random.number()));
            damage::damaged(&mut random, text)
        }
        17..=21 => repurchase_days(random),
        22 => full_deals_days(random),
        23 => large_lots_day(random, SCRIPTED),
        _ => text(seed, SCRIPTED),
    }
}

/// The text of a seed; the seed's remainder decides what kind it is.
fn text(seed: u64, usual: Plan) -> Vec<u8> {
    let mut random = Random::new(seed);
    match seed % 16 {
        0..=3 => small_day(random, usual),
        4 => large_lots_day(random, usual),
        5..=6 => medium_day(random, usual),
        7 => long_day(random, usual),
        8 => full_book_day(random, usual),
        9 => group_day(random, usual),
        10 => closing_day(random, usual),
        11 => spoiled_day(random, usual),
        12 => damage::oddity(&mut random),
        13 => {
            let text = medium_day(Random::new(random.number()), usual);
            damage::damaged(&mut random, text)
        }
        _ => {
            let text = small_day(Random::new(random.number()), usual);
            damage::damaged(&mut random, text)
        }
    }
}

/// A day of full length, most of whose calls are accepted, for the benchmark.
pub fn good_long_day(seed: u64) -> Vec<u8> {
    let plan = Plan {
        length: TEXT_LIMIT,
        squeezes: 0,
        spoiled: 0,
        cut_percent: 0,
        kept_percent: 75,
        closing_at: TEXT_LIMIT * 9 / 10,
        ending_at: TEXT_LIMIT * 39 / 40,
        ..SENSIBLE
    };
    let mut random = Random::new(seed);
    let opening = good_opening(&mut random);
    Day::new(random, plan, opening).write()
}

fn small_day(mut random: Random, usual: Plan) -> Vec<u8> {
    let plan = Plan {
        length: random.within(60, 3_000) as usize,
        ..usual
    };
    let plan = with_closing(&mut random, plan);
    let opening = opening(&mut random, plan, 4);
    Day::new(random, plan, opening).write()
}

fn medium_day(mut random: Random, usual: Plan) -> Vec<u8> {
    let plan = Plan {
        length: random.within(3_000, 12_000) as usize,
        kept_percent: random.within(20, 90),
        ..usual
    };
    let plan = with_closing(&mut random, plan);
    let opening = opening(&mut random, plan, PARTICIPANT_LIMIT as u64);
    Day::new(random, plan, opening).write()
}

fn long_day(mut random: Random, usual: Plan) -> Vec<u8> {
    let plan = Plan {
        length: random.within(30_000, TEXT_LIMIT as u64 + LONGEST_CALL as u64) as usize,
        kept_percent: random.within(30, 80),
        ..usual
    };
    let plan = with_closing(&mut random, plan);
    let opening = opening(&mut random, plan, PARTICIPANT_LIMIT as u64);
    Day::new(random, plan, opening).write()
}

/// Kept orders that rarely cross, so that 128 of them come to wait, at times
/// nearly all on one side.
fn full_book_day(mut random: Random, usual: Plan) -> Vec<u8> {
    let plan = Plan {
        length: random.within(5_000, 20_000) as usize,
        kept_percent: 95,
        crossing_percent: random.below(10),
        buy_percent: random.pick(&[1, 50, 50, 99]),
        exact_fills: 3,
        groups: 2,
        squeezes: 1,
        ..usual
    };
    let plan = with_closing(&mut random, plan);
    let opening = opening(&mut random, plan, 6);
    Day::new(random, plan, opening).write()
}

fn group_day(mut random: Random, usual: Plan) -> Vec<u8> {
    let plan = Plan {
        length: random.within(3_000, 20_000) as usize,
        orders: 40,
        groups: 40,
        kept_percent: 90,
        crossing_percent: 20,
        ..usual
    };
    let plan = with_closing(&mut random, plan);
    let opening = opening(&mut random, plan, 6);
    Day::new(random, plan, opening).write()
}

/// A day that begins with collecting, long enough to fill the book at times,
/// and often with so many securities that few orders wait in each.
fn auction_day(mut random: Random) -> Vec<u8> {
    let plan = Plan {
        length: random.within(2_000, 9_000) as usize,
        buy_percent: random.pick(&[30, 50, 50, 50, 70]),
        collect_percent: 100,
        ..SCRIPTED
    };
    let plan = with_closing(&mut random, plan);
    let opening = opening_of_few(&mut random, plan, &[1, 2, 4, 8, SECURITY_LIMIT]);
    Day::new(random, plan, opening).write()
}

/// Several days, whose offers often meet and whose deals come due.
fn repurchase_days(mut random: Random) -> Vec<u8> {
    let length = random.within(2_000, 14_000) as usize;
    let day_length = length / random.within(2, 9) as usize;
    let plan = Plan {
        length,
        day_length,
        closing_at: day_length,
        ending_at: day_length + random.index(day_length / 3),
        orders: 20,
        groups: 2,
        collect_percent: random.pick(&[0, 20, 60]),
        offers: 60,
        counter_percent: random.pick(&[40, 60, 80]),
        offer_edges: 6,
        tight_offers: 4,
        second_parts: 12,
        new_days: 12,
        ..SCRIPTED
    };
    let opening = opening(&mut random, plan, 5);
    Day::new(random, plan, opening).write()
}

/// So many offers that meet that 64 deals come to be open, and then days on
/// which they end.
fn full_deals_days(mut random: Random) -> Vec<u8> {
    let length = random.within(14_000, 30_000) as usize;
    let closing_at = random.within(8_000, 12_000) as usize;
    let plan = Plan {
        length,
        day_length: length / random.within(4, 9) as usize,
        closing_at,
        ending_at: closing_at + random.index(500),
        orders: 6,
        exact_fills: 1,
        groups: 1,
        spoiled: 3,
        lend_percent: 0,
        collect_percent: 0,
        offers: 150,
        counter_percent: random.pick(&[50, 80, 95]),
        second_parts: 6,
        new_days: 12,
        ..SCRIPTED
    };
    let opening = opening(&mut random, plan, 3);
    Day::new(random, plan, opening).write()
}

/// Most of the day is its closing session, long enough to fill the book.
fn closing_day(mut random: Random, usual: Plan) -> Vec<u8> {
    let length = random.within(1_500, 10_000) as usize;
    let closing_at = length / 4;
    let plan = Plan {
        length,
        closing_at,
        ending_at: random.within(closing_at as u64, length as u64) as usize,
        crossing_percent: 90,
        ..usual
    };
    let opening = opening(&mut random, plan, 5);
    Day::new(random, plan, opening).write()
}

/// So many large orders in few securities that what fits one of them, and what a
/// group, an auction and a session answer, is more than sixteen bits hold.
fn large_lots_day(mut random: Random, usual: Plan) -> Vec<u8> {
    let length = random.within(3_000, 9_000) as usize;
    let plan = Plan {
        length,
        large_percent: random.pick(&[20, 90]),
        wall_percent: 6,
        closing_at: length / 2,
        ending_at: length * 7 / 10,
        ..usual
    };
    let opening = opening_of_few(&mut random, plan, &[1, 1, 1, 2]);
    Day::new(random, plan, opening).write()
}

/// Mostly calls with a number at the edge.
fn spoiled_day(mut random: Random, usual: Plan) -> Vec<u8> {
    let plan = Plan {
        length: random.within(500, 8_000) as usize,
        spoiled: 150,
        squeezes: 20,
        movements: 30,
        ..usual
    };
    let plan = with_closing(&mut random, plan);
    let opening = opening(&mut random, plan, PARTICIPANT_LIMIT as u64);
    Day::new(random, plan, opening).write()
}

/// Half of the days close; some end at once, some never.
fn with_closing(random: &mut Random, plan: Plan) -> Plan {
    if random.chance(50) {
        return plan;
    }
    let length = plan.length as u64;
    let closing_at = random.within(length / 3, length);
    Plan {
        closing_at: closing_at as usize,
        ending_at: random.within(closing_at, length + length / 8) as usize,
        ..plan
    }
}

fn opening(random: &mut Random, plan: Plan, most_participants: u64) -> Opening {
    let currencies = random.within(1, CURRENCY_LIMIT as u64);
    let most_securities = if random.chance(80) {
        3
    } else {
        SECURITY_LIMIT as u64
    };
    let count = random.within(1, most_securities);
    Opening {
        participants: random.within(1, most_participants),
        currencies,
        securities: security_lines(random, plan, currencies, count as usize),
        rate: rate(random, plan.tariff_percent),
        date: date(random, plan.date_percent),
    }
}

/// Few participants, and one of these numbers of securities.
fn opening_of_few(random: &mut Random, plan: Plan, counts: &[usize]) -> Opening {
    let currencies = random.within(1, 2);
    let count = random.pick(counts);
    Opening {
        participants: random.within(1, 3),
        currencies,
        securities: security_lines(random, plan, currencies, count),
        rate: rate(random, plan.tariff_percent),
        date: date(random, plan.date_percent),
    }
}

/// Where nominals are planned, all securities have one, or any of them. Days
/// that plan none take no random number for it.
fn security_lines(
    random: &mut Random,
    plan: Plan,
    currencies: u64,
    count: usize,
) -> Vec<SecurityLine> {
    let nominals = plan.nominal_percent > 0 && random.chance(plan.nominal_percent);
    let share = if nominals {
        random.pick(&[100, 100, 50])
    } else {
        0
    };
    let lines = (0..count).map(|_| {
        let line = security_line(random, currencies);
        if share > 0 && random.chance(share) {
            with_nominal(random, line)
        } else {
            line
        }
    });
    lines.collect()
}

fn security_line(random: &mut Random, currencies: u64) -> SecurityLine {
    let any_lot_size = random.within(1, LOT_SIZE_LIMIT);
    let any_step = random.within(1, PRICE_LIMIT);
    SecurityLine {
        currency: random.below(currencies),
        lot_size: random.pick(&[1, 10, 10, 100, 1_000, any_lot_size]),
        price_step: random.pick(&[1, 5, 5, 10, 100, 333, 500_000, 1_000_000, any_step]),
        nominal: NO_NOMINAL,
    }
}

/// In range, often at an edge. By most nominals sums are rounded. One of the
/// steps leaves no price.
fn with_nominal(random: &mut Random, line: SecurityLine) -> SecurityLine {
    let (least, greatest) = (*NOMINALS.start(), *NOMINALS.end());
    let any_nominal = random.within(least, greatest);
    let any_step = random.within(1, PERCENT_LIMIT);
    SecurityLine {
        price_step: random.pick(&[
            1,
            1,
            1,
            5,
            7,
            25,
            50,
            333,
            10_000,
            PERCENT_LIMIT,
            PERCENT_LIMIT + 1,
            any_step,
        ]),
        nominal: random.pick(&[
            least,
            least + 1,
            12_345,
            100_000,
            greatest - 1,
            greatest,
            any_nominal,
            any_nominal,
        ]),
        ..line
    }
}

/// In range, mostly at an edge. Days that plan no tariff take no random number
/// here.
fn rate(random: &mut Random, percent: u64) -> u64 {
    if percent == 0 || !random.chance(percent) {
        return 0;
    }
    let any_rate = random.within(1, RATE_LIMIT);
    random.pick(&[
        1,
        RATE_LIMIT - 1,
        RATE_LIMIT,
        RATE_LIMIT,
        any_rate,
        any_rate,
    ])
}

fn good_opening(random: &mut Random) -> Opening {
    let line = |currency| SecurityLine {
        currency,
        lot_size: 10,
        price_step: 5,
        nominal: NO_NOMINAL,
    };
    Opening {
        participants: random.within(4, 16),
        currencies: 2,
        securities: vec![line(0), line(1), line(0)],
        rate: 0,
        date: 0,
    }
}
