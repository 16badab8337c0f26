//! Calls with a number at an edge.

use super::day::{highest_steps, Day};
use crate::calls::{Call, Member, Offer};
use crate::engine::{highest_price, LOTS_LIMIT, PRICE_LIMIT};
use crate::sixteen_bits::SIXTEEN_BITS;

/// Numbers at, just below and just above the limits.
const EDGES: [u64; 32] = [
    0,
    1,
    2,
    3,
    4,
    5,
    15,
    16,
    17,
    127,
    128,
    129,
    999,
    1_000,
    1_001,
    9_999,
    10_000,
    10_001,
    999_999,
    1_000_000,
    1_000_001,
    10_000_000,
    999_999_999_999,
    1_000_000_000_000,
    1_000_000_000_001,
    999_999_999_999_999,
    1_000_000_000_000_000,
    1_000_000_000_000_001,
    9_999_999_999_999_999,
    10_000_000_000_000_000,
    99_999_999_999_999_999,
    u64::MAX,
];

/// The same of repurchase deals and dates.
const DEAL_EDGES: [u64; 18] = [
    0, 1, 2, 63, 64, 65, 364, 365, 366, 367, 4_999, 5_000, 5_001, 10_000, 146_095, 146_096,
    146_097, 146_462,
];

/// Lots of which sixteen bits would leave none, one and the most.
const CUT_LOTS: [u64; 3] = [SIXTEEN_BITS, SIXTEEN_BITS + 1, SIXTEEN_BITS + LOTS_LIMIT];

impl Day {
    pub(super) fn spoil_member(&mut self, member: &mut Member) {
        match self.random.below(6) {
            0 => member.lots = self.random.pick(&[0, LOTS_LIMIT, LOTS_LIMIT + 1]),
            1 => {
                let line = self.engine.securities()[member.security as usize];
                let too_high = highest_price(&line) + 1;
                member.price = self.random.pick(&[0, member.price + 1, too_high]);
            }
            2 => member.security = self.engine.securities().len() as u64,
            3 => member.lots = (member.lots * 10).min(LOTS_LIMIT),
            4 => member.price = self.random.pick(&EDGES),
            _ => member.lots = self.random.pick(&EDGES),
        }
    }

    /// A price at the highest or just above it, on the step or off it, by a
    /// nominal or not.
    pub(super) fn write_price_edge(&mut self) {
        let mut entry = self.entry();
        let line = self.engine.securities()[entry.security as usize];
        let highest = highest_steps(&line) * line.price_step;
        entry.price = self.random.pick(&[
            highest,
            highest + line.price_step,
            highest_price(&line),
            highest_price(&line) + 1,
            PRICE_LIMIT,
        ]);
        self.add(Call::Enter(entry));
    }

    /// A sensible call with one or more of its numbers spoiled; more than one
    /// shows in which order the questions are asked.
    pub(super) fn write_spoiled(&mut self) {
        let plan = self.plan;
        let (offers, parts, days) = (plan.offers, plan.second_parts, plan.unfit_days);
        let weights = [40, 10, 10, 20, 15, 1, 1, offers, parts, days];
        let mut call = match self.weighted(&weights) {
            0 => Call::Enter(self.entry()),
            1 => self.cancel(),
            2 => self.group(),
            3 => self.movement(),
            4 => Call::EnterClosing(self.closing_entry()),
            5 => Call::EndSession,
            6 => Call::EnterClosing(self.closing_entry()),
            7 => Call::EnterOffer(self.offer()),
            8 => self.second_part(),
            _ => self.new_day(),
        };
        let mut lots = lots_of(&mut call);
        if !lots.is_empty() && self.planned(self.plan.cut_percent) {
            let place = self.random.index(lots.len());
            *lots[place] = self.cut_lots(*lots[place]);
        } else {
            self.spoil_numbers(&mut call);
        }
        self.add(call);
    }

    /// Too many, but what sixteen bits leave is mostly the good call's.
    fn cut_lots(&mut self, lots: u64) -> u64 {
        let times = self.random.pick(&[1, 1, 2, 15, 1 << 16, 1 << 32]);
        let same = lots % SIXTEEN_BITS + times * SIXTEEN_BITS;
        let edge = self.random.pick(&CUT_LOTS);
        self.random.pick(&[same, same, edge])
    }

    fn spoil_numbers(&mut self, call: &mut Call) {
        for _ in 0..self.random.pick(&[1, 1, 1, 2, 2, 3]) {
            self.spoil_number(call);
        }
    }

    /// Puts one of the call's numbers at an edge, or one off.
    fn spoil_number(&mut self, call: &mut Call) {
        let of_deals = matches!(
            call,
            Call::EnterOffer(_) | Call::SecondPart { .. } | Call::NewDay { .. }
        );
        let mut numbers = numbers_of(call);
        if numbers.is_empty() {
            return;
        }
        let place = self.random.index(numbers.len());
        let number = *numbers[place];
        let edge = if of_deals && self.random.chance(70) {
            self.random.pick(&DEAL_EDGES)
        } else {
            self.random.pick(&EDGES)
        };
        let one_off = self
            .random
            .pick(&[number.saturating_add(1), number.saturating_sub(1)]);
        *numbers[place] = self.random.pick(&[edge, edge, one_off]);
    }
}

fn numbers_of(call: &mut Call) -> Vec<&mut u64> {
    match call {
        Call::MoneyUp(movement)
        | Call::MoneyDown(movement)
        | Call::PiecesUp(movement)
        | Call::PiecesDown(movement) => vec![
            &mut movement.participant,
            &mut movement.asset,
            &mut movement.amount,
        ],
        Call::Enter(entry) => vec![
            &mut entry.participant,
            &mut entry.security,
            &mut entry.price,
            &mut entry.lots,
        ],
        Call::EnterClosing(entry) => {
            vec![&mut entry.participant, &mut entry.security, &mut entry.lots]
        }
        Call::EnterOffer(offer) => offer_numbers(offer),
        Call::SecondPart { place } => vec![place],
        Call::NewDay { date } => vec![date],
        Call::Cancel { participant, code } => vec![participant, code],
        Call::Group {
            participant,
            members,
        } => {
            let mut numbers = vec![participant];
            for member in members {
                numbers.push(&mut member.security);
                numbers.push(&mut member.price);
                numbers.push(&mut member.lots);
            }
            numbers
        }
        Call::StartCollecting | Call::EndCollecting | Call::StartClosing | Call::EndSession => {
            Vec::new()
        }
    }
}

fn lots_of(call: &mut Call) -> Vec<&mut u64> {
    match call {
        Call::Enter(entry) => vec![&mut entry.lots],
        Call::EnterClosing(entry) => vec![&mut entry.lots],
        Call::EnterOffer(offer) => vec![&mut offer.lots],
        Call::Group { members, .. } => members.iter_mut().map(|member| &mut member.lots).collect(),
        _ => Vec::new(),
    }
}

fn offer_numbers(offer: &mut Offer) -> Vec<&mut u64> {
    vec![
        &mut offer.participant,
        &mut offer.security,
        &mut offer.terms.price,
        &mut offer.lots,
        &mut offer.terms.rate,
        &mut offer.terms.term,
    ]
}
