//! The course of a generated day, and of those after it.

use super::collecting::Collecting;
use super::Plan;
use crate::calls::{Call, Movement, Opening, Phase, SecurityLine};
use crate::engine::{highest_price, Engine, LIST_LENGTH, MONEY_LIMIT, NO_NOMINAL, PIECES_LIMIT};
use crate::random::Random;
use crate::reader::TEXT_LIMIT;
use crate::write::{write_call, write_heading};

/// Room for the longest call: a group of eight members.
pub(super) const LONGEST_CALL: usize = 700;

/// How high a base lies at most, in steps.
const HIGHEST_BASE: u64 = 2_000;

/// The whole nominal, in hundredths of a percent.
const PAR: u64 = 10_000;

/// The highest price in steps. Where the step leaves no price it counts as one,
/// so that there is something to refuse.
pub(super) fn highest_steps(line: &SecurityLine) -> u64 {
    (highest_price(line) / line.price_step).max(1)
}

/// Not too high; with a nominal mostly near the whole of it, or the highest.
fn base_steps(random: &mut Random, line: &SecurityLine) -> u64 {
    let highest = highest_steps(line);
    let low = random.within(1, highest.min(HIGHEST_BASE));
    match line.nominal {
        NO_NOMINAL => low,
        _ => {
            let near_par = (PAR / line.price_step).clamp(1, highest);
            random.pick(&[low, near_par, near_par, highest])
        }
    }
}

/// A day in writing. Prices stay within a few steps of each security's base.
pub(super) struct Day {
    pub(super) random: Random,
    pub(super) plan: Plan,
    pub(super) text: Vec<u8>,
    pub(super) engine: Engine,
    pub(super) base_steps: Vec<u64>,
    /// Numbers lent to the next call.
    pub(super) lent: u64,
    pub(super) collecting: Collecting,
}

impl Day {
    pub(super) fn new(mut random: Random, plan: Plan, opening: Opening) -> Day {
        let mut text = Vec::new();
        write_heading(&opening, &mut text);
        let base_steps = opening
            .securities
            .iter()
            .map(|line| base_steps(&mut random, line))
            .collect();
        let engine = Engine::open(&opening, false).expect("generated openings are in range");
        Day {
            random,
            plan,
            text,
            engine,
            base_steps,
            lent: LIST_LENGTH,
            collecting: Collecting::default(),
        }
    }

    /// Where collecting is planned, it mostly begins after the reserves.
    pub(super) fn write(mut self) -> Vec<u8> {
        let percent = self.plan.collect_percent;
        self.begin_collecting(percent / 8);
        self.write_reserves();
        self.begin_collecting(percent);
        while self.has_room() {
            self.write_next();
        }
        self.text
    }

    fn has_room(&self) -> bool {
        self.text.len() + LONGEST_CALL.min(self.plan.length / 4) < self.plan.length
            && self.text.len() + LONGEST_CALL <= TEXT_LIMIT
    }

    fn write_next(&mut self) {
        let length = self.text.len();
        match self.engine.phase() {
            Phase::Collecting if self.collected() => self.add(Call::EndCollecting),
            Phase::Collecting => self.write_collecting(),
            Phase::Open if length >= self.plan.closing_at => self.add(Call::StartClosing),
            Phase::Closing if length >= self.plan.ending_at => self.add(Call::EndSession),
            Phase::Open if self.planned(self.plan.wall_percent) => self.write_wall(),
            Phase::Open => self.write_trading(),
            Phase::Closing => self.write_closing(),
            Phase::Closed => self.write_closed(),
        }
    }

    /// Writes the call and lets the shadow engine follow. A number too long
    /// for the file is over every limit, so the shadow refuses it as well.
    pub(super) fn add(&mut self, call: Call) {
        self.write_script_words();
        write_call(&call, &mut self.text);
        let _ = self.engine.call_lent(&call, self.lent, &mut Vec::new());
    }

    fn write_reserves(&mut self) {
        let participants = self.engine.participants() as u64;
        for participant in 0..participants {
            for currency in 0..self.engine.currencies() as u64 {
                let amount = self.reserve(MONEY_LIMIT / participants);
                self.write_reserve(Call::MoneyUp, participant, currency, amount);
            }
            for security in 0..self.engine.securities().len() as u64 {
                let amount = self.reserve(PIECES_LIMIT / participants);
                self.write_reserve(Call::PiecesUp, participant, security, amount);
            }
        }
    }

    fn write_reserve(
        &mut self,
        call: fn(Movement) -> Call,
        participant: u64,
        asset: u64,
        amount: u64,
    ) {
        if self.has_room() {
            self.add(call(Movement {
                participant,
                asset,
                amount,
            }));
        }
    }

    /// Mostly a good share; at times the whole share, or hardly anything.
    fn reserve(&mut self, share: u64) -> u64 {
        match self.random.below(10) {
            0 => share,
            1 => self.random.within(1, 100_000),
            _ => self.random.within(share / 2, share),
        }
    }

    fn write_trading(&mut self) {
        let plan = self.plan;
        let weights = [
            plan.orders,
            plan.exact_fills,
            plan.squeezes,
            plan.cancels,
            plan.groups,
            plan.movements,
            plan.spoiled,
            plan.phase_calls,
            plan.tight_groups,
            plan.price_edges,
            plan.offers,
            plan.offer_edges,
            plan.tight_offers,
            plan.second_parts,
            plan.second_parts / 2,
            plan.unfit_days,
        ];
        match self.weighted(&weights) {
            0 => self.write_order(),
            1 => self.write_exact_fill(),
            2 => self.write_squeeze(),
            3 => self.write_cancel(),
            4 => self.write_group(),
            5 => self.write_movement(),
            6 => self.write_spoiled(),
            7 => self.write_phase_call(),
            8 => self.write_tight_group(),
            9 => self.write_price_edge(),
            10 => self.write_offer(),
            11 => self.write_offer_edge(),
            12 => self.write_tight_offer(),
            13 => self.write_second_part(),
            14 => self.write_tight_second_part(),
            _ => self.write_unfit_day(),
        }
    }

    /// Days that plan none take no random number here.
    pub(super) fn planned(&mut self, percent: u64) -> bool {
        percent > 0 && self.random.chance(percent)
    }

    pub(super) fn weighted(&mut self, weights: &[u64]) -> usize {
        let mut rest = self.random.below(weights.iter().sum());
        for (place, &weight) in weights.iter().enumerate() {
            if rest < weight {
                return place;
            }
            rest -= weight;
        }
        weights.len() - 1
    }

    fn write_closing(&mut self) {
        let plan = self.plan;
        let weights = [
            70,
            8,
            8,
            3,
            2,
            5,
            1,
            plan.phase_calls,
            plan.tight_closing_orders,
            plan.second_parts * 2,
            plan.second_parts / 2,
            plan.unfit_days,
            plan.unfit_days,
        ];
        match self.weighted(&weights) {
            0 => {
                let entry = self.closing_entry();
                self.add(Call::EnterClosing(entry));
            }
            1 => self.write_cancel(),
            2 => self.write_movement(),
            3 => self.write_order(),
            4 => self.write_group(),
            5 => self.write_spoiled(),
            6 => self.add(Call::StartClosing),
            7 => self.write_phase_call(),
            8 => self.write_tight_closing_order(),
            9 => self.write_second_part(),
            10 => self.write_tight_second_part(),
            11 => self.write_unfit_day(),
            _ => self.write_offer(),
        }
    }

    fn write_closed(&mut self) {
        let plan = self.plan;
        let weights = [
            3,
            3,
            3,
            1,
            1,
            1,
            3,
            plan.phase_calls,
            plan.new_days,
            plan.second_parts,
            plan.second_parts / 2,
            plan.unfit_days,
        ];
        match self.weighted(&weights) {
            0 => self.write_order(),
            1 => self.write_cancel(),
            2 => self.write_movement(),
            3 => self.write_group(),
            4 => self.add(Call::StartClosing),
            5 => self.add(Call::EndSession),
            6 => self.write_spoiled(),
            7 => self.write_phase_call(),
            8 => self.write_new_day(),
            9 => self.write_second_part(),
            10 => self.write_tight_second_part(),
            _ => self.write_offer(),
        }
    }
}
