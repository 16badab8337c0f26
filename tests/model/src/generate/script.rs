//! The words that only a script has, written among the calls of a day.

use super::day::Day;
use crate::engine::LIST_LENGTH;
use crate::write::line;

/// How often a list that is too short for orders is lent anew.
const RETURN_PERCENT: u64 = 20;

const SHORT: [u64; 5] = [0, 2, 8, 1_080, 1_087];
const LONG: [u64; 5] = [1_088, 1_088, 1_089, 4_095, 4_096];

/// Wrong in form or above 4,096, so that they leave the number lent as it is.
const MALFORMED: [&str; 8] = [
    "LENT",
    "LENT,",
    "LENT,4097",
    "LENT,9999999999999999",
    "LENT,10000000000000000",
    "LENT,01088",
    "LENT,-1",
    "LENT,0,0",
];

impl Day {
    /// Before a call, at times a change of the number lent, or the lines of
    /// the end. Days that plan neither take no random number here.
    pub(super) fn write_script_words(&mut self) {
        let plan = self.plan;
        if plan.lend_percent > 0 {
            self.write_lent();
        }
        if plan.show_percent > 0 && self.random.chance(plan.show_percent) {
            line(&mut self.text, "SHOW");
        }
    }

    fn write_lent(&mut self) {
        let is_short = self.lent < LIST_LENGTH;
        let percent = if is_short {
            RETURN_PERCENT
        } else {
            self.plan.lend_percent
        };
        if !self.random.chance(percent) {
            return;
        }
        match self.random.below(8) {
            0 => line(&mut self.text, self.random.pick(&MALFORMED)),
            1..=3 => self.lend(&SHORT),
            _ => self.lend(&LONG),
        }
    }

    fn lend(&mut self, counts: &[u64]) {
        self.lent = self.random.pick(counts);
        line(&mut self.text, &format!("LENT,{}", self.lent));
    }
}
