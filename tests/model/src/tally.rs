//! Counts what the texts brought about, to show what a test has reached.

mod lots;

use std::collections::BTreeMap;
use std::fmt;

use lots::LotsTally;

use crate::calls::{refusal, Answer, Call, Phase};

const MOST_REFUSALS: usize = 27;

#[derive(Default)]
pub struct Tally {
    pub files: u64,
    pub commands: u64,
    pub accepted: u64,
    pub trades: u64,
    pub groups_accepted: u64,
    pub groups_refused: u64,
    /// Groups refused at a later member, after earlier ones had traded.
    pub groups_undone: u64,
    /// Accepted ends of collecting; those that traded, and their trades.
    pub auctions: u64,
    pub auctions_trading: u64,
    pub auction_trades: u64,
    /// Cancellations that took an order off, and those that found none (16).
    pub cancels_accepted: u64,
    pub cancels_of_none: u64,
    /// Waiting orders that traded before one at the same price with a lower code
    /// of another participant, since they had arrived earlier; by the phase, or
    /// of offers.
    by_arrival: BTreeMap<String, u64>,
    /// Accepted offers that were met; the others wait.
    pub offers_met: u64,
    /// Answers to the words of repurchase deals, by the refusal's number.
    deal_answers: BTreeMap<(&'static str, u64), u64>,
    /// Accepted second parts by their phase, and those after their due day.
    second_parts: BTreeMap<String, u64>,
    pub late_second_parts: u64,
    /// How often an open deal was shown; of these, how often one of a
    /// participant with himself, and one with interest.
    pub deals: u64,
    pub own_deals: u64,
    pub deals_with_interest: u64,
    refusals: [u64; MOST_REFUSALS],
    /// How often each phase was shown; day files show none.
    phases: BTreeMap<String, u64>,
    /// How often a market's account was shown with fees in it.
    pub accounts_with_fees: u64,
    /// Trades whose sum isn't a whole number of times their price, which only
    /// a nominal brings about.
    pub odd_sums: u64,
    pub lots: LotsTally,
}

fn phase_word(phase: Phase) -> String {
    format!("{phase:?}").to_lowercase()
}

impl Tally {
    pub fn refusals(&self, number: usize) -> u64 {
        self.refusals.get(number).copied().unwrap_or(0)
    }

    pub fn shown(&self, phase: &str) -> u64 {
        self.phases.get(phase).copied().unwrap_or(0)
    }

    /// How often a word of repurchase deals got this number, or 0: accepted.
    pub fn answers(&self, word: &'static str, number: u64) -> u64 {
        let count = self.deal_answers.get(&(word, number));
        count.copied().unwrap_or(0)
    }

    pub fn second_parts(&self, phase: &str) -> u64 {
        self.second_parts.get(phase).copied().unwrap_or(0)
    }

    /// How often arrival decided against the lower code, in a phase or of offers.
    pub fn by_arrival(&self, among: &str) -> u64 {
        self.by_arrival.get(among).copied().unwrap_or(0)
    }

    /// Of a trade of this call in this phase.
    pub fn count_by_arrival(&mut self, call: &Call, phase: Phase) {
        let among = match call {
            Call::EnterOffer(_) => "offers".into(),
            _ => phase_word(phase),
        };
        *self.by_arrival.entry(among).or_default() += 1;
    }

    /// Counts what the output alone doesn't tell.
    pub fn count_call(&mut self, call: &Call, answer: &Answer) {
        self.lots.count_call(call, answer);
        match (call, answer) {
            (Call::Group { .. }, _) => self.count_group(answer),
            (Call::Cancel { .. }, _) => self.count_cancel(answer),
            (Call::EndCollecting, Ok(done)) => self.count_auction(done.trades),
            (Call::EnterOffer(_), _) => self.count_offer(answer),
            (Call::SecondPart { .. }, _) => self.count_word("SECOND", answer),
            (Call::NewDay { .. }, _) => self.count_word("DAY", answer),
            _ => {}
        }
    }

    fn count_cancel(&mut self, answer: &Answer) {
        match answer {
            Ok(_) => self.cancels_accepted += 1,
            Err(refused) if refused.number == refusal::NO_SUCH_ORDER => self.cancels_of_none += 1,
            Err(_) => {}
        }
    }

    fn count_auction(&mut self, trades: u64) {
        self.auctions += 1;
        self.auctions_trading += u64::from(trades > 0);
        self.auction_trades += trades;
    }

    fn count_offer(&mut self, answer: &Answer) {
        self.count_word("OFFER", answer);
        self.offers_met += answer.map_or(0, |done| done.trades);
    }

    fn count_word(&mut self, word: &'static str, answer: &Answer) {
        let number = answer.map_or_else(|refused| refused.number, |_| 0);
        *self.deal_answers.entry((word, number)).or_default() += 1;
    }

    /// An accepted one, in its phase, so many days after the due day.
    pub fn count_second_part(&mut self, phase: Phase, days_late: u64) {
        *self.second_parts.entry(phase_word(phase)).or_default() += 1;
        self.late_second_parts += u64::from(days_late > 0);
    }

    fn count_group(&mut self, answer: &Answer) {
        match answer {
            Ok(_) => self.groups_accepted += 1,
            Err(refused) => {
                self.groups_refused += 1;
                self.groups_undone += u64::from(refused.place > 1);
            }
        }
    }

    /// Counts a printed text's answers, trades and phases.
    pub fn count_output(&mut self, output: &[u8]) {
        self.files += 1;
        for line in output.split(|&byte| byte == b'\n') {
            match line {
                [b'A', b',', ..] => self.count_answer(line),
                [b'T', b',', ..] => self.count_trade(line),
                [b'P', b'H', b'A', b'S', b'E', b',', phase @ ..] => self.count_phase(phase),
                [b'M', b'A', b'R', b'K', b'E', b'T', b',', ..] => self.count_account(line),
                [b'D', b'E', b'A', b'L', b',', ..] => self.count_deal(line),
                _ => {}
            }
        }
    }

    fn count_phase(&mut self, phase: &[u8]) {
        let phase = phase.escape_ascii().to_string();
        *self.phases.entry(phase).or_default() += 1;
    }

    fn count_account(&mut self, line: &[u8]) {
        self.accounts_with_fees += u64::from(!line.ends_with(b",0"));
    }

    fn count_deal(&mut self, line: &[u8]) {
        let fields: Vec<&[u8]> = line.split(|&byte| byte == b',').collect();
        let [_, _, buyer, seller, .., first_sum, second_sum] = fields[..] else {
            return;
        };
        self.deals += 1;
        self.own_deals += u64::from(buyer == seller);
        self.deals_with_interest += u64::from(first_sum != second_sum);
    }

    fn count_trade(&mut self, line: &[u8]) {
        self.trades += 1;
        let mut fields = line.split(|&byte| byte == b',').rev();
        let mut number = || fields.next().and_then(crate::reader::number).unwrap_or(0);
        let (sum, _lots, price) = (number(), number(), number());
        self.odd_sums += u64::from(!sum.is_multiple_of(price));
    }

    fn count_answer(&mut self, line: &[u8]) {
        self.commands += 1;
        let refusal = line.split(|&byte| byte == b',').nth(2);
        let number = refusal.and_then(crate::reader::number).unwrap_or(0) as usize;
        match self.refusals.get_mut(number) {
            Some(count) if number > 0 => *count += 1,
            _ => self.accepted += 1,
        }
    }
}

impl fmt::Display for Tally {
    fn fmt(&self, out: &mut fmt::Formatter) -> fmt::Result {
        let Tally {
            accepted, trades, ..
        } = self;
        writeln!(out, "  accepted {accepted}, trades {trades}")?;
        writeln!(
            out,
            "  groups accepted {}, refused {} ({} after earlier members had traded)",
            self.groups_accepted, self.groups_refused, self.groups_undone
        )?;
        self.write_cancels(out)?;
        if self.auctions > 0 {
            self.write_auctions(out)?;
        }
        if !self.deal_answers.is_empty() {
            self.write_deals(out)?;
        }
        self.write_refusals(out)?;
        if !self.phases.is_empty() {
            write!(out, "\n  phases shown (phase: count)")?;
        }
        for (phase, count) in &self.phases {
            write!(out, " {phase}: {count}")?;
        }
        if self.accounts_with_fees > 0 {
            let count = self.accounts_with_fees;
            write!(out, "\n  market's accounts shown with fees {count}")?;
        }
        if self.odd_sums > 0 {
            let count = self.odd_sums;
            write!(
                out,
                "\n  trades with a sum that only a nominal gives {count}"
            )?;
        }
        write!(out, "{}", self.lots)
    }
}

impl Tally {
    fn write_cancels(&self, out: &mut fmt::Formatter) -> fmt::Result {
        writeln!(
            out,
            "  cancellations accepted {}, of no such order {}",
            self.cancels_accepted, self.cancels_of_none
        )?;
        write!(out, "  earlier arrivals before a lower code")?;
        for (among, count) in &self.by_arrival {
            write!(out, " {among}: {count}")?;
        }
        writeln!(out)
    }

    fn write_refusals(&self, out: &mut fmt::Formatter) -> fmt::Result {
        write!(out, "  refusals (number: count)")?;
        for (number, count) in self.refusals.iter().enumerate().skip(1) {
            if *count > 0 {
                write!(out, " {number}: {count}")?;
            }
        }
        Ok(())
    }

    fn write_auctions(&self, out: &mut fmt::Formatter) -> fmt::Result {
        writeln!(
            out,
            "  auctions {}, of which {} traded ({} trades)",
            self.auctions, self.auctions_trading, self.auction_trades
        )
    }

    fn write_deals(&self, out: &mut fmt::Formatter) -> fmt::Result {
        for word in ["OFFER", "SECOND", "DAY"] {
            write!(out, "  {word} (number: count)")?;
            let of_word = self.deal_answers.iter().filter(|(key, _)| key.0 == word);
            for ((_, number), count) in of_word {
                write!(out, " {number}: {count}")?;
            }
            writeln!(out)?;
        }
        write!(out, "  offers met {}, second parts", self.offers_met)?;
        for (phase, count) in &self.second_parts {
            write!(out, " {phase}: {count}")?;
        }
        writeln!(out, ", late {}", self.late_second_parts)?;
        writeln!(
            out,
            "  open deals shown {}, with oneself {}, with interest {}",
            self.deals, self.own_deals, self.deals_with_interest
        )
    }
}
