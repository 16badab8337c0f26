//! What the generated scripts reach.

use model::check::checked_output;
use model::generate::script;
use model::level::SCRIPT;
use model::tally::Tally;

const SCRIPTS: u64 = 800;

const PHASES: [&str; 4] = ["open", "collecting", "closing", "closed"];

/// Every state is sound (1), and no script has room for 62,501 orders of one
/// participant (13).
#[test]
fn every_refusal_and_phase_within_reach_is_reached() -> Result<(), String> {
    let mut tally = Tally::default();
    for seed in 1..=SCRIPTS {
        checked_output::<SCRIPT>(&script(seed), &mut tally)
            .map_err(|fault| format!("seed {seed}: {fault}"))?;
    }
    for refusal in (2..=12).chain(14..=26) {
        assert!(tally.refusals(refusal) > 0, "refusal {refusal}");
    }
    for refusal in [1, 13] {
        assert_eq!(tally.refusals(refusal), 0, "refusal {refusal}");
    }
    for phase in PHASES {
        assert!(tally.shown(phase) > 0, "{phase}");
    }
    let (auctions, trading) = (tally.auctions, tally.auctions_trading);
    assert!(auctions > SCRIPTS / 2, "{auctions} auctions");
    assert!(trading > SCRIPTS / 3, "{trading} auctions that traded");
    assert!(auctions > trading, "auctions without a trade");
    let with_fees = tally.accounts_with_fees;
    assert!(with_fees > SCRIPTS, "{with_fees} accounts with fees");
    let (trades, odd_sums) = (tally.trades, tally.odd_sums);
    assert!(odd_sums > trades / 10, "{odd_sums} sums by a nominal");
    assert_codes_are_reached(&tally);
    assert_deals_are_reached(&tally);
    assert_lots_are_reached(&tally);
    Ok(())
}

/// Where the lower code would decide otherwise than the arrival, and how
/// cancellations by own codes go out.
fn assert_codes_are_reached(tally: &Tally) {
    for phase in ["open", "collecting", "closing"] {
        let count = tally.by_arrival(phase);
        assert!(count > SCRIPTS, "{count} by arrival while {phase}");
    }
    let of_offers = tally.by_arrival("offers");
    assert!(of_offers > SCRIPTS / 10, "{of_offers} offers by arrival");
    let (accepted, of_none) = (tally.cancels_accepted, tally.cancels_of_none);
    assert!(accepted > 2 * SCRIPTS, "{accepted} cancellations");
    assert!(of_none > 2 * SCRIPTS, "{of_none} of no such order");
}

fn assert_deals_are_reached(tally: &Tally) {
    let answered: [(&str, &[u64]); 3] = [
        ("OFFER", &[2, 4, 5, 6, 7, 8, 12, 14, 24, 25, 26]),
        ("SECOND", &[14, 16, 24]),
        ("DAY", &[6, 24]),
    ];
    for (word, numbers) in answered {
        for number in numbers {
            assert!(tally.answers(word, *number) > 0, "{number} to {word}");
        }
    }
    let (offers, met) = (tally.answers("OFFER", 0), tally.offers_met);
    assert!(met > 4 * SCRIPTS, "{met} offers that are met");
    assert!(offers > 2 * met, "{offers} offers");
    for phase in PHASES {
        let parts = tally.second_parts(phase);
        assert!(parts > SCRIPTS / 20, "{parts} second parts while {phase}");
    }
    let late = tally.late_second_parts;
    let in_time = tally.answers("SECOND", 0) - late;
    assert!(
        late > SCRIPTS / 2,
        "{late} second parts after their due day"
    );
    assert!(in_time > SCRIPTS / 2, "{in_time} on their due day");
    let days = tally.answers("DAY", 0);
    assert!(days > SCRIPTS / 2, "{days} new days");
    let (deals, own) = (tally.deals, tally.own_deals);
    assert!(own > 0, "deals with oneself");
    assert!(deals > own, "deals with another");
    assert!(tally.deals_with_interest > deals / 4, "deals with interest");
}

/// Where sixteen bits are too few for lots: those refused with 7, of each entry,
/// answered ones, those that fit an A order, and what is left of the most.
fn assert_lots_are_reached(tally: &Tally) {
    let lots = &tally.lots;
    for entered in ["kept", "immediate", "whole", "member", "closing", "offer"] {
        let count = lots.refused(entered);
        assert!(count > SCRIPTS / 40, "{count} lots refused, {entered}");
    }
    for by in ["group", "auction", "session"] {
        let count = lots.answered(by);
        assert!(count > SCRIPTS / 100, "{count} long answers, {by}");
    }
    let (fitting, last_lots) = (lots.fitting, lots.last_lots);
    assert_eq!(lots.answered("other"), 0, "one order's lots fit");
    assert!(fitting > SCRIPTS / 100, "{fitting} filled whole");
    assert!(last_lots > SCRIPTS / 10, "{last_lots} with one lot left");
}
