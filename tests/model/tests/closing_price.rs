//! The closing price to the nearest unit, a half going up (T-01).

use model::engine::Traded;

fn closing_price(turnover: u64, pieces: u64) -> u64 {
    Traded { pieces, turnover }.closing_price()
}

#[test]
fn the_requests_own_case() {
    assert_eq!(closing_price(14_500, 150), 97);
}

#[test]
fn a_half_goes_up_and_less_goes_down() {
    assert_eq!(closing_price(10_500, 1_000), 11);
    assert_eq!(closing_price(10_499, 1_000), 10);
    assert_eq!(closing_price(10_501, 1_000), 11);
    assert_eq!(closing_price(12, 5), 2);
    assert_eq!(closing_price(13, 5), 3);
    assert_eq!(closing_price(10, 5), 2);
}

/// T at the most that a sound state holds, whose double takes 65 bits.
#[test]
fn the_largest_turnover() {
    let pieces = 10_000_000_000_000;
    let half = 999_999 * pieces + pieces / 2;
    assert_eq!(closing_price(1_000_000 * pieces, pieces), 1_000_000);
    assert_eq!(closing_price(half, pieces), 1_000_000);
    assert_eq!(closing_price(half - 1, pieces), 999_999);
}

#[test]
fn nothing_traded() {
    assert_eq!(closing_price(0, 0), 0);
}
