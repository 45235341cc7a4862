//! What a host may offer a commit in the place of the forecast.

use crate::planner::{A, B1, B2, BEFORE, E};
use reference::trial::random::Random;

/// A number other than this forecast: a bit or one of the three answers changed, the answer of a plain edit, a refusal, or
/// anything.
pub fn other_than(random: &mut Random, forecast: i64) -> i64 {
    const ENDS: [i64; 7] = [0, 1, A, BEFORE, BEFORE - 1, i64::MAX, i64::MIN];
    let (one, rule) = (random.pick(&[1, -1]), random.pick(&[A, B1, B2, E]));
    let offered = match random.below(9) {
        0 => forecast + one,
        1 => forecast + one * BEFORE,
        2 => forecast + one * (BEFORE + 1),
        3 => forecast & !0xffff_0000 | rule,
        4 => forecast & 0xffff_ffff,
        5 => -(random.between(1, 12) as i64),
        6 => random.pick(&ENDS),
        7 => random.draw() as i64,
        _ => forecast ^ 1 << random.below(64),
    };
    if offered == forecast {
        !forecast
    } else {
        offered
    }
}
