//! The measurements, with keys of one pair of sizes.

use crate::Measured;
use p2p_directory::sized::Pair;

mod growth;
mod hour;
mod made;
mod scenarios;

pub(crate) const fn of<P: Pair>() -> Measured {
    Measured {
        key_size: P::KEY_SIZE,
        measure_few: scenarios::measure_few::<P>,
        measure_growth: growth::measure::<P>,
        times_of: scenarios::times_of::<P>,
    }
}
