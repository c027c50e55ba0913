//! A second way to the bounds and the least-delay sizings, for nets with too many allowed sizings to try them all.

use crate::questions::{Net, read};
use crate::reference::{Bounds, EXHAUSTIVE, Least, Side, Way, least_of, sizings_between, tie_at};

/// The most allowed sizings that are tried one by one.
pub const MOST_TRIED: u128 = 2_048;

/// The way that sweeps to the bounds and tries only what lies between them.
pub const SWEPT: Way = Way {
    bounds: swept_bounds,
    least: least_between,
};

/// Refines place after place from one side, sweep after sweep, until a sweep changes nothing.
pub fn sweep(net: &Net, start: Vec<u8>, side: Side) -> Vec<u8> {
    let mut sizing = start;
    loop {
        let before = sizing.clone();
        for place in 0..net.places() {
            sizing[place] = tie_at(net, &sizing, place).end(side);
        }
        if sizing == before {
            return sizing;
        }
    }
}

/// The bounds by sweeps: from the lowest sizing below, from the highest above.
pub fn swept_bounds(net: &Net) -> Bounds {
    Bounds {
        lower: sweep(net, net.lowest(), Side::Below),
        upper: sweep(net, net.highest(), Side::Above),
    }
}

/// The least delay, lean and wide over the sizings between the bounds.
pub fn least_between(net: &Net, bounds: &Bounds) -> Least {
    least_of(net, &sizings_between(&bounds.lower, &bounds.upper))
}

/// The way for a job: every allowed sizing where they are few, else the sweeps.
pub fn way_for(job: &[u8]) -> &'static Way {
    match read(job) {
        Ok(net) if net.allowed_sizings() > MOST_TRIED => &SWEPT,
        _ => &EXHAUSTIVE,
    }
}
