//! Sensing and curves: voltages from codes, and powers from voltages.

use super::records::Point;

/// The largest whole number whose square is at most `square`, found bit by bit.
pub(super) fn square_root(square: u32) -> u32 {
    let mut root: u32 = 0;
    for bit in (0..16).rev() {
        let larger = root + (1 << bit);
        if larger * larger <= square {
            root = larger;
        }
    }
    root
}

/// The voltage of a mean-square code, 0 to 4,095.
pub(super) fn voltage(code: u32) -> u32 {
    square_root(code * 100_000)
}

/// The lowest and the highest of the three voltages, and their mean rounded down.
pub(super) fn voltages(codes: [u32; 3]) -> (u32, u32, u32) {
    let phases = codes.map(voltage);
    let lowest = phases[0].min(phases[1]).min(phases[2]);
    let highest = phases[0].max(phases[1]).max(phases[2]);
    let mean = (phases[0] + phases[1] + phases[2]) / 3;
    (lowest, highest, mean)
}

/// The power of a curve at a voltage. The curve's voltages rise strictly.
pub(super) fn curve(points: &[Point], voltage: u32) -> i64 {
    let first = points[0];
    let last = points[points.len() - 1];
    if voltage <= first.voltage {
        return i64::from(first.power);
    }
    for neighbours in points.windows(2) {
        let (left, right) = (neighbours[0], neighbours[1]);
        if voltage < right.voltage {
            let difference = i64::from(right.power) - i64::from(left.power);
            let distance = i64::from(voltage) - i64::from(left.voltage);
            let gap = i64::from(right.voltage) - i64::from(left.voltage);
            return i64::from(left.power) + difference * distance / gap; // cut toward zero
        }
    }
    i64::from(last.power)
}

/// What the rating leaves beside vars (-10000 to 10000): the largest p that keeps p² + vars² to 100,000,000.
pub(super) fn watts_beside(vars: i64) -> i64 {
    i64::from(square_root((100_000_000 - vars * vars) as u32))
}
