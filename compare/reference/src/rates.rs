//! Rates and amounts at the three levels that follow from a clearing value, and rounding.

/// An amount or rate "at three levels: clearing, maintenance, initial".
pub type Levels = [u64; 3];

/// "Maintenance is 1.035 times and initial 1.35 times it, each the least multiple of 1,000 not below the exact product."
/// The clearing margin is itself a multiple of 1,000.
pub fn fixed_margins(clearing: u32) -> Levels {
    let thousands = u64::from(clearing) / 1_000;
    let raised = |factor: u64| (thousands * factor).div_ceil(1_000) * 1_000;
    [u64::from(clearing), raised(1_035), raised(1_350)]
}

/// "Raise the clearing rate first; then take 1.035 and 1.35 times the raised rate, each rounded half up to 0.01 percent."
/// Rates are in thousandths of a percent, the disposition in tenths. All three are even, so that half of them is exact.
pub fn stock_rates(clearing: u32, disposition: u32) -> Levels {
    let raised = u64::from(clearing) * u64::from(disposition) / 10;
    let times = |factor: u64| half_up(raised * factor, 10_000) * 10;
    [raised, times(1_035), times(1_350)]
}

/// How many of a whole the parts make, "half up".
#[inline]
pub fn half_up(parts: u64, whole: u64) -> u64 {
    (parts + whole / 2) / whole
}
