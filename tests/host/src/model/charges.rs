//! Document 01, "Costs".

pub fn is_model(model: u32) -> bool {
    model <= 2
}

/// What a join of sizes a and b into size o costs beside its two trees.
pub fn charge(model: u32, a: u32, b: u32, o: u32) -> u128 {
    let (a, b, o) = (u128::from(a), u128::from(b), u128::from(o));
    match model {
        0 => o,
        1 => w(a) + w(b),
        2 => 2 * o.div_ceil(10) + (a * b).div_ceil(9_900) + a.min(b).div_ceil(10),
        _ => unreachable!("an unknown model is refused before anything is charged"),
    }
}

/// "w(x) = x times (1 + the whole part of the base-two logarithm of x), and w(0) = 0."
pub fn w(x: u128) -> u128 {
    match x.checked_ilog2() {
        Some(logarithm) => x * (1 + u128::from(logarithm)),
        None => 0,
    }
}
