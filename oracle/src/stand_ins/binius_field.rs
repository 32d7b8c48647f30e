//! `binius_field`: the type that `Bmul` multiplies. `Bmul` is not carried, and its product is a rule:
//! a stand-in has none to give, so multiplying stops.

use std::ops::Mul;

#[derive(Clone, Copy)]
pub struct Ghash128b(u128);

impl From<u128> for Ghash128b {
    fn from(bits: u128) -> Self {
        Ghash128b(bits)
    }
}

impl From<Ghash128b> for u128 {
    fn from(element: Ghash128b) -> Self {
        element.0
    }
}

impl Mul for Ghash128b {
    type Output = Self;

    fn mul(self, _: Self) -> Self {
        unimplemented!("Bmul is not carried: document 01, refusal 5")
    }
}
