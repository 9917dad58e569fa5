//! The steps of a formula, over whole numbers, each one tested for its type.

use crate::numbers::Number;
use std::ops::{Add, Div, Mul, Shl, Shr, Sub};

/// A value that every step so far has kept within signed BITS bits, or none
/// once a step has left its type.
///
/// Each operation takes values of at most 64 bits, so that its whole result
/// fits the 128 bits it is worked out in; then its fit to BITS is tested.
#[derive(Clone, Copy, Debug)]
pub struct Step<const BITS: u32>(Option<i128>);

impl<const BITS: u32> Step<BITS> {
    /// Takes a whole number as the result of a step, if it fits the type.
    /// What doesn't fit is none from here on.
    fn fitted(value: i128) -> Self {
        let limit = 1_i128 << (BITS - 1);
        Step(Some(value).filter(|whole| (-limit..limit).contains(whole)))
    }

    /// Takes a word, a count or a constant into the formula.
    /// It is tested for its fit like any step.
    pub fn of(value: i64) -> Self {
        Step::fitted(i128::from(value))
    }

    /// Takes one step over two operands, of which the left one comes first.
    /// Where either is none already, so is the result.
    fn join(self, right: Self, operation: fn(i128, i128) -> Option<i128>) -> Self {
        let operands = self.0.zip(right.0);
        let result = operands.and_then(|(one, other)| operation(one, other));
        result.map_or(Step(None), Step::fitted)
    }

    /// Gives the value that the steps so far have come to.
    /// If one of them left its type, the number is 12.
    pub fn value(self) -> Result<i64, Number> {
        let whole = self.0.ok_or(Number::StepLeftItsType)?;
        i64::try_from(whole).map_err(|_| Number::StepLeftItsType)
    }
}

impl<const BITS: u32> Add for Step<BITS> {
    type Output = Self;

    /// One step: the sum.
    /// It must fit the type.
    fn add(self, right: Self) -> Self {
        self.join(right, i128::checked_add)
    }
}

impl<const BITS: u32> Sub for Step<BITS> {
    type Output = Self;

    /// One step: the difference.
    /// It must fit the type.
    fn sub(self, right: Self) -> Self {
        self.join(right, i128::checked_sub)
    }
}

impl<const BITS: u32> Mul for Step<BITS> {
    type Output = Self;

    /// One step: the product.
    /// It must fit the type.
    fn mul(self, right: Self) -> Self {
        self.join(right, i128::checked_mul)
    }
}

impl<const BITS: u32> Div for Step<BITS> {
    type Output = Self;

    /// One step: the quotient, rounded toward zero.
    /// It must fit the type; the zero test comes before it, in the formula.
    fn div(self, right: Self) -> Self {
        self.join(right, i128::checked_div)
    }
}

impl<const BITS: u32> Shl<u32> for Step<BITS> {
    type Output = Self;

    /// One step: the left shift, which multiplies.
    /// It must fit the type.
    fn shl(self, places: u32) -> Self {
        self.0.map_or(self, |whole| Step::fitted(whole << places))
    }
}

impl<const BITS: u32> Shr<u32> for Step<BITS> {
    type Output = Self;

    /// One step: the right shift, which rounds down.
    /// It must fit the type.
    fn shr(self, places: u32) -> Self {
        self.0.map_or(self, |whole| Step::fitted(whole >> places))
    }
}
