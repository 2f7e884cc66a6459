//! The causes of refusal and their numbers.

#[derive(Clone, Copy, PartialEq, Eq, Debug)]
pub struct Refusal(pub u8);

/// The letter is not A to Z, or stands in the draft already.
pub const LETTER: Refusal = Refusal(1);
/// The width is 0 or above 16.
pub const WIDTH: Refusal = Refusal(2);
/// A ninth variable, or more than 64 bits in all.
pub const TOO_WIDE: Refusal = Refusal(3);
/// A format without variables.
pub const NO_VARIABLES: Refusal = Refusal(4);
/// A place above 7.
pub const PLACE: Refusal = Refusal(5);
/// A variable that the format does not have.
pub const VARIABLE: Refusal = Refusal(6);
/// A byte that may not stand there on a card.
pub const BYTE: Refusal = Refusal(7);
/// A nineteenth digit.
pub const DIGITS: Refusal = Refusal(8);
/// The text ends before the deck does.
pub const TEXT_ENDS: Refusal = Refusal(9);
/// A coefficient does not fit.
pub const UNFIT: Refusal = Refusal(10);
/// An exponent is negative or above its field.
pub const EXPONENT: Refusal = Refusal(11);
/// More rows than a place holds.
pub const ROWS: Refusal = Refusal(12);
/// The divisor is zero.
pub const ZERO_DIVISOR: Refusal = Refusal(13);
/// There is no quotient.
pub const NO_QUOTIENT: Refusal = Refusal(14);
/// The quotient of two coefficients does not fit.
pub const QUOTIENT_UNFIT: Refusal = Refusal(15);
/// The output is too short.
pub const OUTPUT: Refusal = Refusal(16);
/// k is above the count of variables.
pub const PREFIX: Refusal = Refusal(17);
