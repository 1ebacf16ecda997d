//! The two-sided operators: how they are written, stored and grouped, and what they give [01, Expressions] [02, R-7].

pub const ABSENT_READ: u32 = 26;
pub const OUT_OF_RANGE: u32 = 27;
pub const ZERO_DIVISOR: u32 = 29;

#[derive(Clone, Copy, Debug, PartialEq, Eq)]
pub enum Op {
    Add,
    Sub,
    Mul,
    Div,
    Rem,
    Pow,
    Eq,
    Ne,
    Lt,
    Le,
    Gt,
    Ge,
    And,
    Or,
}

pub const OR: u8 = 1;
pub const AND: u8 = 2;
pub const COMPARISON: u8 = 3;
pub const SUM: u8 = 4;
pub const PRODUCT: u8 = 5;
pub const POWER: u8 = 6;
pub const ATOM: u8 = 7;

/// Each operator, in the order of `Op`, with its stored code, its sign and its level.
pub const OPS: [(Op, u8, &[u8], u8); 14] = [
    (Op::Add, 0x10, b"+", SUM),
    (Op::Sub, 0x11, b"-", SUM),
    (Op::Mul, 0x12, b"*", PRODUCT),
    (Op::Div, 0x13, b"/", PRODUCT),
    (Op::Rem, 0x14, b"%", PRODUCT),
    (Op::Pow, 0x15, b"^", POWER),
    (Op::Eq, 0x20, b"==", COMPARISON),
    (Op::Ne, 0x21, b"!=", COMPARISON),
    (Op::Lt, 0x22, b"<", COMPARISON),
    (Op::Le, 0x23, b"<=", COMPARISON),
    (Op::Gt, 0x24, b">", COMPARISON),
    (Op::Ge, 0x25, b">=", COMPARISON),
    (Op::And, 0x30, b"&&", AND),
    (Op::Or, 0x31, b"||", OR),
];

impl Op {
    fn row(self) -> &'static (Op, u8, &'static [u8], u8) {
        &OPS[self as usize]
    }

    pub fn sign(self) -> &'static [u8] {
        self.row().2
    }
}

/// The stored code of an operator.
pub fn code(op: Op) -> u8 {
    op.row().1
}

/// The operator of a stored code.
pub fn op_of(code: u8) -> Option<Op> {
    OPS.iter().find(|row| row.1 == code).map(|row| row.0)
}

/// How tightly an operator binds.
pub fn level(op: Op) -> u8 {
    op.row().3
}

/// Whether an operator of this level takes another of its level as its left operand, and as its right one.
pub fn groups(level: u8) -> (bool, bool) {
    (level != COMPARISON && level != POWER, level == POWER)
}

/// What an operator gives, or the number of the first fault: the left operand goes first, then the right one, if it is
/// not skipped, then the step itself.
pub fn two_sided(
    op: Op,
    left: impl FnOnce() -> Result<u32, u32>,
    right: impl FnOnce() -> Result<u32, u32>,
) -> Result<u32, u32> {
    let left = left()?;
    if (op == Op::And && left == 0) || (op == Op::Or && left != 0) {
        return Ok(left);
    }
    apply(op, left, right()?)
}

/// What the step of an operator gives, or the number of its fault.
pub fn apply(op: Op, left: u32, right: u32) -> Result<u32, u32> {
    let truth = |truth: bool| Ok(u32::from(truth));
    match op {
        Op::Add => left.checked_add(right).ok_or(OUT_OF_RANGE),
        Op::Sub => left.checked_sub(right).ok_or(OUT_OF_RANGE),
        Op::Mul => left.checked_mul(right).ok_or(OUT_OF_RANGE),
        Op::Div => left.checked_div(right).ok_or(ZERO_DIVISOR),
        Op::Rem => left.checked_rem(right).ok_or(ZERO_DIVISOR),
        Op::Pow => power(left, right).ok_or(OUT_OF_RANGE),
        Op::Eq => truth(left == right),
        Op::Ne => truth(left != right),
        Op::Lt => truth(left < right),
        Op::Le => truth(left <= right),
        Op::Gt => truth(left > right),
        Op::Ge => truth(left >= right),
        Op::And | Op::Or => Ok(right),
    }
}

/// The product of `exponent` times `base`, 1 for none, if it is within the range. From 2 on it leaves the range after
/// 32 products at the latest.
fn power(base: u32, exponent: u32) -> Option<u32> {
    match base {
        0 => Some(u32::from(exponent == 0)),
        1 => Some(1),
        _ => (0..exponent).try_fold(1u32, |product, _| product.checked_mul(base)),
    }
}

#[cfg(test)]
mod tests {
    use super::*;

    #[test]
    fn quotients_and_remainders() {
        for (left, right, quotient, remainder) in [(7, 2, 3, 1), (1, 3, 0, 1), (6, 3, 2, 0), (0, 9, 0, 0)] {
            assert_eq!(apply(Op::Div, left, right), Ok(quotient), "{left}/{right}");
            assert_eq!(apply(Op::Rem, left, right), Ok(remainder), "{left}%{right}");
        }
        assert_eq!(apply(Op::Div, u32::MAX, u32::MAX), Ok(1));
        assert_eq!(apply(Op::Div, u32::MAX, 1), Ok(u32::MAX));
        for left in [0, 1, u32::MAX] {
            assert_eq!(apply(Op::Div, left, 0), Err(ZERO_DIVISOR));
            assert_eq!(apply(Op::Rem, left, 0), Err(ZERO_DIVISOR));
        }
    }

    #[test]
    fn powers() {
        for (base, exponent, value) in [
            (2, 0, 1),
            (2, 10, 1024),
            (2, 31, 1 << 31),
            (3, 20, 3_486_784_401),
            (65_535, 2, 4_294_836_225),
            (u32::MAX, 1, u32::MAX),
            (u32::MAX, 0, 1),
            (0, 0, 1),
            (0, 1, 0),
            (0, u32::MAX, 0),
            (1, u32::MAX, 1),
        ] {
            assert_eq!(apply(Op::Pow, base, exponent), Ok(value), "{base}^{exponent}");
        }
        for (base, exponent) in
            [(2, 32), (3, 21), (65_536, 2), (u32::MAX, 2), (2, u32::MAX), (u32::MAX, u32::MAX)]
        {
            assert_eq!(apply(Op::Pow, base, exponent), Err(OUT_OF_RANGE), "{base}^{exponent}");
        }
    }

    #[test]
    fn operands_go_before_their_step() {
        let out_of_range = || apply(Op::Sub, 1, 2);
        assert_eq!(two_sided(Op::Div, out_of_range, || Ok(0)), Err(OUT_OF_RANGE));
        assert_eq!(two_sided(Op::Div, || Ok(1), out_of_range), Err(OUT_OF_RANGE));
        assert_eq!(two_sided(Op::Add, || apply(Op::Rem, 1, 0), out_of_range), Err(ZERO_DIVISOR));
        assert_eq!(two_sided(Op::Or, || Ok(1), || apply(Op::Div, 1, 0)), Ok(1));
        assert_eq!(two_sided(Op::And, || Ok(0), || apply(Op::Div, 1, 0)), Ok(0));
    }
}
