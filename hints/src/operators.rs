//! The operators, as docs/RULES.md lists them.

/// A two-sided operator.
#[derive(Clone, Copy, Debug, PartialEq, Eq)]
pub struct Operator {
    pub symbol: &'static str,
    /// How tightly it binds, from 0.
    pub level: u8,
    pub code: u8,
    pub takes: Type,
    pub gives: Type,
}

#[derive(Clone, Copy, Debug, PartialEq, Eq)]
pub enum Type {
    Number,
    Truth,
}

impl Type {
    pub fn name(self) -> &'static str {
        match self {
            Type::Number => "a number",
            Type::Truth => "yes or no",
        }
    }
}

pub const OR: u8 = 0x31;
pub const AND: u8 = 0x30;
pub const NOT: u8 = 0x32;
pub const NUMBER: u8 = 0x01;
pub const NAME: u8 = 0x02;
pub const COMPARISON: u8 = 2;
pub const POWER: u8 = 5;
pub const ATOM: u8 = 6;

/// What is wrong with a step.
#[derive(Clone, Copy, Debug, PartialEq, Eq)]
pub enum Broken {
    Range,
    ZeroDivisor,
}

impl Operator {
    /// Whether another operator of its level stands bare as its left operand, and as its right one.
    pub fn groups(self) -> (bool, bool) {
        (self.level != COMPARISON && self.level != POWER, self.level == POWER)
    }

    /// What a step gives; yes is 1, no is 0.
    pub fn applied(self, left: u32, right: u32) -> Result<u32, Broken> {
        let truth = match self.symbol {
            "+" => return left.checked_add(right).ok_or(Broken::Range),
            "-" => return left.checked_sub(right).ok_or(Broken::Range),
            "*" => return left.checked_mul(right).ok_or(Broken::Range),
            "/" => return left.checked_div(right).ok_or(Broken::ZeroDivisor),
            "%" => return left.checked_rem(right).ok_or(Broken::ZeroDivisor),
            "^" => return left.checked_pow(right).ok_or(Broken::Range),
            "==" => left == right,
            "!=" => left != right,
            "<" => left < right,
            "<=" => left <= right,
            ">" => left > right,
            ">=" => left >= right,
            _ => right != 0,
        };
        Ok(u32::from(truth))
    }
}

const fn operator(symbol: &'static str, level: u8, code: u8, takes: Type, gives: Type) -> Operator {
    Operator { symbol, level, code, takes, gives }
}

/// Those that begin with others stand before them.
pub const OPERATORS: [Operator; 14] = [
    operator("||", 0, OR, Type::Truth, Type::Truth),
    operator("&&", 1, AND, Type::Truth, Type::Truth),
    operator("==", COMPARISON, 0x20, Type::Number, Type::Truth),
    operator("!=", COMPARISON, 0x21, Type::Number, Type::Truth),
    operator("<=", COMPARISON, 0x23, Type::Number, Type::Truth),
    operator(">=", COMPARISON, 0x25, Type::Number, Type::Truth),
    operator("<", COMPARISON, 0x22, Type::Number, Type::Truth),
    operator(">", COMPARISON, 0x24, Type::Number, Type::Truth),
    operator("+", 3, 0x10, Type::Number, Type::Number),
    operator("-", 3, 0x11, Type::Number, Type::Number),
    operator("*", 4, 0x12, Type::Number, Type::Number),
    operator("/", 4, 0x13, Type::Number, Type::Number),
    operator("%", 4, 0x14, Type::Number, Type::Number),
    operator("^", POWER, 0x15, Type::Number, Type::Number),
];

/// The operator at the start of bytes.
pub fn operator_at(bytes: &[u8]) -> Option<Operator> {
    OPERATORS.into_iter().find(|operator| bytes.starts_with(operator.symbol.as_bytes()))
}
