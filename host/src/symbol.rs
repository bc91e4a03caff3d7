use crate::Refusal;
use core::fmt::{Debug, Formatter, Result as Written};

/// One symbol of a block's run list: a level that is not 0, the zeros before it in scan order, and whether it is the
/// block's last.
///
/// [`write_symbols`](crate::write_symbols) and [`read_symbols`](crate::read_symbols) have each packed in a `u32`: the
/// run in the 10 lowest bits, 15 bits of magnitude above it, then the sign, 1 where it is negative, and the last mark;
/// the 5 highest bits are 0. A `Symbol` has no other bits and no magnitude of 0, so that a packed number becomes one by
/// `try_from`, and it becomes a number by `from`.
///
/// ```
/// use galemosu::{Refusal, Symbol};
///
/// let symbol = Symbol::new(6, -1, true)?;
/// assert_eq!(u32::from(symbol), 6 | 1 << 10 | 1 << 25 | 1 << 26);
/// assert_eq!((symbol.run(), symbol.magnitude(), symbol.is_negative(), symbol.is_last()), (6, 1, true, true));
///
/// assert_eq!(Symbol::try_from(3 << 10).map(Symbol::level), Ok(3));
/// assert_eq!(Symbol::try_from(1 << 27), Err(Refusal::Symbol));
/// # Ok::<(), Refusal>(())
/// ```
#[derive(Clone, Copy, PartialEq, Eq, Hash)]
pub struct Symbol(u32);

const RUN: u32 = 10;
const MAGNITUDE: u32 = 15;
const SIGN: u32 = RUN + MAGNITUDE;
const LAST: u32 = SIGN + 1;
const USED: u32 = LAST + 1;

impl Symbol {
    /// The largest run that a symbol can have.
    pub const MOST_RUN: u16 = (1 << RUN) - 1;

    /// A level behind so many zeros. Refused with `Symbol` where the run is above [`MOST_RUN`](Symbol::MOST_RUN), and
    /// where the level is 0 or -32768.
    pub const fn new(run: u16, level: i16, last: bool) -> Result<Symbol, Refusal> {
        if run > Symbol::MOST_RUN || level == 0 || level == i16::MIN {
            return Err(Refusal::Symbol);
        }
        let (magnitude, negative) = (level.unsigned_abs() as u32, level < 0);
        Ok(Symbol(run as u32 | magnitude << RUN | (negative as u32) << SIGN | (last as u32) << LAST))
    }

    /// How many zeros stand before the level, back to the one before or to the block's beginning.
    pub const fn run(self) -> u16 {
        self.0 as u16 & Symbol::MOST_RUN
    }

    /// The level's magnitude, 1 to 32767.
    pub const fn magnitude(self) -> u16 {
        (self.0 >> RUN) as u16 & 0x7fff
    }

    /// Whether the level is below 0.
    pub const fn is_negative(self) -> bool {
        self.0 >> SIGN & 1 == 1
    }

    /// The level, ±32767 at most.
    pub const fn level(self) -> i16 {
        let magnitude = self.magnitude() as i16;
        if self.is_negative() {
            -magnitude
        } else {
            magnitude
        }
    }

    /// Whether no level behind it is other than 0.
    pub const fn is_last(self) -> bool {
        self.0 >> LAST & 1 == 1
    }
}

impl From<Symbol> for u32 {
    fn from(symbol: Symbol) -> u32 {
        symbol.0
    }
}

/// Refused with `Symbol` where the magnitude is 0 or an unused bit is set. Whether the run stays within a block, and
/// whether the last mark stands where it must, only the whole list tells: [`read_symbols`](crate::read_symbols) looks.
impl TryFrom<u32> for Symbol {
    type Error = Refusal;

    fn try_from(packed: u32) -> Result<Symbol, Refusal> {
        let symbol = Symbol(packed);
        if packed >> USED != 0 || symbol.magnitude() == 0 {
            return Err(Refusal::Symbol);
        }
        Ok(symbol)
    }
}

impl Debug for Symbol {
    fn fmt(&self, f: &mut Formatter) -> Written {
        let mut fields = f.debug_struct("Symbol");
        fields.field("run", &self.run()).field("level", &self.level()).field("last", &self.is_last()).finish()
    }
}
