use core::error::Error;
use core::fmt::{Display, Formatter, Result};

/// Why a call was refused, in the order in which the faults are tested: of several the first is told.
#[derive(Clone, Copy, Debug, PartialEq, Eq, Hash)]
#[non_exhaustive]
pub enum Refusal {
    /// 1: a log2 side is outside 1..5, luma's of three components outside 2..5.
    Side,
    /// 2: QP is above 63.
    Qp,
    /// 3: lambda is a NaN, below 0 or above 8192.
    Lambda,
    /// 4: an entry of the cost tables is above 1,048,576.
    Cost,
    /// 5: the buffer is shorter than the block, or than 3/2 of luma's block where it holds three components.
    Length,
    /// 6: a residual is outside ±1023, or, in the quantiser alone, a coefficient is -32768, or a level that is to be
    /// written as a symbol.
    Sample,
    /// 7: a rounded magnitude is above 32767.
    Level,
    /// 8: lambda's whole number times the largest rounded magnitude plus one is above 2^41.
    Price,
    /// 9: the squared errors of the block left uncoded add up to more than 2^60.
    Distortion,
    /// 10: the list has fewer places than the block has levels that are not 0.
    Room,
    /// 11: a list of symbols is no block's: a magnitude of 0, an unused bit that is set, a run past the block, no last
    /// mark on the last symbol, or a symbol behind one that has it.
    Symbol,
    /// 15: no candidate of a guarded block has a price below 2^62 and samples within the heights: not even with every
    /// level rounded.
    Height,
    /// The archive has answered a number that this crate does not know: it is one of another version.
    Unknown(u32),
}

impl Refusal {
    /// The refusal that a call's result stands for; nothing for 0, which is an accepted call.
    pub const fn of(number: u32) -> Option<Refusal> {
        Some(match number {
            0 => return None,
            1 => Refusal::Side,
            2 => Refusal::Qp,
            3 => Refusal::Lambda,
            4 => Refusal::Cost,
            5 => Refusal::Length,
            6 => Refusal::Sample,
            7 => Refusal::Level,
            8 => Refusal::Price,
            9 => Refusal::Distortion,
            10 => Refusal::Room,
            11 => Refusal::Symbol,
            15 => Refusal::Height,
            other => Refusal::Unknown(other),
        })
    }

    /// The number that the calls answer with.
    pub const fn number(self) -> u32 {
        match self {
            Refusal::Side => 1,
            Refusal::Qp => 2,
            Refusal::Lambda => 3,
            Refusal::Cost => 4,
            Refusal::Length => 5,
            Refusal::Sample => 6,
            Refusal::Level => 7,
            Refusal::Price => 8,
            Refusal::Distortion => 9,
            Refusal::Room => 10,
            Refusal::Symbol => 11,
            Refusal::Height => 15,
            Refusal::Unknown(number) => number,
        }
    }

    /// Whether the quantiser tells a component with it: not so of sides, costs and lengths, nor of rooms and symbols,
    /// which it has none of.
    pub const fn is_of_a_component(self) -> bool {
        use Refusal::{Cost, Length, Room, Side, Symbol, Unknown};
        !matches!(self, Side | Cost | Length | Room | Symbol | Unknown(_))
    }
}

impl Display for Refusal {
    fn fmt(&self, f: &mut Formatter) -> Result {
        f.write_str(match self {
            Refusal::Side => "a log2 side is outside 1 to 5 (luma's of three components: 2 to 5)",
            Refusal::Qp => "QP is above 63",
            Refusal::Lambda => "lambda is not a number from 0 to 8192",
            Refusal::Cost => "an entry of the cost tables is above 1048576",
            Refusal::Length => "the buffer is too short",
            Refusal::Sample => "a residual is outside -1023 to 1023, or a coefficient or level is -32768",
            Refusal::Level => "a rounded magnitude is above 32767",
            Refusal::Price => "lambda times the largest rounded magnitude plus one is above 2^41",
            Refusal::Distortion => "the squared errors of the uncoded block add up to more than 2^60",
            Refusal::Room => "the list has fewer places than the block has levels that are not 0",
            Refusal::Symbol => "the list of symbols is no block's of this side",
            Refusal::Height => "no levels of this block bring every sample within the heights",
            Refusal::Unknown(_) => "a reason unknown to this version of the host crate",
        })
    }
}

impl Error for Refusal {}

/// The three components of a block. No fourth can be named.
#[derive(Clone, Copy, Debug, PartialEq, Eq, Hash)]
pub enum Component {
    /// Luma.
    Y = 0,
    /// Cb.
    U = 1,
    /// Cr.
    V = 2,
}

impl Display for Component {
    fn fmt(&self, f: &mut Formatter) -> Result {
        f.write_str(["Y", "U", "V"][*self as usize])
    }
}

/// A call that was refused: why, and of which component. What it was lent holds what it held.
///
/// ```
/// use galemosu::{quantise, Component, Costs, Quantise, Refusal, Settings};
///
/// let call = Quantise::new(Component::V, 1, Settings { qp: 64, lambda: 0.5 }, &Costs::START);
/// let refused = quantise(&mut [100, 0, 0, 0], &call).unwrap_err();
/// assert_eq!((refused.refusal, refused.component), (Refusal::Qp, Some(Component::V)));
/// assert_eq!(refused.to_string(), "refused with 2 in V: QP is above 63");
/// ```
#[derive(Clone, Copy, Debug, PartialEq, Eq, Hash)]
pub struct Refused {
    /// Why.
    pub refusal: Refusal,
    /// The component whose fault it is, where it is one's: not of sides, costs and lengths, nor in the transform,
    /// scaling back, the inverse, the measuring and the run lists, which work on whatever component it is.
    pub component: Option<Component>,
}

impl Refused {
    /// What a call's result and the first number of its answer say; nothing for an accepted call.
    pub(crate) fn of(number: u32, component: u64) -> Option<Refused> {
        let refusal = Refusal::of(number)?;
        Some(match (refusal.is_of_a_component(), component) {
            (true, 0) => Refused { refusal, component: Some(Component::Y) },
            (true, 1) => Refused { refusal, component: Some(Component::U) },
            (true, 2) => Refused { refusal, component: Some(Component::V) },
            (false, 0) => Refused { refusal, component: None },
            // whatever this archive is, its numbers are not those of this crate
            _ => Refused { refusal: Refusal::Unknown(number), component: None },
        })
    }
}

impl Display for Refused {
    fn fmt(&self, f: &mut Formatter) -> Result {
        write!(f, "refused with {}", self.refusal.number())?;
        if let Some(component) = self.component {
            write!(f, " in {component}")?;
        }
        write!(f, ": {}", self.refusal)
    }
}

impl Error for Refused {}

/// What the transform, scaling back, the inverse, the measuring and the run lists refuse belongs to no component.
impl From<Refusal> for Refused {
    fn from(refusal: Refusal) -> Refused {
        Refused { refusal, component: None }
    }
}
