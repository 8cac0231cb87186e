//! The levels of a rule's context.

use crate::bytes::{put_u16, u16_at};
use crate::context::WHOLE_BUSINESS;
use crate::text::{exactly, list, pad, Cut, List};
use crate::{BuildError, Context, ContextType, ContextValue, ParseError};
use std::fmt;
use std::ops::RangeInclusive;
use std::str::FromStr;

/// What a rule asks of the value at one of its levels.
#[derive(Clone, Copy, PartialEq, Eq, Hash, Debug)]
pub enum Mark {
    /// This one value.
    Fixed(ContextValue),
    /// Every value, all taken together.
    Every,
    /// Each value, one by one: of a run place of its own.
    Each,
    /// The values from low to high, both included, all taken together. In a level low is never above
    /// high.
    Range {
        /// The lowest value.
        low: ContextValue,
        /// The highest value.
        high: ContextValue,
    },
}

/// One level of a rule's context.
///
/// It is shown as in the published XML: `1=5` for a fixed value, `1=*` for every, `1=!` for each. A
/// range, which the XML does not have, is `1=100 to 199`.
///
/// ```
/// use hastovimen::{ContextType, ContextValue, Level, Mark};
///
/// const DEPOT: ContextType = ContextType::of(1);
///
/// let level = Level::fixed(DEPOT, ContextValue::of(5));
/// assert_eq!(level.context_type(), DEPOT);
/// assert_eq!(level.mark(), Mark::Fixed(ContextValue::of(5)));
/// assert_eq!(level.value(), Some(ContextValue::of(5)));
/// assert_eq!(level.to_string(), "1=5");
/// assert_eq!("1=!".parse(), Ok(Level::each(DEPOT)));
/// ```
#[derive(Clone, Copy, PartialEq, Eq, Hash, Debug)]
pub struct Level {
    kind: ContextType,
    mark: Mark,
}

impl Level {
    /// The rule is about this one value.
    pub const fn fixed(kind: ContextType, value: ContextValue) -> Level {
        let mark = Mark::Fixed(value);
        Level { kind, mark }
    }

    /// The rule is about every value of this type, all taken together.
    pub const fn every(kind: ContextType) -> Level {
        let mark = Mark::Every;
        Level { kind, mark }
    }

    /// The rule is about each value of this type, one by one.
    pub const fn each(kind: ContextType) -> Level {
        let mark = Mark::Each;
        Level { kind, mark }
    }

    /// The rule is about the values of this range, both ends included, all taken together.
    ///
    /// A range whose start is above its end has no value, and is an error. One of a single value is
    /// good: it fits what the fixed value fits, but is another level, with another text and image.
    ///
    /// ```
    /// use hastovimen::*;
    ///
    /// const DEPOT: ContextType = ContextType::of(1);
    /// let [low, high] = [100, 199].map(ContextValue::of);
    ///
    /// let north = Level::range(DEPOT, low..=high)?;
    /// assert_eq!(north.mark(), Mark::Range { low, high });
    /// assert_eq!(north.to_string(), "1=100 to 199");
    /// assert_eq!("1=100 to 199".parse(), Ok(north));
    ///
    /// let fits = |depot| Levels::from([north]).fit(&[(DEPOT, ContextValue::of(depot))].into());
    /// assert_eq!([99, 100, 199, 200].map(fits), [false, true, true, false]);
    ///
    /// let one = Level::range(DEPOT, low..=low)?;
    /// assert_eq!(one.to_string(), "1=100 to 100");
    /// assert_ne!(one, Level::fixed(DEPOT, low));
    ///
    /// let error = BuildError::EmptyRange { low: high, high: low };
    /// assert_eq!(Level::range(DEPOT, high..=low), Err(error));
    /// assert_eq!("1=199 to 100".parse::<Level>(), Err(ParseError::Build(error)));
    /// # Ok::<(), BuildError>(())
    /// ```
    pub const fn range(
        kind: ContextType,
        values: RangeInclusive<ContextValue>,
    ) -> Result<Level, BuildError> {
        // Context values cannot be iterated over, so that no range of them is ever used up: one is
        // empty just if its start is above its end.
        let (low, high) = (*values.start(), *values.end());
        if low.get() > high.get() {
            return Err(BuildError::EmptyRange { low, high });
        }
        let mark = Mark::Range { low, high };
        Ok(Level { kind, mark })
    }

    /// The type that a context must have at this level.
    pub const fn context_type(&self) -> ContextType {
        self.kind
    }

    /// What is asked of the value.
    pub const fn mark(&self) -> Mark {
        self.mark
    }

    /// The value, if it is fixed. The two of a range are in its mark.
    pub const fn value(&self) -> Option<ContextValue> {
        match self.mark {
            Mark::Fixed(value) => Some(value),
            Mark::Every | Mark::Each | Mark::Range { .. } => None,
        }
    }

    fn fits(&self, kind: ContextType, value: ContextValue) -> bool {
        kind == self.kind
            && match self.mark {
                Mark::Fixed(fixed) => value == fixed,
                Mark::Every | Mark::Each => true,
                Mark::Range { low, high } => (low..=high).contains(&value),
            }
    }

    pub(crate) fn read(bytes: &[u8]) -> Option<Level> {
        let kind = ContextType::new(u16_at(bytes, 0))?;
        let value = |at| ContextValue::new(u16_at(bytes, at));
        match bytes[2] {
            1 => Some(Level::fixed(kind, value(4)?)),
            2 => Some(Level::every(kind)),
            3 => Some(Level::each(kind)),
            4 => Level::range(kind, value(4)?..=value(6)?).ok(),
            _ => None,
        }
    }

    pub(crate) fn write(&self, bytes: &mut [u8]) {
        let (mark, value, high) = match self.mark {
            Mark::Fixed(value) => (1, value.get(), 0),
            Mark::Every => (2, 0, 0),
            Mark::Each => (3, 0, 0),
            Mark::Range { low, high } => (4, low.get(), high.get()),
        };
        put_u16(bytes, 0, self.kind.get());
        bytes[2] = mark;
        put_u16(bytes, 4, value);
        put_u16(bytes, 6, high);
    }
}

impl fmt::Display for Level {
    fn fmt(&self, f: &mut fmt::Formatter) -> fmt::Result {
        let kind = self.kind;
        match self.mark {
            Mark::Fixed(value) => pad(f, format_args!("{kind}={value}")),
            Mark::Every => pad(f, format_args!("{kind}=*")),
            Mark::Each => pad(f, format_args!("{kind}=!")),
            Mark::Range { low, high } => pad(f, format_args!("{kind}={low} to {high}")),
        }
    }
}

impl FromStr for Level {
    type Err = ParseError;

    fn from_str(text: &str) -> Result<Level, ParseError> {
        let (kind, mark) = text.cut("=", "level of a rule")?;
        let kind = kind.parse()?;
        Ok(match (mark, mark.split_once(" to ")) {
            ("*", _) => Level::every(kind),
            ("!", _) => Level::each(kind),
            (_, Some((low, high))) => Level::range(kind, low.parse()?..=high.parse()?)?,
            (value, None) => Level::fixed(kind, value.parse()?),
        })
    }
}

/// The levels of a rule's context, four at most. They are made from an array.
///
/// ```
/// use hastovimen::{Context, ContextType, ContextValue, Level, Levels};
///
/// const DEPOT: ContextType = ContextType::of(1);
/// const JOB: ContextType = ContextType::of(2);
///
/// let levels = Levels::from([Level::every(DEPOT), Level::each(JOB)]);
/// assert_eq!(levels.to_string(), "1=*, 2=!");
/// assert_eq!("1=*, 2=!".parse(), Ok(levels));
/// let job = Context::from([(DEPOT, ContextValue::of(5)), (JOB, ContextValue::of(90))]);
/// assert!(levels.fit(&job) && !levels.fit(&Context::WHOLE_BUSINESS));
/// assert_eq!(Levels::default().to_string(), "the whole business");
/// ```
#[derive(Clone, Copy, PartialEq, Eq, Hash, Debug, Default)]
pub struct Levels([Option<Level>; 4]);

impl Levels {
    /// These levels, if there are at most four.
    pub fn new(levels: &[Level]) -> Option<Levels> {
        let mut places = [None; 4];
        if levels.len() > places.len() {
            return None;
        }
        for (place, &level) in places.iter_mut().zip(levels) {
            *place = Some(level);
        }
        Some(Levels(places))
    }

    /// The levels in order.
    pub fn iter(&self) -> impl Iterator<Item = Level> + Clone + '_ {
        self.0.iter().flatten().copied()
    }

    /// How many there are.
    pub fn depth(&self) -> usize {
        self.iter().count()
    }

    /// Whether a context fits: it is as deep at least, and at each of these levels it has the type,
    /// and the value where that is fixed, or one of the range.
    pub fn fit(&self, context: &Context) -> bool {
        let mut pairs = self.iter().zip(context.levels());
        self.depth() <= context.depth()
            && pairs.all(|(level, (kind, value))| level.fits(kind, value))
    }
}

macro_rules! levels_from_array {
    ($($length:literal)*) => {$(
        impl From<[Level; $length]> for Levels {
            fn from(levels: [Level; $length]) -> Levels {
                Levels::new(&levels).expect("at most four levels")
            }
        }
    )*};
}

levels_from_array! { 0 1 2 3 4 }

impl fmt::Display for Levels {
    fn fmt(&self, f: &mut fmt::Formatter) -> fmt::Result {
        if self.depth() == 0 {
            return f.pad(WHOLE_BUSINESS);
        }
        pad(f, format_args!("{}", List(self.iter())))
    }
}

impl FromStr for Levels {
    type Err = ParseError;

    fn from_str(text: &str) -> Result<Levels, ParseError> {
        if text == WHOLE_BUSINESS {
            return Ok(Levels::default());
        }
        let levels = Levels::new(&list(text)?);
        let levels = levels.ok_or_else(|| ParseError::form("rule's context", text))?;
        exactly(levels, text, "rule's context")
    }
}

#[cfg(test)]
mod tests {
    use super::*;

    const DEPOT: ContextType = ContextType::of(0x0102);

    fn range(low: u16, high: u16) -> Result<Level, BuildError> {
        Level::range(DEPOT, ContextValue::of(low)..=ContextValue::of(high))
    }

    /// The eight bytes of a level: type, mark, zero, value or low, high.
    fn image(mark: u8, value: u16, high: u16) -> [u8; 8] {
        let [value, high] = [value, high].map(u16::to_le_bytes);
        [2, 1, mark, 0, value[0], value[1], high[0], high[1]]
    }

    #[test]
    fn bytes() {
        let value = ContextValue::of(0x0304);
        for (level, bytes) in [
            (Level::fixed(DEPOT, value), image(1, 0x0304, 0)),
            (Level::every(DEPOT), image(2, 0, 0)),
            (Level::each(DEPOT), image(3, 0, 0)),
            (range(100, 199).unwrap(), image(4, 100, 199)),
            (range(0x0304, 0x0506).unwrap(), image(4, 0x0304, 0x0506)),
            (range(1, 65535).unwrap(), image(4, 1, 65535)),
            (range(1, 1).unwrap(), image(4, 1, 1)),
            (range(65535, 65535).unwrap(), image(4, 65535, 65535)),
        ] {
            let mut written = [0; 8];
            level.write(&mut written);
            assert_eq!(written, bytes, "{level}");
            assert_eq!(Level::read(&bytes), Some(level));
        }
    }

    #[test]
    fn bytes_that_are_no_level() {
        for (mark, value, high) in [
            (0, 0, 0),
            (1, 0, 0),
            (4, 0, 0),
            (4, 0, 199),
            (4, 100, 0),
            (4, 199, 100),
            (4, 2, 1),
            // Compared as numbers, and not byte by byte: low is 256, high 255.
            (4, 0x0100, 0x00FF),
            (4, 65535, 65534),
            (5, 100, 199),
            (255, 100, 199),
        ] {
            let bytes = image(mark, value, high);
            assert_eq!(Level::read(&bytes), None, "{bytes:?}");
        }
        let mut bytes = image(4, 100, 199);
        bytes[..2].fill(0);
        assert_eq!(Level::read(&bytes), None);
    }

    #[test]
    fn empty_ranges() {
        for (low, high) in [(2, 1), (199, 100), (65535, 65534), (65535, 1), (256, 255)] {
            let error = range(low, high).unwrap_err();
            let [low, high] = [low, high].map(ContextValue::of);
            assert_eq!(error, BuildError::EmptyRange { low, high });
            let words = format!("{low} to {high} is an empty range: low <= high is asked");
            assert_eq!(error.to_string(), words);
        }
    }

    /// A range can be a constant, as the other levels can.
    #[test]
    fn constants() {
        const NORTH: Result<Level, BuildError> =
            Level::range(DEPOT, ContextValue::of(100)..=ContextValue::of(199));
        assert_eq!(NORTH, range(100, 199));
    }
}
