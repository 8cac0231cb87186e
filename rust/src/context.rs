//! Business contexts.

use crate::bytes::{put_u16, u16_at};
use crate::text::{exactly, list, pad, Cut, List};
use crate::{ContextType, ContextValue, ParseError, Refusal};
use std::fmt;
use std::str::FromStr;

/// What is shown where there is no level, of a request's context as of a rule's.
pub(crate) const WHOLE_BUSINESS: &str = "the whole business";

/// Where in the business a step is taken: up to four levels of type and value, from the outermost
/// on. No levels is the whole business.
///
/// It is made from an array; one of five levels does not build.
///
/// ```
/// use hastovimen::{Context, ContextType, ContextValue};
///
/// const DEPOT: ContextType = ContextType::of(1);
/// const JOB: ContextType = ContextType::of(2);
///
/// let context = Context::from([(DEPOT, ContextValue::of(5)), (JOB, ContextValue::of(90))]);
/// assert_eq!(context.to_string(), "1=5, 2=90");
/// assert_eq!("1=5, 2=90".parse(), Ok(context));
/// assert_eq!(Context::WHOLE_BUSINESS.to_string(), "the whole business");
/// ```
///
/// ```compile_fail
/// use hastovimen::{Context, ContextType, ContextValue};
///
/// let level = (ContextType::of(1), ContextValue::of(1));
/// let context = Context::from([level; 5]);
/// ```
#[derive(Clone, Copy, PartialEq, Eq, Hash, Debug, Default)]
pub struct Context {
    // Used levels come first, as in the image.
    levels: [Option<(ContextType, ContextValue)>; 4],
}

impl Context {
    /// The length of a context's image.
    pub const LENGTH: usize = 16;

    /// The context of no levels.
    pub const WHOLE_BUSINESS: Context = Context { levels: [None; 4] };

    /// The context of these levels, if there are at most four.
    pub fn new(levels: &[(ContextType, ContextValue)]) -> Option<Context> {
        let mut context = Context::WHOLE_BUSINESS;
        if levels.len() > context.levels.len() {
            return None;
        }
        for (place, &level) in context.levels.iter_mut().zip(levels) {
            *place = Some(level);
        }
        Some(context)
    }

    /// The levels that are used.
    pub fn levels(&self) -> impl Iterator<Item = (ContextType, ContextValue)> + Clone + '_ {
        self.levels.iter().flatten().copied()
    }

    /// How many levels are used.
    pub fn depth(&self) -> usize {
        self.levels().count()
    }

    /// Whether it has all levels of the other one at the same places, and perhaps more. These are
    /// the contexts that [`Table::close`](crate::Table::close) closes with the other one.
    ///
    /// ```
    /// use hastovimen::Context;
    ///
    /// let job: Context = "1=5, 2=90".parse()?;
    /// assert!(job.begins_with(&"1=5".parse()?));
    /// assert!(job.begins_with(&job) && job.begins_with(&Context::WHOLE_BUSINESS));
    /// assert!(!job.begins_with(&"2=90".parse()?)); // not at the same place
    /// assert!(!job.begins_with(&"1=5, 2=90, 3=1".parse()?));
    /// # Ok::<(), hastovimen::ParseError>(())
    /// ```
    pub fn begins_with(&self, other: &Context) -> bool {
        self.levels[..other.depth()] == other.levels[..other.depth()]
    }

    /// The context that some bytes are, or the refusal that a closing would give them.
    pub fn read(bytes: &[u8]) -> Result<Context, Refusal> {
        let bytes = bytes.try_into().map_err(|_| Refusal::ContextLength)?;
        Context::read_levels(bytes).ok_or(Refusal::ContextField)
    }

    /// The context's image.
    #[must_use]
    pub fn to_bytes(&self) -> [u8; Context::LENGTH] {
        let mut bytes = [0; Context::LENGTH];
        self.write(&mut bytes);
        bytes
    }

    fn read_levels(bytes: &[u8; Context::LENGTH]) -> Option<Context> {
        let mut levels = [None; 4];
        let mut blank = false;
        for (place, level) in levels.iter_mut().zip(bytes.as_chunks::<4>().0) {
            if *level == [0; 4] {
                blank = true;
                continue;
            }
            if blank {
                return None;
            }
            let kind = ContextType::new(u16_at(level, 0))?;
            *place = Some((kind, ContextValue::new(u16_at(level, 2))?));
        }
        Some(Context { levels })
    }

    pub(crate) fn write(&self, bytes: &mut [u8]) {
        for ((kind, value), level) in self.levels().zip(bytes.as_chunks_mut::<4>().0) {
            put_u16(level, 0, kind.get());
            put_u16(level, 2, value.get());
        }
    }
}

macro_rules! context_from_array {
    ($($length:literal)*) => {$(
        impl From<[(ContextType, ContextValue); $length]> for Context {
            fn from(levels: [(ContextType, ContextValue); $length]) -> Context {
                Context::new(&levels).expect("at most four levels")
            }
        }
    )*};
}

context_from_array! { 0 1 2 3 4 }

/// A level as it is shown: type, equals sign, value.
struct Level(ContextType, ContextValue);

impl fmt::Display for Level {
    fn fmt(&self, f: &mut fmt::Formatter) -> fmt::Result {
        write!(f, "{}={}", self.0, self.1)
    }
}

impl FromStr for Level {
    type Err = ParseError;

    fn from_str(text: &str) -> Result<Level, ParseError> {
        let (kind, value) = text.cut("=", "context level")?;
        Ok(Level(kind.parse()?, value.parse()?))
    }
}

impl fmt::Display for Context {
    fn fmt(&self, f: &mut fmt::Formatter) -> fmt::Result {
        if self.depth() == 0 {
            return f.pad(WHOLE_BUSINESS);
        }
        let levels = self.levels().map(|(kind, value)| Level(kind, value));
        pad(f, format_args!("{}", List(levels)))
    }
}

impl FromStr for Context {
    type Err = ParseError;

    fn from_str(text: &str) -> Result<Context, ParseError> {
        if text == WHOLE_BUSINESS {
            return Ok(Context::WHOLE_BUSINESS);
        }
        let levels = list::<Level>(text)?;
        let levels: Vec<_> = levels.iter().map(|level| (level.0, level.1)).collect();
        let context = Context::new(&levels);
        let context = context.ok_or_else(|| ParseError::form("context", text))?;
        exactly(context, text, "context")
    }
}
