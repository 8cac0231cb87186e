//! Lists of names.

use crate::bytes::u16_at;
use crate::image::ReadImage;
use crate::{ContextType, ContextValue, NameKind, Named, NamesError, Operation, Role, Target};
use crate::{MOST_NAMES, NAME};
use std::collections::HashSet;
use std::fmt;

/// How long a name can be.
pub(crate) const LONGEST: usize = 60;

/// A list of names that the engine takes: which name stands for which number in a text of rules
/// ([`Policy::from_xml`](crate::Policy::from_xml), [`Policy::to_xml`](crate::Policy::to_xml)).
///
/// Its image is lent ([`Names::check`]) or its own ([`Names::own`],
/// [`NamesBuilder`](crate::NamesBuilder)). To clone it is cheap: clones share the image.
///
/// ```
/// use hastovimen::{Names, NamesBuilder, Role, Target};
///
/// let names = NamesBuilder::new()
///     .name(Role::of(1), "Teller")
///     .name(Role::of(2), "Auditor")
///     .name(Target::of(1), "http://audit.location.com/audit")
///     .build()?;
/// assert_eq!(names.name_of(Role::of(2)), Some("Auditor"));
/// assert_eq!(names.role("Auditor"), Some(Role::of(2)));
/// assert_eq!(names.target("Auditor"), None);
///
/// let stored = names.image();
/// assert_eq!(stored.len(), 3 * 64);
/// assert_eq!(Names::check(stored)?, names);
/// # Ok::<(), hastovimen::NamesError>(())
/// ```
#[derive(Clone)]
pub struct Names<'n> {
    image: ReadImage<'n>,
}

/// A list of names with an image of its own, which can be kept anywhere.
pub type NamesBuf = Names<'static>;

impl NamesBuf {
    /// Checks an image, and keeps it.
    pub fn own(image: Vec<u8>) -> Result<NamesBuf, NamesError> {
        check(&image)?;
        let image = ReadImage::Shared(image.into());
        Ok(Names { image })
    }
}

impl<'n> Names<'n> {
    /// Checks a lent image: 0 to 1,024 entries of 64 bytes.
    pub fn check(image: &'n [u8]) -> Result<Names<'n>, NamesError> {
        check(image)?;
        let image = ReadImage::Lent(image);
        Ok(Names { image })
    }

    /// The same list with an image of its own; a lent one is copied.
    pub fn into_owned(self) -> NamesBuf {
        let image = self.image.into_owned();
        Names { image }
    }

    /// The image.
    pub fn image(&self) -> &[u8] {
        &self.image
    }

    /// How many names it has.
    pub fn len(&self) -> usize {
        self.image.len() / NAME
    }

    /// Whether it has no name.
    pub fn is_empty(&self) -> bool {
        self.image.is_empty()
    }

    /// Its entries in order: what a name stands for, and the name.
    pub fn iter(&self) -> impl Iterator<Item = (Named, &str)> {
        let entries = self.image.chunks_exact(NAME);
        entries.map(|entry| read(entry).expect("the list was checked"))
    }

    /// The name of a number.
    pub fn name_of(&self, number: impl Into<Named>) -> Option<&str> {
        let wanted = number.into();
        self.iter()
            .find_map(|(named, name)| (named == wanted).then_some(name))
    }

    /// What a name stands for among those of a kind.
    pub fn named(&self, kind: NameKind, name: &str) -> Option<Named> {
        self.iter()
            .find_map(|(named, same)| (named.kind() == kind && same == name).then_some(named))
    }

    /// The context type of this name.
    pub fn context_type(&self, name: &str) -> Option<ContextType> {
        let number = self.named(NameKind::ContextType, name)?.number();
        ContextType::new(number)
    }

    /// The context value of this name.
    pub fn context_value(&self, name: &str) -> Option<ContextValue> {
        let number = self.named(NameKind::ContextValue, name)?.number();
        ContextValue::new(number)
    }

    /// The role of this name. A number above 32, which no policy has, is none; [`Names::named`] has it.
    pub fn role(&self, name: &str) -> Option<Role> {
        let number = self.named(NameKind::Role, name)?.number();
        Role::new(number.try_into().ok()?)
    }

    /// The operation of this name.
    pub fn operation(&self, name: &str) -> Option<Operation> {
        let number = self.named(NameKind::Operation, name)?.number();
        Operation::new(number)
    }

    /// The target of this name.
    pub fn target(&self, name: &str) -> Option<Target> {
        let number = self.named(NameKind::Target, name)?.number();
        Target::new(number)
    }
}

/// Whether the engine would take this list, with what is wrong if not.
fn check(image: &[u8]) -> Result<(), NamesError> {
    if !image.len().is_multiple_of(NAME) || image.len() > MOST_NAMES * NAME {
        return Err(NamesError::Length(image.len()));
    }
    let mut names = HashSet::new();
    let mut numbers = HashSet::new();
    for (i, entry) in (1..).zip(image.chunks_exact(NAME)) {
        let (named, name) = read(entry).ok_or(NamesError::Entry(i))?;
        let kind = named.kind();
        if !names.insert((kind, name)) {
            let name = name.to_owned();
            return Err(NamesError::NameTwice { kind, name });
        }
        if !numbers.insert(named) {
            return Err(NamesError::NumberTwice(named));
        }
    }
    Ok(())
}

fn read(entry: &[u8]) -> Option<(Named, &str)> {
    let kind = NameKind::of(entry[0])?;
    let number = u16_at(entry, 2);
    let (name, zeros) = entry[4..].split_at_checked(entry[1].into())?;
    let name = std::str::from_utf8(name)
        .ok()
        .filter(|name| is_name(name))?;
    let good = number > 0 && zeros.iter().all(|&byte| byte == 0);
    good.then_some((Named::new(kind, number), name))
}

pub(crate) fn is_name(name: &str) -> bool {
    (1..=LONGEST).contains(&name.len()) && name.bytes().all(is_of_name)
}

fn is_of_name(byte: u8) -> bool {
    byte.is_ascii_graphic() && !b"\"&<>=,*!".contains(&byte)
}

/// Two lists are equal if their images are: the same names in the same order.
impl PartialEq for Names<'_> {
    fn eq(&self, other: &Names) -> bool {
        self.image() == other.image()
    }
}

impl Eq for Names<'_> {}

impl fmt::Debug for Names<'_> {
    fn fmt(&self, f: &mut fmt::Formatter) -> fmt::Result {
        let entries = self.iter().map(|(named, name)| (named.to_string(), name));
        f.debug_map().entries(entries).finish()
    }
}
