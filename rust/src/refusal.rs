//! Why a call was refused: document 01's numbers and places.

/// Why a call was refused: a number of document 01 with its places. Blocks count from 0; rules,
/// exclusions, entries and records from 1.
///
/// It is shown in words, and read from them; [`Line`](crate::Line) shows it by numbers.
///
/// ```
/// use hastovimen::Refusal;
///
/// let refusal = Refusal::ExclusivePrivileges { rule: 1, exclusion: 1 };
/// assert_eq!((refusal.number(), refusal.places()), (33, (1, 1)));
/// let words = "33: rule 1, exclusion 1: the user would have done too many exclusive privileges";
/// assert_eq!(refusal.to_string(), words);
/// assert_eq!(words.parse(), Ok(refusal));
/// ```
#[must_use = "what was refused may not be done"]
#[non_exhaustive]
#[derive(Clone, Copy, PartialEq, Eq, Hash, Debug)]
pub enum Refusal {
    /// 1: the policy's length is not 512 times 1 to 64.
    PolicyLength,
    /// 2: a policy block's check is wrong.
    PolicyCheck {
        /// The block, from 0.
        block: u32,
    },
    /// 3: a policy block's kind, number or total is wrong, a rule stands after a permission block,
    /// or it is rule 33.
    PolicyHeader {
        /// The block, from 0.
        block: u32,
    },
    /// 4: something in a rule block outside header and exclusions is wrong: its depth, its number
    /// of exclusions, a flag, a level, a step, or a byte that is not named.
    Rule {
        /// The block, from 0: rule r is block r - 1.
        block: u32,
    },
    /// 5: an exclusion is wrong, or not zero past the rule's number of them.
    Exclusion {
        /// The block, from 0: rule r is block r - 1.
        block: u32,
        /// The exclusion, from 1.
        exclusion: u32,
    },
    /// 6: a permission block is wrong.
    Permission {
        /// The block, from 0.
        block: u32,
        /// The entry, from 1; 0 for a fault outside the counted entries.
        entry: u32,
    },
    /// 11: the table's length is not 512 times 1 to 128.
    TableLength,
    /// 12: a table block's check is wrong.
    TableCheck {
        /// The block, from 0.
        block: u32,
    },
    /// 13: a table block's kind, number, total or count is wrong, it has records after a gap, or a
    /// spare byte is not zero.
    TableHeader {
        /// The block, from 0.
        block: u32,
    },
    /// 14: the table is of another policy.
    TableStamp {
        /// The block, from 0.
        block: u32,
    },
    /// 15: a record is wrong.
    Record {
        /// The block, from 0.
        block: u32,
        /// The record in it, from 1.
        record: u32,
    },
    /// 21: the request's length is not 28.
    RequestLength,
    /// 22: a field of the request is wrong.
    RequestField,
    /// 21 of a closing: the context's length is not 16.
    ContextLength,
    /// 22 of a closing: a level of the context is wrong, or follows one that is not used.
    ContextField,
    /// 31: no active role has the permission.
    NotPermitted,
    /// 32: with this step the user would have been active in the forbidden number of roles.
    ExclusiveRoles {
        /// The rule, from 1.
        rule: u32,
        /// Its exclusion, from 1.
        exclusion: u32,
    },
    /// 33: with this step the user would have done the forbidden number of privileges.
    ExclusivePrivileges {
        /// The rule, from 1.
        rule: u32,
        /// Its exclusion, from 1.
        exclusion: u32,
    },
    /// 34: the table has no place for the record.
    TableFull,
    /// 41: the text of rules has not the form.
    TextForm {
        /// The first byte, from 0, that no text of the form has after those before it; the length, if
        /// the text stops early. 4294967295 stands for that byte and for all behind it.
        byte: u32,
    },
    /// 42: the list of names is wrong, or lacks a name of the text or, in writing, a number of the
    /// policy.
    Names,
    /// 43: a rule or the policy breaks a limit, no block is left, or the output is too short; in
    /// writing, a level is a range.
    TextLimit,
    /// A number that this wrapper does not know, or places that do not go with it. Only an engine
    /// newer than this crate gives one.
    #[non_exhaustive]
    Other {
        /// The number.
        number: u32,
        /// Its first place.
        first: u32,
        /// Its second place.
        second: u32,
    },
}

impl Refusal {
    /// The refusal of a number and its two places, as every call replies them; none for 0. 21 and 22
    /// are taken for the request's ([`of_context`](Refusal::of_context)).
    pub(crate) fn of(number: u32, first: u32, second: u32) -> Option<Refusal> {
        let known = Refusal::known(number, first, second);
        // A place that the number does not have would be lost.
        let whole = known.filter(|refusal| refusal.places() == (first, second));
        let other = Refusal::Other {
            number,
            first,
            second,
        };
        (number != 0).then_some(whole.unwrap_or(other))
    }

    /// The same refusal where it is a closing's: its 21 and 22 are of the context.
    pub(crate) fn of_context(self) -> Refusal {
        match self {
            Refusal::RequestLength => Refusal::ContextLength,
            Refusal::RequestField => Refusal::ContextField,
            other => other,
        }
    }

    fn known(number: u32, first: u32, second: u32) -> Option<Refusal> {
        let block = first;
        let (rule, exclusion) = (first, second);
        let (entry, record) = (second, second);
        let byte = first;
        Some(match number {
            1 => Refusal::PolicyLength,
            2 => Refusal::PolicyCheck { block },
            3 => Refusal::PolicyHeader { block },
            4 => Refusal::Rule { block },
            5 => Refusal::Exclusion { block, exclusion },
            6 => Refusal::Permission { block, entry },
            11 => Refusal::TableLength,
            12 => Refusal::TableCheck { block },
            13 => Refusal::TableHeader { block },
            14 => Refusal::TableStamp { block },
            15 => Refusal::Record { block, record },
            21 => Refusal::RequestLength,
            22 => Refusal::RequestField,
            31 => Refusal::NotPermitted,
            32 => Refusal::ExclusiveRoles { rule, exclusion },
            33 => Refusal::ExclusivePrivileges { rule, exclusion },
            34 => Refusal::TableFull,
            41 => Refusal::TextForm { byte },
            42 => Refusal::Names,
            43 => Refusal::TextLimit,
            _ => return None,
        })
    }

    /// Document 01's number.
    pub fn number(&self) -> u32 {
        match self {
            Refusal::PolicyLength => 1,
            Refusal::PolicyCheck { .. } => 2,
            Refusal::PolicyHeader { .. } => 3,
            Refusal::Rule { .. } => 4,
            Refusal::Exclusion { .. } => 5,
            Refusal::Permission { .. } => 6,
            Refusal::TableLength => 11,
            Refusal::TableCheck { .. } => 12,
            Refusal::TableHeader { .. } => 13,
            Refusal::TableStamp { .. } => 14,
            Refusal::Record { .. } => 15,
            Refusal::RequestLength | Refusal::ContextLength => 21,
            Refusal::RequestField | Refusal::ContextField => 22,
            Refusal::NotPermitted => 31,
            Refusal::ExclusiveRoles { .. } => 32,
            Refusal::ExclusivePrivileges { .. } => 33,
            Refusal::TableFull => 34,
            Refusal::TextForm { .. } => 41,
            Refusal::Names => 42,
            Refusal::TextLimit => 43,
            Refusal::Other { number, .. } => *number,
        }
    }

    /// The two places that come with it; 0, 0 where there are none.
    pub fn places(&self) -> (u32, u32) {
        match *self {
            Refusal::PolicyCheck { block }
            | Refusal::PolicyHeader { block }
            | Refusal::Rule { block }
            | Refusal::TableCheck { block }
            | Refusal::TableHeader { block }
            | Refusal::TableStamp { block } => (block, 0),
            Refusal::TextForm { byte } => (byte, 0),
            Refusal::Exclusion { block, exclusion } => (block, exclusion),
            Refusal::Permission { block, entry } => (block, entry),
            Refusal::Record { block, record } => (block, record),
            Refusal::ExclusiveRoles { rule, exclusion }
            | Refusal::ExclusivePrivileges { rule, exclusion } => (rule, exclusion),
            Refusal::Other { first, second, .. } => (first, second),
            Refusal::PolicyLength
            | Refusal::TableLength
            | Refusal::RequestLength
            | Refusal::RequestField
            | Refusal::ContextLength
            | Refusal::ContextField
            | Refusal::NotPermitted
            | Refusal::TableFull
            | Refusal::Names
            | Refusal::TextLimit => (0, 0),
        }
    }
}

impl std::error::Error for Refusal {}
