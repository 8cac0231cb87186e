//! What may come next in a text of rules, behind a beginning that has the form.
//!
//! No value of an attribute has `<`, `>` or `"` in it. So the last tag that has ended tells which tags
//! may follow it, and the quotation marks tell how far an unfinished one is.

use crate::text::pad;
use std::fmt;

/// Something that may stand where a text leaves the form ([`XmlError::Form`](crate::XmlError::Form)).
#[non_exhaustive]
#[derive(Clone, Copy, PartialEq, Eq, PartialOrd, Ord, Hash, Debug)]
pub enum Expected {
    /// This word: the beginning of a tag or its end, an attribute, or a sign such as `=`.
    Word {
        /// The whole word.
        word: &'static str,
        /// How many of its bytes stand in front of the place already.
        there: usize,
    },
    /// A character of a name, its first one or a further one.
    Name,
    /// A digit.
    Digit,
    /// White space: a space, a tab, a carriage return or a line feed.
    WhiteSpace,
    /// The end of the text.
    End,
}

impl fmt::Display for Expected {
    fn fmt(&self, f: &mut fmt::Formatter) -> fmt::Result {
        match self {
            Expected::Word { word, .. } => pad(f, format_args!("`{word}`")),
            Expected::Name => f.pad("a character of a name"),
            Expected::Digit => f.pad("a digit"),
            Expected::WhiteSpace => f.pad("white space"),
            Expected::End => f.pad("the end of the text"),
        }
    }
}

/// What an attribute's value is.
#[derive(Clone, Copy)]
enum Value {
    Name,
    Cardinality,
    Context,
}

struct Tag {
    begins: &'static str,
    attributes: &'static [(&'static str, Value)],
    ends: &'static str,
    /// The tags that may come next, once it has ended.
    next: &'static [&'static str],
}

impl Tag {
    /// The element that it is of.
    fn element(&self) -> &'static str {
        self.begins.trim_start_matches(['<', '/'])
    }
}

const SET: &[&str] = &["<MSoDPolicy", "</MSoDPolicySet"];
const EXCLUSIONS: &[&str] = &["<MMER", "<MMEP", "</MSoDPolicy"];
const ROLES: &[&str] = &["<Role", "</MMER"];
const PRIVILEGES: &[&str] = &["<Operation", "</MMEP"];
const STEP: &[(&str, Value)] = &[("operation", Value::Name), ("targetURI", Value::Name)];
const CARDINALITY: &[(&str, Value)] = &[("ForbiddenCardinality", Value::Cardinality)];

const TAGS: [Tag; 12] = [
    tag("<MSoDPolicySet", &[], ">", SET),
    tag(
        "<MSoDPolicy",
        &[("BusinessContext", Value::Context)],
        ">",
        &["<FirstStep", "<LastStep", "<MMER", "<MMEP", "</MSoDPolicy"],
    ),
    tag(
        "<FirstStep",
        STEP,
        "/>",
        &["<LastStep", "<MMER", "<MMEP", "</MSoDPolicy"],
    ),
    tag("<LastStep", STEP, "/>", EXCLUSIONS),
    tag("<MMER", CARDINALITY, ">", ROLES),
    tag(
        "<Role",
        &[("type", Value::Name), ("value", Value::Name)],
        "/>",
        ROLES,
    ),
    tag("</MMER", &[], ">", EXCLUSIONS),
    tag("<MMEP", CARDINALITY, ">", PRIVILEGES),
    tag(
        "<Operation",
        &[("value", Value::Name), ("target", Value::Name)],
        "/>",
        PRIVILEGES,
    ),
    tag("</MMEP", &[], ">", EXCLUSIONS),
    tag("</MSoDPolicy", &[], ">", SET),
    tag("</MSoDPolicySet", &[], ">", &[]),
];

const fn tag(
    begins: &'static str,
    attributes: &'static [(&'static str, Value)],
    ends: &'static str,
    next: &'static [&'static str],
) -> Tag {
    Tag {
        begins,
        attributes,
        ends,
        next,
    }
}

const SPACE: [char; 4] = [' ', '\t', '\r', '\n'];

/// The tag whose beginning stands at the front of a text.
fn tag_at(text: &str) -> Option<&'static Tag> {
    let name = text.split([' ', '\t', '\r', '\n', '>']).next();
    TAGS.iter().find(|tag| Some(tag.begins) == name)
}

/// The last tag that has ended: where it begins, and the element that it is of.
pub(crate) fn last_tag(before: &str) -> Option<(usize, &'static str)> {
    let end = before.rfind('>')?;
    let at = before[..end].rfind('<')?;
    Some((at, tag_at(&before[at..])?.element()))
}

/// All that may come next behind a beginning of some text of the form.
pub(crate) fn expected(before: &str) -> Vec<Expected> {
    let (ended, rest) = before.split_at(before.rfind('>').map_or(0, |end| end + 1));
    let last = ended.rfind('<').and_then(|at| tag_at(&ended[at..]));
    let next = last.map_or(&["<MSoDPolicySet"][..], |tag| tag.next);
    let begun = rest.trim_start_matches(SPACE);
    match tag_at(begun) {
        // At the front `<MSoDPolicy` is a part of `<MSoDPolicySet`, and not a tag.
        Some(tag) if next.contains(&tag.begins) => in_tag(tag, &begun[tag.begins.len()..]),
        _ => {
            let mut all = words(next, begun);
            if next.is_empty() {
                all.push(Expected::End);
            }
            if begun.is_empty() {
                all.push(Expected::WhiteSpace);
            }
            all
        }
    }
}

/// Those of the words that go on from what has been begun.
fn words(words: &[&'static str], begun: &str) -> Vec<Expected> {
    let there = begun.len();
    let fitting = words.iter().filter(|word| word.starts_with(begun));
    fitting.map(|word| Expected::Word { word, there }).collect()
}

fn sign(word: &'static str) -> Expected {
    Expected::Word { word, there: 0 }
}

/// In a tag, behind its name: what stands there is, in turn, outside of quotation marks and a value.
fn in_tag(tag: &Tag, rest: &str) -> Vec<Expected> {
    let pieces: Vec<&str> = rest.split('"').collect();
    let (last, earlier) = pieces
        .split_last()
        .expect("a split gives one piece or more");
    let mut there = earlier.iter().step_by(2).map(|piece| attribute(piece));
    if earlier.len().is_multiple_of(2) {
        let there: Vec<&str> = there.collect();
        let missing = tag.attributes.iter().map(|(name, _)| *name);
        let missing: Vec<_> = missing.filter(|name| !there.contains(name)).collect();
        outside(tag.ends, &missing, last)
    } else {
        let name = there.next_back();
        let found = tag.attributes.iter().find(|(one, _)| Some(*one) == name);
        found.map_or(vec![], |(_, value)| in_value(*value, last))
    }
}

/// The attribute in front of a value, without white space and equals sign.
fn attribute(piece: &str) -> &str {
    piece.trim_matches(|c| c == '=' || SPACE.contains(&c))
}

/// Behind the last value, or the name of the tag.
fn outside(end: &'static str, missing: &[&'static str], piece: &str) -> Vec<Expected> {
    let begun = piece.trim_start_matches(SPACE);
    if begun.contains('=') {
        return vec![sign("\""), Expected::WhiteSpace];
    }
    if missing.contains(&attribute(begun)) {
        return vec![sign("="), Expected::WhiteSpace];
    }
    let mut all = match missing {
        [] => words(&[end], begun),
        // An attribute has white space in front of it.
        _ if piece.is_empty() => vec![],
        _ => words(missing, begun),
    };
    if begun.is_empty() {
        all.push(Expected::WhiteSpace);
    }
    all
}

fn in_value(value: Value, text: &str) -> Vec<Expected> {
    let of_one = |part: Expected| match text {
        "" => vec![part],
        _ => vec![part, sign("\"")],
    };
    match value {
        Value::Name => of_one(Expected::Name),
        Value::Cardinality => of_one(Expected::Digit),
        Value::Context => in_context(text),
    }
}

/// White space stands round commas and equals signs, and not at the two ends.
fn in_context(text: &str) -> Vec<Expected> {
    use Expected::{Name, WhiteSpace};
    let level = text.rsplit(',').next().unwrap_or_default();
    let level = level.trim_start_matches(SPACE);
    let spaced = level.ends_with(SPACE);
    match level.split_once('=') {
        None if text.is_empty() => vec![Name, sign("\"")],
        None if level.is_empty() => vec![Name, WhiteSpace],
        None if spaced => vec![sign("="), WhiteSpace],
        None => vec![Name, sign("="), WhiteSpace],
        Some((_, value)) => match value.trim_start_matches(SPACE) {
            "" => vec![Name, sign("*"), sign("!"), WhiteSpace],
            _ if spaced => vec![sign(","), WhiteSpace],
            "*" | "!" => vec![sign(","), sign("\""), WhiteSpace],
            _ => vec![Name, sign(","), sign("\""), WhiteSpace],
        },
    }
}

#[cfg(test)]
mod tests {
    use super::*;

    /// What is shown of all that may come next.
    fn shown(before: &str) -> String {
        let all = expected(before);
        let all: Vec<String> = all.iter().map(Expected::to_string).collect();
        all.join("; ")
    }

    #[test]
    fn between_tags() {
        assert_eq!(shown(""), "`<MSoDPolicySet`; white space");
        assert_eq!(shown("\n<MSoDPolicy"), "`<MSoDPolicySet`");
        let set = "<MSoDPolicySet>";
        let in_set = "`<MSoDPolicy`; `</MSoDPolicySet`";
        assert_eq!(shown(set), format!("{in_set}; white space"));
        assert_eq!(shown(&format!("{set}\t<")), in_set);
        assert_eq!(shown(&format!("{set}</")), "`</MSoDPolicySet`");
        let end = format!("{set}</MSoDPolicySet >");
        assert_eq!(shown(&end), "the end of the text; white space");
    }

    #[test]
    fn in_rules() {
        let rule = "<MSoDPolicySet><MSoDPolicy BusinessContext=\"\">";
        let first = "<FirstStep operation=\"a\" targetURI=\"b\"/>";
        let last = "<LastStep operation=\"a\" targetURI=\"b\"/>";
        let exclusions = "`<MMER`; `<MMEP`; `</MSoDPolicy`; white space";
        assert_eq!(shown(&format!("{rule}{last}")), exclusions);
        let after_first = format!("`<LastStep`; {exclusions}");
        assert_eq!(shown(&format!("{rule}{first}")), after_first);
        assert_eq!(shown(rule), format!("`<FirstStep`; {after_first}"));
        assert_eq!(shown(&format!("{rule}<MM")), "`<MMER`; `<MMEP`");
        let empty = "<MMER ForbiddenCardinality=\"2\"></MMER>";
        assert_eq!(shown(&format!("{rule}{empty}")), exclusions);
    }

    #[test]
    fn in_tags() {
        let rule = "<MSoDPolicySet><MSoDPolicy BusinessContext=\"\">";
        let step = |text: &str| shown(&format!("{rule}<LastStep{text}"));
        assert_eq!(step(""), "white space");
        assert_eq!(step(" "), "`operation`; `targetURI`; white space");
        assert_eq!(step(" o"), "`operation`");
        assert_eq!(step(" operation"), "`=`; white space");
        assert_eq!(step(" operation = "), "`\"`; white space");
        assert_eq!(step(" operation=\""), "a character of a name");
        assert_eq!(step(" operation=\"a"), "a character of a name; `\"`");
        assert_eq!(step(" operation=\"a\""), "white space");
        assert_eq!(step(" operation=\"a\"\n"), "`targetURI`; white space");
        let both = " targetURI=\"b\" operation=\"a\"";
        assert_eq!(step(both), "`/>`; white space");
        assert_eq!(step(&format!("{both} /")), "`/>`");
    }

    #[test]
    fn in_contexts() {
        let context = |text: &str| {
            shown(&format!(
                "<MSoDPolicySet><MSoDPolicy BusinessContext=\"{text}"
            ))
        };
        let name = "a character of a name";
        assert_eq!(context(""), format!("{name}; `\"`"));
        assert_eq!(context("a"), format!("{name}; `=`; white space"));
        assert_eq!(context("a "), "`=`; white space");
        assert_eq!(context("a= "), format!("{name}; `*`; `!`; white space"));
        assert_eq!(context("a=b"), format!("{name}; `,`; `\"`; white space"));
        assert_eq!(context("a=*"), "`,`; `\"`; white space");
        assert_eq!(context("a=! "), "`,`; white space");
        assert_eq!(context("a=!,"), format!("{name}; white space"));
    }

    /// Which element the last tag is of, and where it begins.
    #[test]
    fn last_tags() {
        assert_eq!(last_tag("<MSoDPolicySet"), None);
        let set = "<MSoDPolicySet>";
        assert_eq!(last_tag(&format!("{set}\n<")), Some((0, "MSoDPolicySet")));
        let end = format!("{set}</MSoDPolicySet >\n");
        assert_eq!(last_tag(&end), Some((15, "MSoDPolicySet")));
    }
}
