//! include/sod.h, read as text: each of its numbers and sizes is that of a constant in Rust, and each
//! of its functions is declared there alike.

use hastovimen::*;
use std::collections::BTreeMap;

const HEADER: &str = include_str!("../../include/sod.h");
const RAW: &str = include_str!("../src/raw.rs");

/// What the header defines, by name: `#define SOD_NAME value` and `SOD_NAME = value` in an enum.
fn defined() -> BTreeMap<String, String> {
    let mut defined = BTreeMap::new();
    let text = without_comments(HEADER);
    for line in text.lines() {
        if let Some(definition) = line.trim().strip_prefix("#define ") {
            let (name, value) = definition.split_once(' ').unwrap_or((definition, ""));
            defined.insert(name.to_owned(), value.trim().to_owned());
        }
    }
    for piece in text.split(['\n', ',', '{', '}']) {
        if let Some((name, value)) = piece.split_once('=') {
            defined.insert(name.trim().to_owned(), value.trim().to_owned());
        }
    }
    defined.retain(|name, value| name.starts_with("SOD_") && !value.is_empty());
    defined
}

fn without_comments(text: &str) -> String {
    let mut parts = text.split("/*");
    let mut rest = parts.next().unwrap_or_default().to_owned();
    for part in parts {
        rest += part.split_once("*/").expect("the comment ends").1;
    }
    rest
}

fn refusals() -> [(&'static str, Refusal); 19] {
    let (block, entry, record) = (0, 0, 1);
    let (rule, exclusion) = (1, 1);
    [
        ("SOD_POLICY_LENGTH", Refusal::PolicyLength),
        ("SOD_POLICY_CHECK", Refusal::PolicyCheck { block }),
        ("SOD_POLICY_HEADER", Refusal::PolicyHeader { block }),
        ("SOD_POLICY_RULE", Refusal::Rule { block }),
        (
            "SOD_POLICY_EXCLUSION",
            Refusal::Exclusion { block, exclusion },
        ),
        (
            "SOD_POLICY_PERMISSION",
            Refusal::Permission { block, entry },
        ),
        ("SOD_TABLE_LENGTH", Refusal::TableLength),
        ("SOD_TABLE_CHECK", Refusal::TableCheck { block }),
        ("SOD_TABLE_HEADER", Refusal::TableHeader { block }),
        ("SOD_TABLE_STAMP", Refusal::TableStamp { block }),
        ("SOD_TABLE_RECORD", Refusal::Record { block, record }),
        ("SOD_REQUEST_LENGTH", Refusal::RequestLength),
        ("SOD_REQUEST_FIELD", Refusal::RequestField),
        ("SOD_CONTEXT_LENGTH", Refusal::ContextLength),
        ("SOD_CONTEXT_FIELD", Refusal::ContextField),
        ("SOD_NOT_PERMITTED", Refusal::NotPermitted),
        (
            "SOD_EXCLUSIVE_ROLES",
            Refusal::ExclusiveRoles { rule, exclusion },
        ),
        (
            "SOD_EXCLUSIVE_PRIVILEGES",
            Refusal::ExclusivePrivileges { rule, exclusion },
        ),
        ("SOD_TABLE_FULL", Refusal::TableFull),
    ]
}

const OF_TEXTS: [(&str, Refusal); 3] = [
    ("SOD_TEXT_FORM", Refusal::TextForm { byte: 0 }),
    ("SOD_NAMES", Refusal::Names),
    ("SOD_TEXT_LIMIT", Refusal::TextLimit),
];

const SIZES: [(&str, usize); 11] = [
    ("SOD_STACK", STACK),
    ("SOD_BLOCK", BLOCK),
    ("SOD_REQUEST", Request::LENGTH),
    ("SOD_RECORD", Record::LENGTH),
    ("SOD_CONTEXT", Context::LENGTH),
    ("SOD_NAME", NAME),
    ("SOD_RECORDS_PER_BLOCK", RECORDS_PER_BLOCK),
    ("SOD_MOST_POLICY_BLOCKS", MOST_POLICY_BLOCKS),
    ("SOD_MOST_TABLE_BLOCKS", MOST_TABLE_BLOCKS),
    ("SOD_MOST_NAMES", MOST_NAMES),
    ("SOD_MOST_TEXT", MOST_TEXT),
];

const KINDS: [(&str, NameKind); 5] = [
    ("SOD_CONTEXT_TYPE", NameKind::ContextType),
    ("SOD_CONTEXT_VALUE", NameKind::ContextValue),
    ("SOD_ROLE", NameKind::Role),
    ("SOD_OPERATION", NameKind::Operation),
    ("SOD_TARGET", NameKind::Target),
];

#[test]
fn numbers_and_sizes() {
    let refusals = refusals().into_iter().chain(OF_TEXTS);
    let numbers = refusals.map(|(name, refusal)| (name, refusal.number().to_string()));
    let sizes = SIZES.map(|(name, size)| (name, size.to_string()));
    let kinds = KINDS.map(|(name, kind)| (name, (kind as u8).to_string()));
    let all = numbers.chain(sizes).chain(kinds);
    let mut here: BTreeMap<&str, String> = all.collect();
    let header = defined();
    // A header without a version is from before there was one.
    if header.contains_key("SOD_VERSION") {
        here.insert("SOD_VERSION", format!("{VERSION:?}"));
    }
    for (name, value) in &header {
        let same = here.remove(name.as_str());
        assert_eq!(
            same.as_ref(),
            Some(value),
            "{name} in Rust, and in the header"
        );
    }
    assert!(here.is_empty(), "the header lacks {here:?}");
}

/// The functions of a text that has each of them behind a word: its name, and its parameters.
fn functions<'t>(text: &'t str, word: &str) -> BTreeMap<&'t str, Vec<&'t str>> {
    let functions = text.split(word).skip(1).map(|rest| {
        let (name, rest) = rest.split_once('(').expect("a name");
        let (list, _) = rest.split_once(')').expect("its parameters");
        let parameters = list.split(',').map(str::trim);
        (name, parameters.filter(|one| !one.is_empty()).collect())
    });
    functions.collect()
}

/// A parameter of C, as Rust declares it.
fn in_rust(parameter: &str) -> String {
    let types = [
        ("const uint8_t *", "*const u8"),
        ("uint8_t *", "*mut u8"),
        ("size_t ", "usize"),
    ];
    let found = types.iter().find_map(|(of_c, of_rust)| {
        let name = parameter.strip_prefix(of_c)?;
        Some(format!("{name}: {of_rust}"))
    });
    found.expect(parameter)
}

/// Names, order, and what is lent to be written: a `const` that one of the two lacks would show.
#[test]
fn functions_and_parameters() {
    let header = without_comments(HEADER);
    let (_, raw) = RAW.split_once("extern \"C\" {").expect("declarations");
    let (raw, _) = raw.split_once("\n}").expect("their end");
    let raw = functions(raw, "fn ");
    let header = functions(&header, "sod_reply ");
    assert_eq!(header.len(), 8);
    assert_eq!(
        header.keys().collect::<Vec<_>>(),
        raw.keys().collect::<Vec<_>>()
    );
    for (name, parameters) in header {
        let parameters: Vec<String> = parameters.into_iter().map(in_rust).collect();
        assert_eq!(parameters, raw[name], "{name}");
    }
}
