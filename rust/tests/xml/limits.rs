//! 42 and 43 in reading: each with the place at which it is tested, and which of several comes first.

use super::given::*;
use super::*;

/// The number is given at the tag whose `>` stands before `§`, which is not a part of the text: with all
/// of the text, with none of what stands behind, and with something there that is not of the form. As
/// long as that `>` is missing, it is a 41.
pub fn gives_at(texts: &mut Texts, marked: &str, number: usize) {
    let (before, behind) = marked.split_once('§').expect("a mark");
    gives(texts, &format!("{before}{behind}"), number);
    gives(texts, before, number);
    gives(texts, &format!("{before}&{behind}"), number);
    let open = before.strip_suffix('>').expect("the end of a tag");
    assert_eq!(read(texts, open), Err(refuse(41, open.len())), "{marked}");
    let bad = format!("{open}&>{behind}");
    assert_eq!(read(texts, &bad), Err(refuse(41, open.len())), "{marked}");
}

/// The number is given at the first such tag of a set that has this in it.
fn at(texts: &mut Texts, number: usize, tag: &str, inside: &str) {
    let text = in_set(inside);
    assert!(text.contains(tag), "{tag}");
    gives_at(texts, &text.replacen(tag, &format!("{tag}§"), 1), number);
}

/// The same of a rule without a level.
fn at_in_rule(texts: &mut Texts, number: usize, tag: &str, inside: &str) {
    at(texts, number, tag, &in_rule("", inside));
}

const EXCLUSION: &str = "</MMER>";
const RULE: &str = "</MSoDPolicy>";

/// Unknown; in other letters; a part of a name; of another kind; as long as may be.
#[test]
fn roles_and_contexts_that_are_not_listed() {
    let texts = &mut Texts::new();
    let long = "n".repeat(60);
    for name in [
        "unknown", "teller", "Telle", "Tellers", "prepare", "Branch", "York", "check", &long,
    ] {
        let tag = format!(r#"value="{name}"/>"#);
        at_in_rule(texts, 42, &tag, &mmer("2", &["Auditor", name]));
    }
    for context in [
        "branch=*",
        "York=*",
        "Branch=york",
        "Branch=Branch",
        "Branch=*,Perio=!",
        "Branch=York,Period=Yor",
    ] {
        at(texts, 42, RULE, &in_rule(context, &good()));
    }
}

/// The same of operations and targets, in steps and in members.
#[test]
fn privileges_that_are_not_listed() {
    let texts = &mut Texts::new();
    let operations = ["unknown", "Prepare", "prepar", "prepares", "Teller", "York"];
    let targets = ["unknown", "Check", "chec", "checks", "Teller", "York"];
    let bad = operations.map(|name| (name, "check"));
    let also_bad = targets.map(|name| ("prepare", name));
    let changed = [("check", "check"), ("prepare", "prepare")];
    for (operation, target) in bad.into_iter().chain(also_bad).chain(changed) {
        for step in [first(operation, target), last(operation, target)] {
            at(texts, 42, &step, &with_good(&step));
        }
        let tag = format!(r#"<Operation value="{operation}" target="{target}"/>"#);
        let members = mmep("2", &[("both", "both"), (operation, target)]);
        at_in_rule(texts, 42, &tag, &members);
    }
}

/// A name longer than any that can be listed is of the form, and is not found by a part of it.
#[test]
fn names_of_61_bytes() {
    let texts = &mut Texts::new();
    let sixty = "n".repeat(60);
    let mut entries = entries();
    entries.push(entry(ROLE, 3, &sixty));
    let list = write_names(&entries);
    let second = write_policy(&second());
    for (name, expected) in [
        (sixty.clone(), None),
        (format!("{sixty}n"), Some(refuse(42, 0))),
        (sixty.repeat(10), Some(refuse(42, 0))),
        (sixty[1..].into(), Some(refuse(42, 0))),
    ] {
        let text = in_set(&in_rule("", &mmer("2", &["Teller", &name])));
        let given = texts.read(text.as_bytes(), &list, &second, ROOM);
        assert_eq!(given.err(), expected, "{name}");
    }
}

/// "2 <= m <= n <= 8", "roles 1 to 32", "no role twice".
#[test]
fn limits_of_exclusions() {
    let texts = &mut Texts::new();
    let outsider = mmer("2", &["Teller", "outsider"]);
    at_in_rule(texts, 43, r#"value="outsider"/>"#, &outsider);
    let roles = ["Teller", "Auditor"];
    for (m, members) in [
        ("0", &roles[..]),
        ("1", &roles),
        ("3", &roles),
        ("2", &roles[..1]),
        ("2", &[]),
        ("0", &[]),
        ("2", &["Teller", "Teller"]),
        ("2", &["Teller", "Auditor", "Clerk", "Auditor"]),
    ] {
        at_in_rule(texts, 43, EXCLUSION, &mmer(m, members));
    }
    let sizes = [(1, 2), (3, 2), (9, 8), (2, 1), (2, 0)];
    let too_many = [(2, 9), (9, 9), (2, 300), (300, 300)];
    for (m, n) in sizes.into_iter().chain(too_many) {
        let members = mmep(&m.to_string(), &vec![("both", "both"); n]);
        at_in_rule(texts, 43, "</MMEP>", &members);
    }
}

/// "depth 0 to 4", "exclusions, 1 to 8", steps that "are not equal".
#[test]
fn limits_of_rules() {
    let texts = &mut Texts::new();
    let five = ["Branch=*"; 5].join(",");
    let many = ["Branch=York"; 300].join(" , ");
    for context in [&five, &many] {
        at(texts, 43, RULE, &in_rule(context, &good()));
    }
    for exclusions in [0, 9, 10, 257, 264] {
        at_in_rule(texts, 43, RULE, &good().repeat(exclusions));
    }
    let equal = first("prepare", "check") + &last("prepare", "check");
    at(texts, 43, RULE, &with_good(&equal));
}

/// Just within the limits: eight and four, and repeats of a privilege stand.
#[test]
fn just_within_the_limits() {
    let texts = &mut Texts::new();
    let eight = mmep("8", &[("both", "both"); 8]);
    let context = "Branch=*,Period=!,Desk=York,Day=*";
    let text = in_set(&in_rule(context, &eight.repeat(8)));
    let levels = [
        level(1, Mark::Every),
        level(2, Mark::Each),
        level(3, Mark::Fixed(1)),
        level(4, Mark::Every),
    ];
    let exclusion = privileges(8, &[privilege(9, 10); 8]);
    reads(texts, &text, &[rule(&levels, &vec![exclusion; 8])]);
}

/// Steps that differ in one half are two steps; each may stand alone.
#[test]
fn steps() {
    let texts = &mut Texts::new();
    let (one, same_target) = (("prepare", "check"), ("commit", "check"));
    let same_operation = ("prepare", "till");
    let number = |step| match step {
        ("prepare", "check") => privilege(1, 2),
        ("commit", "check") => privilege(65535, 2),
        _ => privilege(1, 65535),
    };
    for (begin, end) in [
        (Some(one), Some(same_target)),
        (Some(one), Some(same_operation)),
        (Some(one), None),
        (None, Some(one)),
        (None, None),
    ] {
        let begins = begin.map_or(String::new(), |step| first(step.0, step.1));
        let ends = end.map_or(String::new(), |step| last(step.0, step.1));
        let expected = Rule {
            first: begin.map(number),
            last: end.map(number),
            ..rule(&[level(1, Mark::Every)], &[roles(2, &[1, 2])])
        };
        reads(texts, &in_set(&with_good(&(begins + &ends))), &[expected]);
    }
}

/// Exclusions of both kinds in any mix, in the order in which they stand.
#[test]
fn exclusions_in_any_mix() {
    let texts = &mut Texts::new();
    let of_roles = (good(), roles(2, &[1, 2]));
    let members = [privilege(9, 10), privilege(1, 2)];
    let of_privileges = (
        mmep("2", &[("both", "both"), ("prepare", "check")]),
        privileges(2, &members),
    );
    for mix in 0..16 {
        let (mut inside, mut exclusions) = (String::new(), vec![]);
        for i in 0..4 {
            let (text, exclusion) = match mix >> i & 1 {
                0 => &of_roles,
                _ => &of_privileges,
            };
            inside += text;
            exclusions.push(exclusion.clone());
        }
        reads(
            texts,
            &in_set(&in_rule("", &inside)),
            &[rule(&[], &exclusions)],
        );
    }
}

/// At one end tag: a context's names come before depth, exclusions and steps.
#[test]
fn names_before_limits() {
    let texts = &mut Texts::new();
    let equal = first("prepare", "check") + &last("prepare", "check");
    let five = "unknown=*,Branch=*,Branch=*,Branch=*,Branch=*";
    let sixth = "Branch=*,Branch=*,Branch=*,Branch=*,Branch=*,Branch=unknown";
    for (context, inside) in [
        (five, good()),
        (sixth, good()),
        ("Branch=unknown", String::new()),
        ("unknown=!", good().repeat(9)),
        ("unknown=*", equal + &good()),
    ] {
        at(texts, 42, RULE, &in_rule(context, &inside));
    }
}

/// Otherwise what stands first.
#[test]
fn which_comes_first() {
    let texts = &mut Texts::new();
    let [unknown, outsider] = ["unknown", "outsider"].map(|name| format!(r#"value="{name}"/>"#));
    // A limit before a name.
    let m_is_1 = mmer("1", &["Teller", "Auditor"]);
    at(texts, 43, EXCLUSION, &in_rule("unknown=*", &m_is_1));
    at_in_rule(texts, 43, &outsider, &mmer("2", &["outsider", "unknown"]));
    let five = in_rule(&["Branch=*"; 5].join(","), &good());
    let other_rule = with_good(&first("unknown", "check"));
    at(texts, 43, RULE, &format!("{five}{other_rule}"));
    // A name before a limit.
    at_in_rule(texts, 42, &unknown, &mmer("1", &["Teller", "unknown"]));
    let mut nine = ["Teller"; 9];
    nine[8] = "unknown";
    at_in_rule(texts, 42, &unknown, &mmer("2", &nine));
    let ninth = good().repeat(8) + &mmer("2", &["Teller", "unknown"]);
    at_in_rule(texts, 42, &unknown, &ninth);
    let steps = first("prepare", "check") + &last("prepare", "unknown");
    at(texts, 42, r#"targetURI="unknown"/>"#, &with_good(&steps));
    // A name in rule 33 before the number of rules.
    let unknown = in_rule("Branch=unknown", &good());
    let rules = with_good("").repeat(32);
    gives_at(texts, &in_set(&format!("{rules}{unknown}§")), 42);
    // A 41 before both.
    bad_at(
        texts,
        &in_set(&in_rule("unknown=*", &mmer("1¦\u{e9}", &[]))),
    );
}
