//! 41: each clause of the form, with the byte written down from document 02.

use super::given::*;
use super::*;
use independent::form::States;
use support::lent::Lent;

const WHITE: [char; 4] = [' ', '\t', '\r', '\n'];

/// No state of the form is a dead end, so that a state reached is a text begun.
#[test]
fn every_state_leads_to_an_end() {
    let states = States::of_text();
    let mut leads: Vec<bool> = (0..states.count())
        .map(|state| states.ends(state))
        .collect();
    for _ in 0..states.count() {
        for state in 0..states.count() {
            leads[state] |= states.next(state).iter().any(|&next| leads[next]);
        }
    }
    assert!(leads.iter().all(|&leads| leads));
    assert_eq!(states.count(), 507);
}

#[test]
fn white_space_where_it_may_stand() {
    let texts = &mut Texts::new();
    let rules = spaced_rules();
    let all: String = WHITE.iter().collect();
    for (may, must) in [("", " "), (" ", "\n"), (&all, &all), ("", &all)] {
        reads(texts, &spaced(may, must), &rules);
    }
    let mut places = 0;
    for (at, place) in SPACED.match_indices(['_', '~']) {
        for white in WHITE {
            let (before, behind) = (&SPACED[..at], &SPACED[at + place.len()..]);
            let text = format!("{before}{white}{behind}");
            reads(texts, &text.replace('_', "").replace('~', " "), &rules);
        }
        places += 1;
    }
    assert_eq!(places, 114);
}

/// White space at every other place of the text. Mostly it is itself the bad byte. Within a context it
/// might lead to a comma or an equals sign, so that there it is the byte behind it.
#[test]
fn white_space_anywhere_else() {
    let texts = &mut Texts::new();
    let text = spaced("", " ");
    let allowed = allowed_places();
    let contexts: Vec<usize> = text
        .match_indices("BusinessContext=\"")
        .flat_map(|(at, word)| {
            let from = at + word.len();
            let end = from + text[from..].find('"').unwrap();
            from + 1..=end
        })
        .collect();
    let (mut itself, mut behind) = (0, 0);
    for at in (0..=text.len()).filter(|at| !allowed.contains(at)) {
        for white in WHITE {
            let (one, other) = text.split_at(at);
            if contexts.contains(&at) {
                bad_at(texts, &format!("{one}{white}¦{other}"));
                behind += 1;
            } else {
                bad_at(texts, &format!("{one}¦{white}{other}"));
                itself += 1;
            }
        }
    }
    assert_eq!((itself, behind), (1_784, 68));
}

/// The places of `spaced("", " ")` at which white space may be put.
fn allowed_places() -> Vec<usize> {
    let (mut at, mut allowed) = (0, vec![]);
    for c in SPACED.chars() {
        match c {
            '_' => allowed.push(at),
            // Before the one that must be there, or behind it.
            '~' => {
                allowed.extend([at, at + 1]);
                at += 1;
            }
            _ => at += 1,
        }
    }
    allowed
}

/// None at the two ends of a context, and none within its names.
#[test]
fn white_space_in_contexts() {
    let texts = &mut Texts::new();
    for context in [
        "¦ Branch=*",
        "Branch=* ¦",
        "¦ ",
        "¦\n",
        "Branch=York ¦",
        "Branch= * , Period =! ¦",
        "Bra ¦nch=*",
        "Branch=Yo ¦rk",
        "Branch=* ¦* ",
    ] {
        bad_at(texts, &in_set(&in_rule(context, &good())));
    }
}

/// None within a tag's signs, a word or a value; and where some must be.
#[test]
fn white_space_in_tags() {
    let texts = &mut Texts::new();
    for set in [
        "<¦ MSoDPolicySet></MSoDPolicySet>",
        "<MSoD¦ PolicySet></MSoDPolicySet>",
        "<MSoDPolicySet><¦ /MSoDPolicySet>",
        "<MSoDPolicySet></¦ MSoDPolicySet>",
    ] {
        bad_at(texts, set);
    }
    for role in [
        r#"<Role¦type="x" value="Teller"/>"#,
        r#"<Role type="x"¦value="Teller"/>"#,
        r#"<Role type="¦ x" value="Teller"/>"#,
        r#"<Role type="x¦ " value="Teller"/>"#,
        r#"<Role type="x" value="Tel¦ ler"/>"#,
        r#"<Role type="x" value="Teller"/¦ >"#,
        r#"<Role ty¦ pe="x" value="Teller"/>"#,
    ] {
        let exclusion = mmer("2", &[]).replace("</", &format!("{role}</"));
        bad_at(texts, &in_set(&in_rule("", &exclusion)));
    }
    for m in ["¦ 2", "2¦ ", "¦\t2", "1¦ 2"] {
        bad_at(texts, &in_set(&in_rule("", &mmer(m, &["Teller"]))));
    }
}

/// Only space, tab, CR and LF are white.
#[test]
fn what_is_white() {
    let texts = &mut Texts::new();
    for byte in (0..=255u8).filter(|byte| !b" \t\r\n<".contains(byte)) {
        for (before, behind) in [
            ("", spaced("", " ")),
            ("<MSoDPolicySet>", "</MSoDPolicySet>".into()),
        ] {
            let text = [before.as_bytes(), &[byte], behind.as_bytes()].concat();
            let given = texts.read(&text, &names(), &write_policy(&second()), ROOM);
            assert_eq!(given, Err(refuse(41, before.len())), "{byte}");
        }
    }
}

/// The attributes of an element as they should be, and a text in which `¤` stands for them.
type Tried = (&'static [(&'static str, &'static str)], String);

fn elements() -> [Tried; 6] {
    let rule = |inside: &str| in_set(&in_rule("", inside));
    let good = good();
    let member = r#"<Operation value="both" target="both"/>"#;
    let role = r#"<Role type="x" value="Auditor"/>"#;
    let step = &[("operation", "prepare"), ("targetURI", "check")];
    [
        (
            &[("BusinessContext", "Branch=!")],
            in_set(&format!("<MSoDPolicy¤>{good}</MSoDPolicy>")),
        ),
        (step, rule(&format!("<FirstStep¤/>{good}"))),
        (step, rule(&format!("<LastStep¤/>{good}"))),
        (
            &[("ForbiddenCardinality", "2")],
            rule(&format!("<MMEP¤>{member}{member}</MMEP>")),
        ),
        (
            &[("type", "x"), ("value", "Teller")],
            rule(&format!(
                r#"<MMER ForbiddenCardinality="2">{role}<Role¤/></MMER>"#
            )),
        ),
        (
            &[("value", "prepare"), ("target", "check")],
            rule(&format!(
                r#"<MMEP ForbiddenCardinality="2">{member}<Operation¤/></MMEP>"#
            )),
        ),
    ]
}

fn spelled(attributes: &[(&str, &str)]) -> Vec<String> {
    let spelled = |(name, value): &(&str, &str)| format!(r#" {name}="{value}""#);
    attributes.iter().map(spelled).collect()
}

/// Attributes in each order; none, left out, twice, one more.
#[test]
fn each_attribute_once() {
    let texts = &mut Texts::new();
    let mut bad = 0;
    for (attributes, text) in elements() {
        let all = spelled(attributes);
        let read_as = read(texts, &text.replace('¤', &all.concat()));
        assert!(read_as.is_ok(), "{text}");
        let turned: String = all.iter().rev().cloned().collect();
        assert_eq!(read(texts, &text.replace('¤', &turned)), read_as, "{text}");

        let more = " ¦name=\"x\"";
        // None, with the end of the tag directly behind the name, or behind white space.
        let mut marked = vec!["¦".into(), " ¦".into()];
        marked.push(format!("{more}{}", all.concat()));
        marked.push(format!("{}{more}", all.concat()));
        for one in &all {
            let others: String = all.iter().filter(|other| *other != one).cloned().collect();
            if !others.is_empty() {
                marked.push(format!("{others}¦"));
                marked.push(format!("{others} ¦"));
                // The form asks for the other one.
                marked.push(format!("{one} ¦{}{others}", &one[1..]));
            }
            marked.push(format!("{one}{others} ¦{}", &one[1..]));
        }
        for marked in &marked {
            bad_at(texts, &text.replace('¤', marked));
        }
        bad += marked.len();
    }
    assert_eq!(bad, 2 * 5 + 4 * 12);
}

/// Names of attributes misspelled, and what stands round their values.
#[test]
fn attributes_misspelled() {
    let texts = &mut Texts::new();
    let mut bad = 0;
    for (attributes, text) in elements() {
        for (name, value) in attributes {
            let (most, end) = name.split_at(name.len() - 1);
            let marked = [
                format!(" {most}¦=\"{value}\""),
                format!(" {name}¦s=\"{value}\""),
                format!(" {most}¦{}=\"{value}\"", other_case(end)),
                format!(" ¦xml:{name}=\"{value}\""),
                format!(" {name}¦"),
                format!(" {name}=¦"),
                format!(" {name}=¦'{value}'"),
                format!(" {name}=¦{value}"),
                format!(" {name}¦\"{value}\""),
                format!(" {name} ¦\"{value}\""),
                format!(" {name}=¦=\"{value}\""),
                format!(" {name}=\"{value}\"¦\""),
                format!(" {name}=\"{value}¦>"),
            ];
            for marked in &marked {
                bad_at(texts, &text.replace('¤', marked));
            }
            bad += marked.len();
        }
    }
    assert_eq!(bad, 13 * 10);
}

fn other_case(letter: &str) -> String {
    let upper = letter.to_uppercase();
    if upper == letter {
        letter.to_lowercase()
    } else {
        upper
    }
}

const FIRST: &str = r#"FirstStep operation="prepare" targetURI="check"/>"#;
const LAST: &str = r#"LastStep operation="commit" targetURI="check"/>"#;
const ROLE_TAG: &str = r#"Role type="x" value="Teller"/>"#;
const OPERATION_TAG: &str = r#"Operation value="prepare" target="check"/>"#;

/// Which element may stand in the set, and which is the set.
#[test]
fn elements_in_the_set() {
    let texts = &mut Texts::new();
    let one = with_good("");
    for inside in [
        format!("<¦{FIRST}{one}"),
        format!("<M¦{}", &good()[2..]),
        format!("{one}<MSoDPolicy¦Set></MSoDPolicySet>"),
        format!("{one}</MSoDPolicy¦>"),
        format!("{one}<¦{ROLE_TAG}"),
        format!("{one}¦x"),
    ] {
        bad_at(texts, &in_set(&inside));
    }
    for set in [
        "¦MSoDPolicySet",
        "<MSoDPolicy¦ BusinessContext=\"\"></MSoDPolicy>",
        "<MSoDPolicySet ¦xmlns=\"a\"></MSoDPolicySet>",
        "<¦msodpolicyset></msodpolicyset>",
    ] {
        bad_at(texts, set);
    }
}

/// "A first, then a last step, each optional, stand before the exclusions."
#[test]
fn elements_in_a_rule() {
    let texts = &mut Texts::new();
    let good = good();
    for inside in [
        format!("<{LAST}<¦{FIRST}{good}"),
        format!("<{FIRST}<¦{FIRST}{good}"),
        format!("<{LAST}<¦{LAST}{good}"),
        format!("{good}<¦{FIRST}"),
        format!("{good}<¦{LAST}"),
        format!("<{FIRST}{good}<¦{LAST}"),
        format!("{good}<¦{ROLE_TAG}"),
        format!("{good}<¦{OPERATION_TAG}"),
        format!("{good}<M¦SoDPolicy BusinessContext=\"\"></MSoDPolicy>"),
        format!("{good}</M¦MER>"),
        "<MME¦Q ForbiddenCardinality=\"2\"></MMEQ>".into(),
        "<M¦mer ForbiddenCardinality=\"2\"></Mmer>".into(),
    ] {
        bad_at(texts, &in_set(&in_rule("Branch=*", &inside)));
    }
}

/// Roles stand in an MMER, operations in an MMEP.
#[test]
fn elements_in_an_exclusion() {
    let texts = &mut Texts::new();
    let good = good();
    for (exclusion, inside) in [
        ("MMER", format!("<¦{OPERATION_TAG}</MMER>")),
        ("MMER", format!("<{ROLE_TAG}<¦{OPERATION_TAG}</MMER>")),
        ("MMEP", format!("<¦{ROLE_TAG}</MMEP>")),
        ("MMEP", format!("<{OPERATION_TAG}<¦{ROLE_TAG}</MMEP>")),
        ("MMER", format!("<¦{}</MMER>", &good[1..])),
        ("MMER", format!("<¦{FIRST}</MMER>")),
        ("MMER", "</MME¦P>".into()),
        ("MMEP", "</MME¦R>".into()),
        ("MMER", "</M¦SoDPolicy>".into()),
        ("MMER", "</¦Role>".into()),
    ] {
        let inside = format!("<{exclusion} ForbiddenCardinality=\"2\">{inside}");
        bad_at(texts, &in_set(&in_rule("Branch=*", &inside)));
    }
}

/// "steps and members end in />, all others in an end tag", even if empty.
#[test]
fn how_elements_end() {
    let texts = &mut Texts::new();
    let member = |exclusion: &str, tag: &str| {
        let open = tag.replace("/>", "¦>");
        let name = tag.split(' ').next().unwrap();
        format!("<{exclusion} ForbiddenCardinality=\"2\"><{open}</{name}></{exclusion}>")
    };
    for inside in [
        "<MMER ForbiddenCardinality=\"2\"¦/>".into(),
        "<MMEP ForbiddenCardinality=\"2\" ¦/>".into(),
        format!("<{}</FirstStep>", FIRST.replace("/>", "¦>")),
        format!("<{}</LastStep>", LAST.replace("/>", "¦>")),
        format!("<{FIRST}</¦FirstStep>"),
        member("MMER", ROLE_TAG),
        member("MMEP", OPERATION_TAG),
        format!("{}¦/>", good()),
    ] {
        bad_at(texts, &in_set(&in_rule("", &inside)));
    }
    for text in [
        "<MSoDPolicySet¦/>",
        "<MSoDPolicySet><MSoDPolicy BusinessContext=\"\"¦/></MSoDPolicySet>",
        "<MSoDPolicySet><MSoDPolicy BusinessContext=\"\"></MSoDPolicy ¦BusinessContext=\"\">",
        "<MSoDPolicySet></MSoDPolicySet¦/>",
        "<MSoDPolicySet>¦></MSoDPolicySet>",
    ] {
        bad_at(texts, text);
    }
}

/// "Comments, declarations and entities are not of the form", nor is anything behind the set.
#[test]
fn what_xml_has_besides() {
    let texts = &mut Texts::new();
    let one = with_good("");
    for text in [
        format!("<¦?xml version=\"1.0\"?>{}", in_set(&one)),
        format!("<¦!DOCTYPE MSoDPolicySet>{}", in_set(&one)),
        format!("<¦!-- a comment -->{}", in_set(&one)),
        format!("¦\u{feff}{}", in_set(&one)),
        in_set(&format!("<¦!-- a comment -->{one}")),
        in_set(&format!("{one}<¦![CDATA[]]>")),
        in_set(&format!("{one}¦&#32;")),
        in_set(&in_rule("", &mmer("2", &["Teller¦&amp;", "Auditor"]))),
        in_set(&in_rule("¦&amp;=*", &good())),
        format!("{} ¦<MSoDPolicySet></MSoDPolicySet>", in_set(&one)),
        format!("{}\n¦x", in_set(&one)),
        format!("{}¦\0", in_set(&one)),
        format!("{} ¦<!-- a comment -->", in_set(&one)),
    ] {
        bad_at(texts, &text);
    }
}

/// Texts that stop early give their length: every beginning of a text that names nothing wrong.
#[test]
fn every_beginning() {
    let texts = &mut Texts::new();
    let text = spaced(" ", " ");
    let end = text.trim_end().len();
    for length in 0..end {
        assert_eq!(read(texts, &text[..length]), Err(refuse(41, length)));
    }
    for length in end..=text.len() {
        reads(texts, &text[..length], &spaced_rules());
    }
    assert_eq!(text.len() - end, 1);
}

/// "A name is one or more of the list's bytes": each byte in each kind of name; and none.
#[test]
fn bytes_of_names() {
    let texts = &mut Texts::new();
    let places = [
        in_set(&in_rule("¤=*", &good())),
        in_set(&in_rule("Branch=¤", &good())),
        in_set(&with_good(&first("¤", "check"))),
        in_set(&with_good(&first("prepare", "¤"))),
        in_set(&with_good(&last("¤", "check"))),
        in_set(&with_good(&last("prepare", "¤"))),
        in_set(&in_rule("", &mmer("2", &["¤", "Teller"]))),
        in_set(&in_rule("", &mmep("2", &[("¤", "check")]))),
        in_set(&in_rule("", &mmep("2", &[("prepare", "¤")]))),
        in_set(&in_rule("", &good())).replacen("type=\"role\"", "type=\"¤\"", 1),
    ];
    let mut bad = [0; 10];
    for (place, text) in places.iter().enumerate() {
        let (before, behind) = text.split_once('¤').unwrap();
        bad_at(texts, &format!("{before}¦{behind}"));
        for byte in 0..=255 {
            // The byte alone, and behind a good one.
            for name in [vec![byte], vec![b'z', byte]] {
                let text = [before.as_bytes(), &name, behind.as_bytes()].concat();
                let given = texts.read(&text, &names(), &write_policy(&second()), ROOM);
                let reply = given.err().map_or(0, |reply| reply.number);
                let of_name = (33..=126).contains(&byte) && !b"\"&<>=,*!".contains(&byte);
                assert_eq!(
                    reply == 41,
                    !of_name && !leads_on(place, byte, &name),
                    "{place} {byte}"
                );
                bad[place] += usize::from(reply == 41);
            }
        }
    }
    assert_eq!(bad, [336, 338, 340, 340, 340, 340, 340, 340, 340, 340]);
}

/// A byte that is of no name and yet of the form there: in a context white space behind a name, and `*`
/// and `!` for a value.
fn leads_on(place: usize, byte: u8, name: &[u8]) -> bool {
    match place {
        0 => name.len() == 2 && b" \t\r\n".contains(&byte),
        1 => name.len() == 1 && b"*!".contains(&byte),
        _ => false,
    }
}

/// "A value of * is mark 2, ! is mark 3, a name mark 1", and each level may be like another.
#[test]
fn contexts() {
    let texts = &mut Texts::new();
    let (every, each) = (level(1, Mark::Every), level(2, Mark::Each));
    let four = "Period=!,Branch=*,Period=!,Branch=*";
    for (context, levels) in [
        ("", vec![]),
        ("Branch=*", vec![every]),
        ("Period=!", vec![each]),
        ("Branch=York", vec![level(1, Mark::Fixed(1))]),
        ("Hour=Leeds", vec![level(65535, Mark::Fixed(65535))]),
        ("both=both", vec![level(6, Mark::Fixed(7))]),
        ("Branch=*,Branch=*", vec![every, every]),
        (four, vec![each, every, each, every]),
        ("Branch\t=\r\n* \n,\tPeriod = !", vec![every, each]),
    ] {
        let expected = rule(&levels, &[roles(2, &[1, 2])]);
        reads(texts, &in_set(&in_rule(context, &good())), &[expected]);
    }
}

/// Contexts by their signs. A semicolon and a single quote are bytes of a name.
#[test]
fn signs_of_contexts() {
    let texts = &mut Texts::new();
    let one_level =
        "¦, ¦= ¦* ¦! ¦=* Branch¦ Branch=¦ Branch¦* Branch=¦=York Branch=*¦= Branch=*¦* \
                     Branch=!¦* Branch=*¦York Branch=York¦* Branch=York¦! Branch='York'¦=York";
    let two_levels =
        "Branch¦,Period=* Branch=¦, Branch=*,¦ Branch=*,¦,Period=* Branch=*¦;Period=! \
                      Branch=York;Period¦=!";
    let spaced = ["Branch=*, ¦", "Branch=* ¦Period=!", "Branch ¦York"];
    let bad = one_level.split(' ').chain(two_levels.split(' '));
    let mut count = 0;
    for context in bad.chain(spaced) {
        bad_at(texts, &in_set(&in_rule(context, &good())));
        count += 1;
    }
    assert_eq!(count, 25);
}

/// A text with this for m of two members.
fn with_m(digits: &str) -> String {
    in_set(&in_rule("", &mmer(digits, &["Teller", "Auditor"])))
}

/// "a cardinality one or more digits": leading zeros are read, and too large a number breaks the limits.
#[test]
fn digits() {
    let texts = &mut Texts::new();
    let zeros = "0".repeat(1_000);
    for digits in ["2", "02", "002", &format!("{zeros}2")] {
        reads(texts, &with_m(digits), &[rule(&[], &[roles(2, &[1, 2])])]);
    }
    let large = format!("1{zeros}");
    let beyond = ["65538", "4294967298", "9999999999999", &large];
    // 2 above what 64 and 128 bits hold.
    let far_beyond = [
        "18446744073709551618",
        "340282366920938463463374607431768211458",
    ];
    let small = "0 00 1 01 3 9 10 12 20 22 200 255 256 258".split(' ');
    for digits in small.chain(beyond).chain(far_beyond) {
        gives(texts, &with_m(digits), 43);
    }
}

#[test]
fn what_is_no_digit() {
    let texts = &mut Texts::new();
    for digits in [
        "¦", "¦+2", "¦-2", "2¦.0", "¦two", "2¦x", "0¦x2", "¦²", "¦٢", "2¦,", "2¦=", "¦*", "¦!",
        "2¦;", "2¦:", "2¦/",
    ] {
        bad_at(texts, &with_m(digits));
    }
}

/// What is only read lies in pages that may not be written to.
#[test]
fn what_is_read_is_not_written_to() {
    let (text, list) = (spaced(" ", " "), names());
    let second = write_policy(&second());
    let lent = [text.as_bytes(), &list, &second].map(Lent::read_only);
    let [text, list, second] = lent.each_ref().map(Lent::bytes);
    let mut output = vec![0; ROOM];
    let reply = support::engine::read_rules(text, list, second, &mut output);
    let expected = image(&spaced_rules());
    assert_eq!(reply, independent::Reply::accept(expected.len()));
    assert!(output[..expected.len()] == expected);
    let policy = Lent::read_only(&expected);
    let reply = support::engine::write_rules(policy.bytes(), list, &mut output);
    assert_eq!(reply.number, 0);
}
