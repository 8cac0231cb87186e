//! Section 3's own sample, as source document 001 has it, and mended to the form.

use super::given::*;
use super::*;

const SAMPLE: &str = include_str!("section_3.txt");

fn sample_names() -> Vec<Entry> {
    vec![
        entry(TYPE, 1, "Branch"),
        entry(TYPE, 2, "Period"),
        entry(TYPE, 3, "TaxOffice"),
        entry(TYPE, 4, "taxRefundProcess"),
        entry(ROLE, 1, "Teller"),
        entry(ROLE, 2, "Auditor"),
        entry(OPERATION, 1, "CommitAudit"),
        entry(OPERATION, 2, "prepareCheck"),
        entry(OPERATION, 3, "confirmCheck"),
        entry(OPERATION, 4, "approve/disapproveCheck"),
        entry(OPERATION, 5, "combineResults"),
        entry(TARGET, 1, "http://audit.location.com/audit"),
        entry(TARGET, 2, "http://www.myTaxOffice.com/Check"),
        entry(TARGET, 3, "http://secret.location.com/audit"),
        entry(TARGET, 4, "http://secret.location.com/results"),
    ]
}

fn read_sample(texts: &mut Texts, text: &str) -> Result<Vec<u8>, independent::Reply> {
    let list = write_names(&sample_names());
    texts.read(text.as_bytes(), &list, &write_policy(&second()), ROOM)
}

/// The text without its two comments.
fn without_comments() -> String {
    let mut text = SAMPLE.to_string();
    for _ in 0..2 {
        let (from, end) = (text.find("<!--").unwrap(), text.find("-->").unwrap() + 3);
        text.replace_range(from..end, "");
    }
    text
}

/// The first byte that no text of the form has is the `!` of the first comment; without comments, it is
/// the `/` of the policy that ends in `/>`.
#[test]
fn as_it_stands() {
    let texts = &mut Texts::new();
    let at = 69;
    assert_eq!(&SAMPLE[at - 1..at + 6], "<!-- po");
    assert_eq!(read_sample(texts, SAMPLE), Err(refuse(41, at)));

    let text = without_comments();
    let at = text.find("taxRefundProcess=!\"/>").unwrap() + 19;
    assert_eq!(&text[at..at + 2], "/>");
    assert_eq!(read_sample(texts, &text), Err(refuse(41, at)));
}

/// What section 3 says that they mean.
fn sample_rules() -> [Rule; 2] {
    let [check, audit, results] = [2, 3, 4];
    let approve = privilege(4, check);
    let combine = privilege(5, results);
    let steps = [privilege(2, check), privilege(3, audit)];
    let branches = [level(1, Mark::Every), level(2, Mark::Each)];
    let offices = [level(3, Mark::Each), level(4, Mark::Each)];
    let exclusions = [
        privileges(2, &steps),
        privileges(2, &[approve, approve, combine]),
    ];
    [
        Rule {
            last: Some(privilege(1, 1)),
            ..rule(&branches, &[roles(2, &[1, 2])])
        },
        Rule {
            first: Some(steps[0]),
            last: Some(steps[1]),
            ..rule(&offices, &exclusions)
        },
    ]
}

/// With that mended too the two policies are read; written and read again they are the same.
#[test]
fn mended() {
    let texts = &mut Texts::new();
    let text = without_comments().replace("taxRefundProcess=!\"/>", "taxRefundProcess=!\">");
    let given = read_sample(texts, &text).unwrap();
    assert!(given == image(&sample_rules()));
    let list = write_names(&sample_names());
    let written = texts.write(&given, &list, ROOM).unwrap();
    let begins = "<MSoDPolicySet><MSoDPolicy BusinessContext=\"Branch=*,Period=!\"><LastStep ";
    assert!(written.starts_with(begins.as_bytes()));
    let again = texts.read(&written, &list, &given, given.len());
    assert!(again == Ok(given));
}
