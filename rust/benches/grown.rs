//! Texts that grow to twice, four and eight times their length: W5's issue asks that reading be linear in
//! the text.
//!
//! White space grows in the text of the largest policy, with its list of 1,024 names. It and all else that
//! may be any in number, or of any length, grows also with section 3's list of 20 names, so that the text
//! and not the list takes the time. These texts end in a refusal, for they break a limit.

use super::texts::Texts;
use super::*;

const TIMES: [usize; 4] = [1, 2, 4, 8];

/// What grows, in texts of some 40,000 bytes and so many times as much, and the number that they get.
struct Part {
    name: &'static str,
    text: fn(usize) -> String,
    number: usize,
}

const PARTS: [Part; 7] = [
    Part {
        name: "white space",
        text: |times| {
            set(&rule(
                "",
                &exclusion("2", &" \t\r\n".repeat(10_000 * times)),
            ))
        },
        number: 43,
    },
    Part {
        name: "bytes of a name",
        text: |times| {
            let name = "a".repeat(40_000 * times);
            set(&rule("", &exclusion("2", &member(&name))))
        },
        number: 42,
    },
    Part {
        name: "digits",
        text: |times| set(&rule("", &exclusion(&"0".repeat(40_000 * times), ""))),
        number: 43,
    },
    Part {
        name: "members",
        text: |times| {
            set(&rule(
                "",
                &exclusion("2", &member("Teller").repeat(1_250 * times)),
            ))
        },
        number: 43,
    },
    Part {
        name: "levels",
        text: |times| {
            let levels = ["Branch=Branch-1"].repeat(2_500 * times).join(",");
            set(&rule(&levels, &two_roles()))
        },
        number: 43,
    },
    Part {
        name: "exclusions",
        text: |times| set(&rule("", &two_roles().repeat(375 * times))),
        number: 43,
    },
    Part {
        name: "rules",
        text: |times| set(&rule("Branch=*", &two_roles()).repeat(250 * times)),
        number: 43,
    },
];

fn set(rules: &str) -> String {
    format!("<MSoDPolicySet>{rules}</MSoDPolicySet>")
}

fn rule(context: &str, exclusions: &str) -> String {
    format!("<MSoDPolicy BusinessContext=\"{context}\">{exclusions}</MSoDPolicy>")
}

fn exclusion(m: &str, members: &str) -> String {
    format!("<MMER ForbiddenCardinality=\"{m}\">{members}</MMER>")
}

fn member(role: &str) -> String {
    format!("<Role type=\"role\" value=\"{role}\"/>")
}

fn two_roles() -> String {
    exclusion("2", &(member("Teller") + &member("Auditor")))
}

/// The text with white space at every place that a sign or a tag gives it, until it is so many times as
/// long.
fn spread(text: &[u8], times: usize) -> Vec<u8> {
    let may_precede = |byte: &u8| b"<=, ".contains(byte);
    let places = text.iter().filter(|byte| may_precede(byte)).count();
    let more = text.len() * (times - 1);
    let (each, left) = (more / places, more % places);
    let mut spread: Vec<u8> = b" ".repeat(left);
    for byte in text {
        if may_precede(byte) {
            spread.extend(b" \t\r\n".iter().cycle().take(each));
        }
        spread.push(*byte);
    }
    assert_eq!(spread.len(), times * text.len());
    spread
}

/// Prints, for each text that grows, the time of a call, and what each byte costs that it has more than the
/// shortest.
pub fn table(texts: &Texts) {
    println!(
        "| {:<20} | {:>7} | {:>8} | {:>8} | {:>11} | {:>15} | {:>13} |",
        "what grows", "bytes", "engine", "Rust", "engine/Rust", "engine, ns/byte", "Rust, ns/byte"
    );
    println!(
        "|-{:-<20}-|{:->9}|{:->10}|{:->10}|{:->13}|{:->17}|{:->15}|",
        "", ":", ":", ":", ":", ":", ":"
    );
    let largest = texts.privileges.read();
    let spread = TIMES.map(|times| Workload {
        request: spread(&largest.request, times),
        ..largest.clone()
    });
    rows("white space, largest", &spread);
    for Part { name, text, number } in &PARTS {
        let refused = Reply::refuse(*number, 0, 0);
        let grown = TIMES.map(|times| texts.section_3.reading(text(times).as_bytes(), refused));
        rows(name, &grown);
    }
}

fn rows(name: &str, grown: &[Workload]) {
    let measured = measure(grown);
    let shortest = grown[0].request.len();
    for (workload, times) in grown.iter().zip(&measured) {
        let (bytes, [engine, rust]) = (workload.request.len(), times);
        print!(
            "| {name:<20} | {bytes:>7} | {engine:>8.1} | {rust:>8.1} | {:>11.2} |",
            engine / rust
        );
        if bytes == shortest {
            println!(" {:>15} | {:>13} |", "", "");
        } else {
            let more = |i: usize| (times[i] - measured[0][i]) * 1e3 / (bytes - shortest) as f64;
            println!(" {:>15.3} | {:>13.3} |", more(0), more(1));
        }
    }
}

/// Microseconds for engine and Rust. All lengths are measured in the same rounds, for they are subtracted.
fn measure(grown: &[Workload]) -> Vec<[f64; 2]> {
    grown.iter().for_each(Workload::agree);
    let mut tables: Vec<_> = grown.iter().map(Workload::copies).collect();
    let mut times: Vec<[Vec<f64>; 2]> = grown.iter().map(|_| Default::default()).collect();
    for _ in 0..ROUNDS / 5 {
        for (i, workload) in grown.iter().enumerate() {
            times[i][0].push(workload.time(&mut tables[i], |w, table| w.by_engine(table)));
            times[i][1].push(workload.time(&mut tables[i], |w, table| w.by_rust(table)));
        }
    }
    times.into_iter().map(|times| times.map(median)).collect()
}
