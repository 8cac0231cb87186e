//! examples/keep.rs: the sample session from files, opened twice; many at once; what is damaged.

#[path = "../examples/keep.rs"]
#[allow(dead_code)]
mod keep;

use hastovimen::*;
use keep::{keep, Keeper};
use std::fs;
use std::path::{Path, PathBuf};
use std::thread;

const LINES: &str = include_str!("../../examples/session.expected");
const CLOSED: &str = include_str!("../../examples/closing.expected");
const POLICY: &str = include_str!("sample/policy");
const REQUESTS: &str = include_str!("sample/requests");
const CLOSINGS: &str = include_str!("sample/closings");

/// A folder that goes with this value.
struct Folder(PathBuf);

impl Folder {
    fn new(name: &str, policy: &[u8]) -> Folder {
        let path = Path::new(env!("CARGO_TARGET_TMPDIR")).join(name);
        let _ = fs::remove_dir_all(&path);
        fs::create_dir_all(&path).unwrap();
        fs::write(path.join("policy"), policy).unwrap();
        Folder(path)
    }

    fn file(&self, name: &str) -> PathBuf {
        self.0.join(name)
    }
}

impl Drop for Folder {
    fn drop(&mut self) {
        let _ = fs::remove_dir_all(&self.0);
    }
}

fn sample_policy() -> Vec<u8> {
    POLICY.parse::<PolicyBuilder>().unwrap().build().unwrap()
}

/// The first eight requests, then the others by a keeper that knows the files alone. tools/outside
/// does the same with the program.
#[test]
fn sample_session() {
    let folder = Folder::new("keep_session", &sample_policy());
    let requests: Vec<&str> = REQUESTS.lines().collect();
    let mut output = vec![];
    for part in requests.chunks(8) {
        keep(&folder.0, part.join("\n").as_bytes(), &mut output).unwrap();
    }
    let answers = String::from_utf8(output).unwrap();
    let numbered: Vec<String> = (1..)
        .zip(answers.lines())
        .map(|(ordinal, answer)| format!("{ordinal} {answer}"))
        .collect();
    assert_eq!(numbered, LINES.lines().collect::<Vec<_>>());

    let policy = Policy::own(sample_policy()).unwrap();
    let table = policy.own_table(fs::read(folder.file("table")).unwrap());
    let table = table.unwrap();
    assert_eq!((table.held(), table.places()), (5, 60));
    assert!(!folder.file("table.new").exists());
}

/// After the sample session depot 5 shuts. A closing is stored: the next keeper knows of it.
#[test]
fn closings() {
    let folder = Folder::new("keep_closings", &sample_policy());
    let answer = |input: &str| {
        let mut output = vec![];
        keep(&folder.0, input.as_bytes(), &mut output).unwrap();
        String::from_utf8(output).unwrap()
    };
    let mut lines = answer(REQUESTS).lines().count();
    for (asked, told) in CLOSINGS.lines().zip(CLOSED.lines()) {
        lines += 1;
        assert_eq!(format!("{lines} {}", answer(asked)), format!("{told}\n"));
    }
    assert_eq!(lines, 19);
    assert_eq!(answer("close the whole business"), "removed 1\n");
}

/// Four at once: what one is granted, no other one overwrites.
#[test]
fn at_the_same_time() {
    let folder = Folder::new("keep_many", &sample_policy());
    let check = Operation::of(2).on(Target::of(1));
    let job = |job| {
        [
            (ContextType::of(1), ContextValue::of(5)),
            (ContextType::of(2), ContextValue::of(job)),
        ]
    };
    thread::scope(|scope| {
        for user in 1..=4 {
            let folder = &folder;
            scope.spawn(move || {
                let keeper = Keeper::open(&folder.0).unwrap();
                for number in 1..=10 {
                    let request = Request::new(User::of(user), Role::of(2), check, job(number));
                    let granted = keeper.decide(&request).unwrap().unwrap();
                    assert!(granted.recorded);
                    let again = keeper.decide(&request).unwrap().unwrap_err();
                    assert_eq!(again.number(), 33);
                }
            });
        }
    });
    let policy = Policy::own(sample_policy()).unwrap();
    let table = policy.own_table(fs::read(folder.file("table")).unwrap());
    assert_eq!(table.unwrap().held(), 40);
}

/// A damaged table is refused and left as it is; a new one is not begun in its place.
#[test]
fn damaged_table() {
    let folder = Folder::new("keep_damaged", &sample_policy());
    let request = REQUESTS.lines().next().unwrap();
    keep(&folder.0, request.as_bytes(), vec![]).unwrap();
    let mut table = fs::read(folder.file("table")).unwrap();
    table[30] ^= 1;
    fs::write(folder.file("table"), &table).unwrap();
    let error = keep(&folder.0, request.as_bytes(), vec![]).unwrap_err();
    assert_eq!(error.to_string(), "12: table block 0: the check is wrong");
    assert_eq!(fs::read(folder.file("table")).unwrap(), table);
}
