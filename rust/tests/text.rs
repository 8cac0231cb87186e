//! Whatever is shown as text is read from it, and from no other text; and it goes by the width and
//! alignment of a format string as any text does.

mod independent;
mod support;

use hastovimen::*;
use std::fmt::{Debug, Display};
use std::str::FromStr;
use support::chance::Chance;
use support::world::World;
use support::wrapped::{privilege, request, rule};

/// How many altered texts were read, and how many not.
#[derive(Default)]
struct Altered {
    read: usize,
    not_read: usize,
}

impl Altered {
    /// Shows a value and reads it back, then alters the text: what is read of it shows just that.
    fn try_out<T>(&mut self, chance: &mut Chance, value: &T)
    where
        T: Display + FromStr<Err = ParseError> + PartialEq + Debug,
    {
        let text = value.to_string();
        assert_eq!(text.parse().as_ref(), Ok(value), "{text}");
        for _ in 0..4 {
            let altered = alter(chance, &text);
            match altered.parse::<T>() {
                Ok(other) => {
                    assert_eq!(other.to_string(), altered);
                    assert_eq!(other == *value, altered == text);
                    self.read += 1;
                }
                Err(error) => {
                    assert_ne!(altered, text);
                    assert!(!error.to_string().is_empty());
                    self.not_read += 1;
                }
            }
        }
    }
}

/// Alters a character or two: most are put in from the text itself, as these do the most harm.
fn alter(chance: &mut Chance, text: &str) -> String {
    let mut characters: Vec<char> = text.chars().collect();
    let strange = ['0', '1', '9', '+', '-', ' ', '\n', ',', '=', '!', 'é', 's'];
    loop {
        let at = chance.below(characters.len() + 1);
        let new = match chance.below(2) {
            0 => chance.pick(&strange),
            _ => chance.pick(&text.chars().collect::<Vec<_>>()),
        };
        match chance.below(3) {
            0 => characters.insert(at, new),
            1 if at < characters.len() => characters[at] = new,
            _ if at < characters.len() => drop(characters.remove(at)),
            _ => {}
        }
        if chance.percent(70) {
            return characters.iter().collect();
        }
    }
}

/// Shown with a width, an alignment, a fill and a precision, as its text is.
fn as_its_text(value: &impl Display) {
    let text = value.to_string();
    assert_eq!(format!("{value:>90}"), format!("{text:>90}"));
    assert_eq!(format!("{value:<90}|"), format!("{text:<90}|"));
    assert_eq!(format!("{value:*^91}"), format!("{text:*^91}"));
    assert_eq!(format!("{value:.5}"), format!("{text:.5}"));
    assert_eq!(format!("{value:9.3}|"), format!("{text:9.3}|"));
    assert_eq!(format!("{value:+}"), text);
    assert_eq!(format!("{value:#}"), text);
}

#[test]
fn parts_of_policies_and_tables() {
    let mut chance = Chance::new(11);
    let mut altered = Altered::default();
    for _ in 0..200 {
        let world = World::either(&mut chance);
        for one in &world.policy.rules {
            let rule = rule(one);
            altered.try_out(&mut chance, &rule);
            altered.try_out(&mut chance, &rule.levels());
            as_its_text(&rule.levels());
            for level in rule.levels().iter() {
                altered.try_out(&mut chance, &level);
                as_its_text(&level);
            }
            for exclusion in rule.exclusions() {
                altered.try_out(&mut chance, exclusion);
                as_its_text(exclusion);
            }
        }
        let records = world.records(&mut chance, 5);
        let bytes = independent::images::write_table(world.stamp(), &records, 1);
        let policy = Policy::check(&world.image).unwrap();
        for record in policy.own_table(bytes).unwrap().records() {
            altered.try_out(&mut chance, &record);
            altered.try_out(&mut chance, &record.marks);
            as_its_text(&record);
            as_its_text(&record.marks);
        }
    }
    assert!(altered.read > 1_000, "{} read", altered.read);
    assert!(altered.not_read > 1_000, "{} not read", altered.not_read);
}

/// A level by chance, in most cases a range, many of them with a low or a high at the edge.
fn level(chance: &mut Chance) -> Level {
    let kind = ContextType::of(chance.pick(&[1, 2, 65535]));
    let edges = [1, 9, 10, 99, 100, 199, 65534, 65535];
    let mut ends = [(); 2].map(|()| match chance.below(2) {
        0 => chance.pick(&edges),
        _ => chance.from(1, 65535) as u16,
    });
    ends.sort();
    let [low, high] = ends.map(ContextValue::of);
    match chance.below(8) {
        0 => Level::every(kind),
        1 => Level::each(kind),
        2 => Level::fixed(kind, low),
        3 => Level::range(kind, low..=low).unwrap(),
        _ => Level::range(kind, low..=high).unwrap(),
    }
}

/// Ranges among the levels of rules, also with their ends the other way round.
#[test]
fn ranges() {
    let mut chance = Chance::new(15);
    let mut altered = Altered::default();
    let apart = Exclusion::of_roles(2, &[Role::of(1), Role::of(2)]).unwrap();
    let mut reversed = 0;
    for _ in 0..500 {
        let depth = chance.from(1, 4);
        let levels: Vec<Level> = (0..depth).map(|_| level(&mut chance)).collect();
        for level in &levels {
            altered.try_out(&mut chance, level);
            as_its_text(level);
            if let Mark::Range { low, high } = level.mark() {
                let text = format!("{}={high} to {low}", level.context_type());
                let (low, high) = (high, low);
                let empty = ParseError::Build(BuildError::EmptyRange { low, high });
                let expected = if low == high { Ok(*level) } else { Err(empty) };
                assert_eq!(text.parse(), expected);
                reversed += usize::from(low != high);
            }
        }
        let levels = Levels::new(&levels).unwrap();
        altered.try_out(&mut chance, &levels);
        as_its_text(&levels);
        let rule = Rule::over(levels).exclude(apart.clone());
        altered.try_out(&mut chance, &rule);
        altered.try_out(&mut chance, &PolicyBuilder::new().rule(rule));
    }
    assert!(reversed > 300, "{reversed} reversed");
    assert!(altered.read > 1_000, "{} read", altered.read);
    assert!(altered.not_read > 1_000, "{} not read", altered.not_read);
}

#[test]
fn requests() {
    let mut chance = Chance::new(12);
    let mut altered = Altered::default();
    for _ in 0..500 {
        let world = World::either(&mut chance);
        let one = world.request(&mut chance);
        let request = request(&one);
        assert_eq!(request.privilege, privilege(one.privilege));
        altered.try_out(&mut chance, &request);
        altered.try_out(&mut chance, &request.user);
        altered.try_out(&mut chance, &request.roles);
        altered.try_out(&mut chance, &request.privilege);
        altered.try_out(&mut chance, &request.privilege.operation);
        altered.try_out(&mut chance, &request.privilege.target);
        altered.try_out(&mut chance, &request.context);
        for (kind, value) in request.context.levels() {
            altered.try_out(&mut chance, &kind);
            altered.try_out(&mut chance, &value);
        }
        for role in request.roles.iter() {
            altered.try_out(&mut chance, &role);
        }
        as_its_text(&request);
        as_its_text(&request.roles);
        as_its_text(&request.privilege);
        as_its_text(&request.context);
    }
    assert!(altered.read > 1_000, "{} read", altered.read);
    assert!(altered.not_read > 1_000, "{} not read", altered.not_read);
}

/// The preview that such a grant has had.
fn foreseen(grant: Grant) -> Preview {
    Preview {
        recorded: grant.recorded,
        removed: grant.removed,
        held: grant.held,
    }
}

/// All answers of lists by chance, and one refusal of each number.
#[test]
fn grants_previews_and_refusals() {
    let mut chance = Chance::new(13);
    let mut altered = Altered::default();
    let mut try_out = |chance: &mut Chance, line: Line| {
        altered.try_out(chance, &line);
        as_its_text(&line);
        match line.0 {
            Ok(grant) => {
                altered.try_out(chance, &grant);
                as_its_text(&grant);
                let preview = foreseen(grant);
                altered.try_out(chance, &preview);
                as_its_text(&preview);
            }
            Err(refusal) => {
                altered.try_out(chance, &refusal);
                as_its_text(&refusal);
            }
        }
    };
    for _ in 0..200 {
        let world = World::either(&mut chance);
        let policy = Policy::check(&world.image).unwrap();
        let mut table = policy.new_table(1).unwrap();
        for _ in 0..20 {
            let line = Line(table.decide(&request(&world.request(&mut chance))));
            try_out(&mut chance, line);
        }
    }
    let numbers = [1, 2, 3, 4, 5, 6, 11, 12, 13, 14, 15, 21, 22, 31, 32, 33, 34];
    for number in numbers.into_iter().chain([41, 42, 43]) {
        for places in ["0 0", "7 0", "31 8"] {
            let line: Line = format!("refuse {number} {places}").parse().unwrap();
            try_out(&mut chance, line);
        }
    }
    // A closing's, of which no line tells.
    for refusal in [Refusal::ContextLength, Refusal::ContextField] {
        altered.try_out(&mut chance, &refusal);
        as_its_text(&refusal);
    }
    assert!(altered.read > 1_000, "{} read", altered.read);
    assert!(altered.not_read > 1_000, "{} not read", altered.not_read);
}

/// What names and texts of rules get is shown as its text is too. None of it is read back.
#[test]
fn names_and_errors_of_texts() {
    let checker = Named::from(Role::of(2));
    let kind = checker.kind();
    for kind in NameKind::ALL {
        as_its_text(&kind);
    }
    as_its_text(&checker);
    let name = "checker".to_owned();
    as_its_text(&NamesError::NameTwice { kind, name });
    as_its_text(&NamesError::NumberTwice(checker));
    as_its_text(&NamesError::Name("a b".to_owned()));
    let level: Level = "1=100 to 199".parse().unwrap();
    as_its_text(&Unwritable::Range { rule: 1, level });
    as_its_text(&Unwritable::NotListed {
        rule: 32,
        number: checker,
    });
    as_its_text(&Unwritable::Refused(Refusal::Names));

    let bare = Policy::own(PolicyBuilder::new().build().unwrap()).unwrap();
    let names = NamesBuilder::new().build().unwrap();
    let error = Policy::from_xml("<MSoDPolicySet><", &names, &bare).unwrap_err();
    let XmlError::Form { at, expected, .. } = &error else {
        panic!("{error}")
    };
    as_its_text(at);
    assert_eq!(expected.len(), 2);
    for one in expected.iter().chain(&[Expected::Name, Expected::End]) {
        as_its_text(one);
    }
    let (at, element) = (*at, "MMER");
    as_its_text(&error);
    as_its_text(&XmlError::NotListed { at, element });
    as_its_text(&XmlError::Limit { at, element });
    as_its_text(&XmlError::Refused(Refusal::TextLimit));
}

/// A policy's text builds the same rules and permissions again, and where the permissions were
/// packed, the same image.
#[test]
fn policies() {
    let mut chance = Chance::new(14);
    let mut altered = Altered::default();
    for _ in 0..200 {
        let world = World::either(&mut chance);
        let text = Policy::check(&world.image).unwrap().to_string();
        let builder: PolicyBuilder = text.parse().unwrap();
        assert_eq!(builder.to_string(), text);
        let built = Policy::own(builder.build().unwrap()).unwrap();
        assert_eq!(built.to_string(), text);
        assert_eq!(built.image(), support::wrapped::build(&world).0);
        altered.try_out(&mut chance, &builder);
    }
    assert!(altered.read > 50, "{} read", altered.read);
    assert!(altered.not_read > 50, "{} not read", altered.not_read);
}

#[test]
fn numbers_as_numbers() {
    let user = User::of(7);
    assert_eq!(
        format!("{user:>4}|{user:<4}|{user:04}|{user:+}"),
        "   7|7   |0007|+7"
    );
    let role = Role::of(32);
    assert_eq!(format!("{role:^6}|{role:*<3}"), "  32  |32*");
}

fn form<T: FromStr<Err = ParseError> + Debug>(texts: &[&str]) {
    for text in texts {
        let error = text.parse::<T>().unwrap_err();
        let form = matches!(error, ParseError::Form { .. });
        assert!(form, "{text}: {error:?}");
    }
}

fn out_of_range<T: FromStr<Err = ParseError> + Debug>(text: &str) {
    let error = text.parse::<T>().unwrap_err();
    let out_of_range = matches!(error, ParseError::OutOfRange(_));
    assert!(out_of_range, "{text}: {error:?}");
}

#[test]
fn numbers_that_are_not_read() {
    form::<User>(&["", " 1", "1 ", "+1", "-1", "01", "0x1"]);
    form::<User>(&["99999999999999999999"]);
    out_of_range::<User>("0");
    out_of_range::<User>("4294967296");
    out_of_range::<Role>("33");
    out_of_range::<Operation>("65536");
    out_of_range::<Privilege>("1 on 0");
    out_of_range::<Context>("1=0");
    form::<Roles>(&["2, 1", "1, 1", "1,2", "1, "]);
    form::<Marks>(&["2, 1", "1, 1", "1,2", "1, ", "33", "0"]);
}

#[test]
fn contexts_and_requests_that_are_not_read() {
    form::<Context>(&["1=1, 1=1, 1=1, 1=1, 1=1", "", "1=1,2=2", "1"]);
    form::<Context>(&["the whole  business"]);
    form::<Request>(&["user 7 in roles 1: 1 on 1 at 1=5"]);
    form::<Request>(&["user 7 in role 1, 2: 1 on 1 at 1=5"]);
}

#[test]
fn policies_that_are_not_read() {
    form::<Levels>(&["1=*, 1=!, 1=1, 1=1, 1=1"]);
    form::<Rule>(&["over 1=*\n  exclusion 2: 2 of roles 1, 2"]);
    form::<Rule>(&["over 1=*; last step 1 on 1; first step 2 on 1"]);
    form::<PolicyBuilder>(&["rule 2: over 1=*\n  exclusion 1: 2 of roles 1, 2\n"]);
    let twice = "2 of roles 1, 1".parse::<Exclusion>().unwrap_err();
    assert_eq!(twice, ParseError::Build(BuildError::RoleTwice(Role::of(1))));
}

#[test]
fn ranges_that_are_not_read() {
    let one: Level = "1=100 to 100".parse().unwrap();
    assert_eq!(one.to_string(), "1=100 to 100");
    assert_ne!("1=100".parse(), Ok(one));
    form::<Level>(&[
        "1=100 to",
        "1=100 to ",
        "1= to 199",
        "1=to 199",
        "1=100to199",
    ]);
    form::<Level>(&[
        "1=100  to 199",
        "1=100 to  199",
        "1= 100 to 199",
        "1=100 to 199 ",
    ]);
    form::<Level>(&["1=100-199", "1=100..199", "1=100 To 199", "1=100\tto 199"]);
    form::<Level>(&[
        "1=* to 199",
        "1=100 to !",
        "1=100 to 150 to 199",
        "1=100 to 1=199",
    ]);
    form::<Level>(&[
        "1=0100 to 199",
        "1=100 to +199",
        "=100 to 199",
        "depot 100 to 199",
    ]);
    form::<Levels>(&["1=100 to 199,2=!", "1=100 to 199, ", "100 to 199"]);
    // A context has one value at each level.
    form::<Context>(&["1=100 to 199", "1=100 to 100"]);
    out_of_range::<Level>("1=0 to 199");
    out_of_range::<Level>("1=100 to 0");
    out_of_range::<Level>("1=100 to 65536");
    out_of_range::<Level>("0=100 to 199");
    let [low, high] = [199, 100].map(ContextValue::of);
    let empty = ParseError::Build(BuildError::EmptyRange { low, high });
    let words = "199 to 100 is an empty range: low <= high is asked";
    assert_eq!(empty.to_string(), words);
    assert_eq!("1=199 to 100".parse::<Level>(), Err(empty.clone()));
    assert_eq!("1=*, 2=199 to 100".parse::<Levels>(), Err(empty.clone()));
    let rule = "over 1=199 to 100\n  exclusion 1: 2 of roles 1, 2";
    assert_eq!(rule.parse::<Rule>(), Err(empty.clone()));
    let policy = format!("rule 1: {rule}\n");
    assert_eq!(policy.parse::<PolicyBuilder>(), Err(empty));
}

#[test]
fn answers_that_are_not_read() {
    form::<Grant>(&["grant 2 0 1", "grant 1 0", "grant 1 0 1 0", "grant  1 0 1"]);
    form::<Grant>(&["refuse 33 1 1", "would grant 1 0 1"]);
    form::<Preview>(&["would grant 2 0 1", "would grant 1 0", "would  grant 1 0 1"]);
    form::<Preview>(&["grant 1 0 1", "would refuse 33 1 1"]);
    let bad = [
        "refuse 0 0 0",
        "refuse 33 1",
        "refused 33 1 1",
        "31: no active role",
        "would grant 1 0 1",
        "would refuse 33 1 1",
    ];
    form::<Line>(&bad);
    form::<Refusal>(&bad);
    form::<Refusal>(&["31: no active role has the permission."]);
}
