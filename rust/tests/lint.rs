//! What the warnings about a policy say is so, by what the engine then does.

mod independent;
mod support;

use hastovimen::*;
use std::collections::BTreeMap;
use support::chance::Chance;
use support::world::World;
use support::wrapped::request;

fn step(operation: u16) -> Privilege {
    Operation::of(operation).on(Target::of(1))
}

fn roles(first: u8, second: u8) -> Exclusion {
    Exclusion::of_roles(2, &[Role::of(first), Role::of(second)]).unwrap()
}

fn lint(policy: PolicyBuilder) -> Vec<Warning> {
    let policy = Policy::own(policy.build().unwrap()).unwrap();
    policy.lint()
}

/// Lists by chance under policies by chance, none of which does what a warning rules out.
#[test]
fn no_list_speaks_against_a_warning() {
    let mut chance = Chance::new(31);
    let mut seen: BTreeMap<&str, usize> = BTreeMap::new();
    for _ in 0..3_000 {
        let world = World::either(&mut chance);
        let policy = Policy::check(&world.image).unwrap();
        let warnings = policy.lint();
        let mut table = policy.new_table(4).unwrap();
        let mut marked: BTreeMap<u32, usize> = BTreeMap::new();
        for _ in 0..60 {
            let decided = table.decide(&request(&world.request(&mut chance)));
            for warning in &warnings {
                *seen
                    .entry(holds(warning, decided, &table, &mut marked))
                    .or_default() += 1;
            }
        }
    }
    for what in ["silent", "endless", "out of reach", "other"] {
        assert!(seen[what] > 1_000, "{seen:?}");
    }
}

/// Fails where the table or the last decision speaks against a warning.
fn holds(
    warning: &Warning,
    decided: Result<Grant, Refusal>,
    table: &Table,
    marked: &mut BTreeMap<u32, usize>,
) -> &'static str {
    let by_rule = |rule: u32| table.records().filter(|one| one.marks.has(rule)).count();
    let refused = decided.map_err(|refusal| refusal.places());
    match *warning {
        Warning::FirstStepNotPermitted { rule, .. } => {
            assert_eq!(by_rule(rule), 0, "{warning}");
            assert!(!matches!(refused, Err((at, _)) if at == rule), "{warning}");
            "silent"
        }
        Warning::LastStepNotPermitted { rule, .. } | Warning::NoLastStep { rule } => {
            let now = by_rule(rule);
            let before = marked.insert(rule, now).unwrap_or(0);
            assert!(now >= before, "{warning}");
            "endless"
        }
        Warning::OutOfReach {
            rule, exclusion, ..
        } => {
            assert_ne!(refused, Err((rule, exclusion)), "{warning}");
            "out of reach"
        }
        _ => "other",
    }
}

/// One user does all that is permitted, time and again, and last the last step: the exclusion then
/// refuses at some time, or there is a warning.
#[test]
fn out_of_reach_exactly() {
    let mut chance = Chance::new(32);
    let mut seen = [0; 2];
    for _ in 0..3_000 {
        let n = chance.from(2, 8);
        let members: Vec<_> = (0..n).map(|_| step(chance.from(1, 4) as u16)).collect();
        let m = chance.from(2, n) as u8;
        let apart = Exclusion::of_privileges(m, &members).unwrap();
        let mut rule = Rule::over([]).exclude(apart);
        let last = chance.percent(60).then(|| step(chance.from(1, 5) as u16));
        if let Some(last) = last {
            rule = rule.last(last);
        }
        let mut builder = PolicyBuilder::new().rule(rule);
        let permitted: Vec<_> = (1..=5).map(step).filter(|_| chance.percent(50)).collect();
        for &one in &permitted {
            builder = builder.permit(Role::of(1), one);
        }
        let policy = Policy::own(builder.build().unwrap()).unwrap();
        let warned = (policy.lint().iter()).any(|one| matches!(one, Warning::OutOfReach { .. }));
        let mut table = policy.new_table(4).unwrap();
        let others = permitted.iter().filter(|&&one| Some(one) != last);
        let all = (0..8).flat_map(|_| others.clone()).chain(&last);
        let refused = all.map(|&one| Request::new(User::of(7), Role::of(1), one, []));
        let refused = refused
            .map(|asked| table.decide(&asked))
            .any(|decided| matches!(decided, Err(Refusal::ExclusivePrivileges { .. })));
        assert_eq!(warned, !refused, "{policy}");
        seen[usize::from(warned)] += 1;
    }
    assert!(seen.iter().all(|&times| times > 500), "{seen:?}");
}

#[test]
fn steps() {
    let (first, last) = (step(5), step(6));
    let rule = || Rule::over([]).exclude(roles(1, 2));
    let permit = |policy: PolicyBuilder| {
        let policy = policy.permit(Role::of(1), step(1));
        policy.permit(Role::of(2), step(1))
    };
    let both = rule().first(first).last(last);
    let policy = permit(PolicyBuilder::new().rule(rule().last(step(1))).rule(both));
    let expected = [
        Warning::FirstStepNotPermitted {
            rule: 2,
            step: first,
        },
        Warning::LastStepNotPermitted {
            rule: 2,
            step: last,
        },
    ];
    assert_eq!(lint(policy.clone()), expected);
    assert_eq!(
        lint(policy.clone().permit(Role::of(9), first)),
        expected[1..]
    );
    assert_eq!(
        lint(policy.clone().permit(Role::of(9), last)),
        expected[..1]
    );
    let policy = policy.rule(rule());
    assert_eq!(lint(policy)[2..], [Warning::NoLastStep { rule: 3 }]);
}

/// A role without a permission is warned of, and counts all the same beside another one.
#[test]
fn roles_without_a_permission() {
    let policy = PolicyBuilder::new()
        .rule(Rule::over([]).last(step(2)).exclude(roles(1, 2)))
        .permit(Role::of(1), step(1))
        .permit(Role::of(1), step(2));
    let expected = Warning::RoleWithoutPermission {
        rule: 1,
        exclusion: 1,
        role: Role::of(2),
    };
    assert_eq!(lint(policy.clone()), [expected]);
    let policy = Policy::own(policy.build().unwrap()).unwrap();
    let mut table = policy.new_table(1).unwrap();
    let both = Roles::from(Role::of(1)).and(Role::of(2));
    let refused = table.decide(&Request::new(User::of(1), both, step(1), []));
    assert_eq!(refused.unwrap_err().number(), 32);
}

fn north(kind: ContextType) -> Level {
    Level::range(kind, ContextValue::of(100)..=ContextValue::of(199)).unwrap()
}

/// The order goes by the types alone, whatever is asked of the values.
#[test]
fn order_of_levels() {
    for level in [Level::each, Level::every, north] {
        order_of(level);
    }
}

fn order_of(level: fn(ContextType) -> Level) {
    let [depot, job, visit] = [1, 2, 3].map(ContextType::of);
    let orders = |rules: &[&[ContextType]]| -> Vec<(u32, u32)> {
        let policy = rules.iter().fold(PolicyBuilder::new(), |policy, types| {
            let levels: Vec<_> = types.iter().copied().map(level).collect();
            let rule = Rule::over(Levels::new(&levels).unwrap());
            policy.rule(rule.exclude(roles(1, 2)))
        });
        (lint(policy).iter())
            .filter_map(|warning| match *warning {
                Warning::LevelOrder { rule, other } => Some((rule, other)),
                _ => None,
            })
            .collect()
    };
    assert_eq!(orders(&[&[depot, job]]), []);
    assert_eq!(orders(&[&[], &[depot, job], &[]]), []);
    assert_eq!(orders(&[&[depot, job], &[depot]]), []);
    assert_eq!(orders(&[&[depot, job], &[depot, visit]]), []);
    assert_eq!(orders(&[&[depot], &[visit]]), []);
    assert_eq!(orders(&[&[depot, job], &[job, depot]]), [(1, 2), (2, 1)]);
    assert_eq!(orders(&[&[depot, job], &[job]]), [(1, 2), (2, 1)]);
    assert_eq!(orders(&[&[depot], &[depot, job], &[job, depot]]), [(3, 1)]);
    assert_eq!(
        orders(&[&[visit], &[depot, job], &[job], &[job, visit]]),
        [(1, 4), (2, 3)]
    );
}

#[test]
fn words() {
    let role = Role::of(4);
    let warnings = [
        Warning::FirstStepNotPermitted {
            rule: 1,
            step: step(1),
        },
        Warning::LastStepNotPermitted {
            rule: 1,
            step: step(1),
        },
        Warning::NoLastStep { rule: 1 },
        Warning::RoleWithoutPermission {
            rule: 1,
            exclusion: 2,
            role,
        },
        Warning::LevelOrder { rule: 1, other: 2 },
    ];
    for warning in warnings {
        let text = warning.to_string();
        assert!(text.starts_with("rule 1"), "{text}");
        assert_eq!(warning.rule(), 1);
        assert_eq!(
            warning.exclusion().is_some(),
            text.contains("exclusion 2: ")
        );
        assert_eq!(format!("{warning:>120}"), format!("{text:>120}"));
    }
}
