//! The wrapper's builders and readers, held against the independent ones.

mod independent;
mod support;

use hastovimen::*;
use independent::images;
use std::collections::BTreeMap;
use support::chance::Chance;
use support::world::World;
use support::wrapped::{build, privilege, request, role, rule};

#[test]
fn builders_and_readers() {
    let mut chance = Chance::new(1);
    for i in 0..300 {
        let world = match i % 100 {
            0 => World::large(&mut chance),
            _ => World::either(&mut chance),
        };
        let (built, same) = build(&world);
        assert!(built == same, "the policy's image is another");
        let policy = Policy::check(&built).unwrap();
        let rules: Vec<Rule> = world.policy.rules.iter().map(rule).collect();
        assert_eq!(policy.rules().collect::<Vec<_>>(), rules);
        assert_eq!(policy.rule_count(), rules.len());
        let permissions = world.policy.permissions.iter().flatten();
        let permissions: Vec<_> = permissions
            .map(|entry| (role(entry.role), privilege(entry.privilege)))
            .collect();
        assert_eq!(policy.permissions().collect::<Vec<_>>(), permissions);
        getters(&world, &policy);
        let blocks = chance.from(1, 4);
        let count = chance.from(0, images::places(blocks));
        tables(&policy, blocks, &world.records(&mut chance, count));
    }
}

/// A table of these records, built and read.
fn tables(policy: &Policy, blocks: usize, records: &[images::Record]) {
    let mut builder = TableBuilder::new(policy, blocks);
    for record in records {
        let rules: Vec<u32> = (1..=32)
            .filter(|r| record.marks >> (r - 1) & 1 == 1)
            .collect();
        builder = builder.record(request(&record.request), &rules);
    }
    let mut image = builder.build().unwrap();
    let same = images::write_table(images::sums(policy.image()), records, blocks);
    assert!(image == same, "the table's image is another");
    let table = policy.open_table(&mut image).unwrap();
    assert_eq!(table.places(), images::places(blocks));
    assert_eq!(table.held(), records.len());
    for (read, record) in table.records().zip(records) {
        assert_eq!(read.request, request(&record.request));
        assert_eq!(read.marks.bits(), record.marks);
        let bytes = images::write_request(&record.request);
        assert_eq!(read.request.to_bytes(), bytes);
        assert_eq!(Request::read(&bytes), Ok(read.request));
    }
    // Shown as text, a table has a line for each record below its heading.
    assert_eq!(table.to_string().lines().count(), records.len() + 1);
}

/// A level's eight bytes, put together from what its getters say.
fn bytes_of(level: &Level) -> Vec<u8> {
    let (mark, value, high) = match level.mark() {
        Mark::Fixed(value) => (1, value.get(), 0),
        Mark::Every => (2, 0, 0),
        Mark::Each => (3, 0, 0),
        Mark::Range { low, high } => (4, low.get(), high.get()),
    };
    let fixed = level.value().map(|value| value.get());
    assert_eq!(fixed, (mark == 1).then_some(value));
    let numbers = [level.context_type().get(), mark, value, high];
    numbers.map(u16::to_le_bytes).concat()
}

/// What the getters say, beside what the independent types have; of the levels, beside the bytes
/// that the independent writer has written too.
fn getters(world: &World, policy: &Policy) {
    let blocks = policy.image().chunks_exact(BLOCK);
    for ((rule, same), block) in policy.rules().zip(&world.policy.rules).zip(blocks) {
        assert_eq!(rule.depth(), same.levels.len());
        for (level, bytes) in rule.levels().iter().zip(block[16..48].chunks_exact(8)) {
            assert_eq!(bytes_of(&level), bytes);
        }
        assert_eq!(rule.first_step(), same.first.map(privilege));
        assert_eq!(rule.last_step(), same.last.map(privilege));
        assert_eq!(rule.exclusions().len(), same.exclusions.len());
        for (exclusion, same) in rule.exclusions().iter().zip(&same.exclusions) {
            assert_eq!(u64::from(exclusion.m()), same.m as u64);
            let (n, kind) = match (exclusion.members(), &same.members) {
                (Members::Roles(roles), images::Members::Roles(same)) => {
                    let same: Vec<_> = same.iter().map(|&one| role(one)).collect();
                    assert_eq!(*roles, same);
                    (same.len(), ExclusionKind::Roles)
                }
                (Members::Privileges(privileges), images::Members::Privileges(same)) => {
                    let same: Vec<_> = same.iter().map(|&one| privilege(one)).collect();
                    assert_eq!(*privileges, same);
                    (same.len(), ExclusionKind::Privileges)
                }
                _ => panic!("roles for privileges"),
            };
            assert_eq!((exclusion.n(), exclusion.kind()), (n, kind));
        }
    }
}

fn step() -> Privilege {
    Operation::of(1).on(Target::of(1))
}

fn apart() -> Exclusion {
    Exclusion::of_roles(2, &[Role::of(1), Role::of(2)]).unwrap()
}

/// A policy of so many rules over the whole business and so many permissions.
fn policy_of(rules: usize, permissions: usize) -> PolicyBuilder {
    let rule = || Rule::over([]).exclude(apart());
    let policy = (0..rules).fold(PolicyBuilder::new(), |policy, _| policy.rule(rule()));
    (0..permissions).fold(policy, |policy, _| policy.permit(Role::of(1), step()))
}

#[test]
fn exclusions_and_rules_that_cannot_be_built() {
    for (m, n) in [(0, 2), (1, 2), (3, 2), (2, 1), (2, 9), (9, 9)] {
        let refused = Err(BuildError::ForbiddenNumber { m, n });
        assert_eq!(Exclusion::of_privileges(m, &vec![step(); n]), refused);
    }
    let [one, two] = [1, 2].map(Role::of);
    let twice = Exclusion::of_roles(2, &[one, two, one]);
    assert_eq!(twice, Err(BuildError::RoleTwice(one)));

    let build = |rule: Rule| PolicyBuilder::new().rule(rule).build();
    for number in [0, 9] {
        let rule = (0..number).fold(Rule::over([]), |rule, _| rule.exclude(apart()));
        let error = BuildError::Exclusions { rule: 1, number };
        assert_eq!(build(rule), Err(error));
    }
    let equal = Rule::over([]).first(step()).last(step()).exclude(apart());
    assert_eq!(build(equal), Err(BuildError::EqualSteps { rule: 1 }));
}

fn range(kind: u16, low: u16, high: u16) -> Result<Level, BuildError> {
    let [low, high] = [low, high].map(ContextValue::of);
    Level::range(ContextType::of(kind), low..=high)
}

#[test]
fn ranges_that_cannot_be_built() {
    for (low, high) in [(1, 1), (1, 65535), (65535, 65535), (100, 100), (255, 256)] {
        let level = range(1, low, high).unwrap();
        assert_eq!(level.to_string(), format!("1={low} to {high}"));
        assert_eq!(level.value(), None);
        let [low, high] = [low, high].map(ContextValue::of);
        assert_eq!(level.mark(), Mark::Range { low, high });
    }
    for (low, high) in [(2, 1), (199, 100), (65535, 1), (65535, 65534), (256, 255)] {
        let refused = range(1, low, high);
        let [low, high] = [low, high].map(ContextValue::of);
        assert_eq!(refused, Err(BuildError::EmptyRange { low, high }));
    }
}

/// Every mark with numbers at the edges, put into the second level of a policy that was built: the
/// engine takes just what documents 01 and 02 say, and the wrapper reads what stands there.
#[test]
fn levels_as_bytes() {
    let depot = Level::every(ContextType::of(1));
    let rule = Rule::over([depot, range(2, 100, 199).unwrap()]).exclude(apart());
    let built = PolicyBuilder::new().rule(rule).build().unwrap();
    assert_eq!(built[24..32], [2, 0, 4, 0, 100, 0, 199, 0]);
    let edges = [0, 1, 2, 99, 100, 199, 200, 255, 256, 65534, 65535];
    // The last one is mark 4 with 1 in the byte behind it, which is zero.
    let taken = [0, 1, 2, 3, 4, 5, 0x0104].map(|mark| {
        let mut taken = 0;
        for (low, high) in edges.iter().flat_map(|&low| edges.map(|high| (low, high))) {
            let bytes = [2, mark, low, high].map(u16::to_le_bytes).concat();
            let mut image = built.clone();
            image[24..32].copy_from_slice(&bytes);
            images::reseal(&mut image);
            let good = match mark {
                1 => low > 0 && high == 0,
                2 | 3 => low == 0 && high == 0,
                4 => low > 0 && low <= high,
                _ => false,
            };
            let policy = Policy::check(&image);
            if !good {
                assert_eq!(policy, Err(Refusal::Rule { block: 0 }), "{bytes:?}");
                continue;
            }
            let rule = policy.unwrap().rules().next().unwrap();
            assert_eq!(bytes_of(&rule.levels().iter().nth(1).unwrap()), bytes);
            let again = PolicyBuilder::new().rule(rule).build().unwrap();
            assert!(again == image, "{bytes:?} were read, and written as others");
            taken += 1;
        }
        taken
    });
    assert_eq!(taken, [0, 10, 1, 1, 55, 0, 0]);
}

/// Whether a record in this context may be marked for rule 1: builder and engine say the same.
fn may_be_marked(policy: &Policy, context: Vec<(u16, u16)>) -> bool {
    let (operation, target) = (1, 1);
    let asked = images::Request {
        user: 7,
        roles: 1,
        privilege: images::Privilege { operation, target },
        context,
    };
    let built = TableBuilder::new(policy, 1).record(request(&asked), &[1]);
    let marked = images::Record {
        request: asked,
        marks: 1,
    };
    let image = images::write_table(images::sums(policy.image()), &[marked], 1);
    let (block, record, rule) = (0, 1, 1);
    match policy.own_table(image.clone()) {
        Ok(_) => assert_eq!(built.build(), Ok(image)),
        Err(refusal) => {
            assert_eq!(refusal, Refusal::Record { block, record });
            let error = BuildError::DoesNotFit { record: 1, rule };
            assert_eq!(built.build(), Err(error));
        }
    }
    built.build().is_ok()
}

/// A range at each level in turn, and contexts at its edges.
#[test]
fn marks_at_the_edges_of_ranges() {
    let values = [1, 2, 99, 100, 101, 199, 200, 256, 65534, 65535];
    let ranges = [(100, 199), (1, 65535), (1, 1), (100, 100), (65535, 65535)];
    for (at, (low, high)) in (0..4).flat_map(|at| ranges.map(|range| (at, range))) {
        let mut levels = [1, 2, 3, 4].map(|kind| Level::each(ContextType::of(kind)));
        let kind = levels[at].context_type().get();
        levels[at] = range(kind, low, high).unwrap();
        let policy = PolicyBuilder::new().rule(Rule::over(levels).exclude(apart()));
        let policy = Policy::own(policy.build().unwrap()).unwrap();
        for value in values {
            let context = |level| {
                let mut context = [1, 2, 3, 4].map(|kind| (kind, 150));
                context[at] = level;
                context.to_vec()
            };
            let fits = low <= value && value <= high;
            let marked = may_be_marked(&policy, context((kind, value)));
            assert_eq!(marked, fits, "{low} to {high}: {value}");
            assert!(!may_be_marked(&policy, context((9, value))));
        }
    }
}

/// What is done at one value of a range counts at all others, and at none outside.
#[test]
fn a_range_is_one_run_place() {
    let twice = Exclusion::of_privileges(2, &[step(), step()]).unwrap();
    let policy = PolicyBuilder::new()
        .rule(Rule::over([range(1, 100, 199).unwrap()]).exclude(twice))
        .permit(Role::of(1), step());
    let policy = Policy::own(policy.build().unwrap()).unwrap();
    let at = |depot| {
        let context = [(ContextType::of(1), ContextValue::of(depot))];
        Request::new(User::of(7), Role::of(1), step(), context)
    };
    let mut table = policy.new_table(1).unwrap();
    for (depot, answer) in [
        (99, "grant 0 0 0"),
        (100, "grant 1 0 1"),
        (199, "refuse 33 1 1"),
        (150, "refuse 33 1 1"),
        (200, "grant 0 0 1"),
    ] {
        let decided = Line(table.decide(&at(depot)));
        assert_eq!(decided.to_string(), answer, "depot {depot}");
    }
}

#[test]
fn policies_that_cannot_be_built() {
    assert!(policy_of(32, 0).build().is_ok());
    assert_eq!(policy_of(33, 0).build(), Err(BuildError::Rules(33)));
    let full = policy_of(32, 61 * 32).build().unwrap();
    assert_eq!(Policy::check(&full).unwrap().rule_count(), 32);
    let error = Err(BuildError::PolicyBlocks(65));
    assert_eq!(policy_of(32, 61 * 32 + 1).build(), error);
}

#[test]
fn tables_that_cannot_be_built() {
    let policy = Policy::own(policy_of(32, 1).build().unwrap()).unwrap();
    for blocks in [0, 129] {
        let error = Err(BuildError::TableBlocks(blocks));
        assert_eq!(TableBuilder::new(&policy, blocks).build(), error);
    }
    let request = Request::new(User::of(1), Role::of(1), step(), []);
    let records = |count, rules: &[u32]| {
        let empty = TableBuilder::new(&policy, 1);
        (0..count)
            .fold(empty, |table, _| table.record(request, rules))
            .build()
    };
    assert!(records(15, &[1, 32]).is_ok());
    assert_eq!(records(16, &[1]), Err(BuildError::Records(16)));
    assert_eq!(records(2, &[]), Err(BuildError::NoMark { record: 1 }));
    for rule in [0, 33, u32::MAX] {
        let error = Err(BuildError::RuleNumber { record: 1, rule });
        assert_eq!(records(2, &[1, rule]), error);
    }
}

/// A record is marked only for rules that the policy has and that its context fits: the builder
/// refuses just what the engine would.
#[test]
fn marks_that_do_not_fit() {
    let mut chance = Chance::new(2);
    let mut seen = [0; 3];
    for _ in 0..2_000 {
        let world = World::either(&mut chance);
        let policy = Policy::check(&world.image).unwrap();
        let asked = world.request(&mut chance);
        let rule = chance.from(1, 32) as u32;
        let marked = images::Record {
            request: asked.clone(),
            marks: 1 << (rule - 1),
        };
        let image = images::write_table(world.stamp(), &[marked], 1);
        let by_engine = policy.own_table(image.clone());
        let built = TableBuilder::new(&policy, 1)
            .record(request(&asked), &[rule])
            .build();
        let bad = Refusal::Record {
            block: 0,
            record: 1,
        };
        match built {
            Ok(built) => {
                assert_eq!(by_engine.unwrap().image(), built);
                seen[0] += 1;
            }
            Err(BuildError::NoSuchRule { record: 1, rule: r }) => {
                assert_eq!((r, by_engine.unwrap_err()), (rule, bad));
                assert!(rule as usize > policy.rule_count());
                seen[1] += 1;
            }
            Err(error) => {
                assert_eq!(error, BuildError::DoesNotFit { record: 1, rule });
                assert_eq!(by_engine.unwrap_err(), bad);
                seen[2] += 1;
            }
        }
    }
    assert!(seen.iter().all(|&times| times > 50), "{seen:?}");
}

#[test]
fn numbers() {
    assert_eq!(User::new(0), None);
    assert_eq!(User::new(u32::MAX), Some(User::LAST));
    assert_eq!(Role::new(33), None);
    assert_eq!(Role::of(32), Role::LAST);
    assert_eq!(Operation::new(0), None);
    let error = Role::try_from(33).unwrap_err();
    assert_eq!(error.to_string(), "33 is no role: they run from 1 to 32");
    assert_eq!(Request::read(&[1; 27]), Err(Refusal::RequestLength));
    assert_eq!(Request::read(&[0; 28]), Err(Refusal::RequestField));
}

/// A preview through the wrapper is that of the bytes, and has the numbers that the decision then
/// has; the table stays as it was.
#[test]
fn previews() {
    let mut chance = Chance::new(3);
    let mut seen: BTreeMap<u32, usize> = BTreeMap::new();
    for _ in 0..300 {
        let world = World::either(&mut chance);
        let policy = Policy::check(&world.image).unwrap();
        let mut table = policy.new_table(1).unwrap();
        for _ in 0..50 {
            let asked = request(&world.request(&mut chance));
            let before = table.image().to_vec();
            let preview = table.preview(&asked);
            assert_eq!(table.preview_bytes(&asked.to_bytes()), preview);
            let raw = raw::preview(&world.image, &before, &asked.to_bytes());
            assert_eq!(raw, preview);
            assert!(table.image() == before, "the table was altered");
            let numbers = preview.map(|would| (would.recorded, would.removed, would.held));
            let decided = table.decide(&asked);
            assert_eq!(
                numbers,
                decided.map(|grant| (grant.recorded, grant.removed, grant.held))
            );
            let number = decided.map_or_else(|refusal| refusal.number(), |_| 0);
            *seen.entry(number).or_default() += 1;
        }
        assert_eq!(table.preview_bytes(&[1; 27]), Err(Refusal::RequestLength));
        assert_eq!(table.preview_bytes(&[0; 28]), Err(Refusal::RequestField));
    }
    for number in [0, 31, 32, 33, 34] {
        let times = seen.get(&number).copied().unwrap_or(0);
        assert!(times > 50, "{number}: {times} times");
    }
}

/// A context to close: in most cases the first levels of one that is on record, at times with one of
/// them altered.
fn closed_context(chance: &mut Chance, records: &[images::Record]) -> Vec<(u16, u16)> {
    let mut levels = match records {
        [] => vec![(1, 1), (2, 1)],
        _ => chance.pick(records).request.context,
    };
    levels.truncate(chance.from(0, 4));
    if !levels.is_empty() && chance.percent(20) {
        let at = chance.below(levels.len());
        let (kind, value) = levels[at];
        levels[at] = chance.pick(&[(kind, value % 65535 + 1), (kind % 65535 + 1, value)]);
    }
    levels
}

fn context(levels: &[(u16, u16)]) -> Context {
    let levels: Vec<_> = (levels.iter())
        .map(|&(kind, value)| (ContextType::of(kind), ContextValue::of(value)))
        .collect();
    Context::new(&levels).unwrap()
}

/// A closing through the wrapper is that of the bytes: just the records go whose context has these
/// levels first, and what is left is the image of the others, with their marks and in their order.
#[test]
fn closings() {
    let mut chance = Chance::new(5);
    let mut seen: BTreeMap<&str, usize> = BTreeMap::new();
    for _ in 0..400 {
        let world = World::either(&mut chance);
        let policy = Policy::check(&world.image).unwrap();
        let blocks = chance.from(1, 4);
        let count = chance.from(0, images::places(blocks));
        let mut records = world.records(&mut chance, count);
        let mut lent = images::write_table(world.stamp(), &records, blocks);
        let mut owned = policy.own_table(lent.clone()).unwrap();
        let mut table = policy.open_table(&mut lent).unwrap();
        for _ in 0..5 {
            let levels = closed_context(&mut chance, &records);
            let closed = context(&levels);
            let mut bytes = table.image().to_vec();
            let before = records.len();
            for (read, record) in table.records().zip(&records) {
                let named = record.request.context.starts_with(&levels);
                assert_eq!(read.request.context.begins_with(&closed), named);
            }
            records.retain(|record| !record.request.context.starts_with(&levels));
            let removed = before - records.len();
            assert_eq!(table.close(&closed), Ok(removed as u32), "{closed}");
            assert_eq!(owned.close_bytes(&closed.to_bytes()), Ok(removed as u32));
            let raw = raw::close(&world.image, &mut bytes, &closed.to_bytes());
            assert_eq!(raw, Ok(removed as u32));
            let left = images::write_table(world.stamp(), &records, blocks);
            assert!(table.image() == left, "what is left is another table");
            assert!(owned.image() == left && bytes == left);
            let kind = match removed {
                0 => "none",
                _ if levels.is_empty() => "the whole business",
                _ if records.is_empty() => "all",
                _ => "some",
            };
            *seen.entry(kind).or_default() += 1;
        }
    }
    for kind in ["none", "the whole business", "all", "some"] {
        let times = seen.get(kind).copied().unwrap_or(0);
        assert!(times > 50, "{kind}: {times} times");
    }
}

/// A context's bytes: each level unused, used, without its type, without its value. `Context::read`
/// takes and refuses just what a closing does, and a refused closing alters nothing.
#[test]
fn contexts_as_bytes() {
    let rule = Rule::over([]).exclude(apart());
    let policy = PolicyBuilder::new().rule(rule).permit(Role::of(1), step());
    let policy = Policy::own(policy.build().unwrap()).unwrap();
    let mut empty = policy.new_table(1).unwrap();
    let on_record = Request::new(User::of(7), Role::of(1), step(), []);
    let mut held = policy.new_table(1).unwrap();
    assert!(held.decide(&on_record).unwrap().recorded);
    let image = held.image().to_vec();
    let mut taken = 0;
    for pattern in 0..256 {
        let levels = [0, 2, 4, 6].map(|at| match pattern >> at & 3 {
            0 => [0; 4],
            1 => [1, 0, 0xFF, 0xFF],
            2 => [0, 0, 0, 1],
            _ => [0, 1, 0, 0],
        });
        let bytes = levels.concat();
        match Context::read(&bytes) {
            Ok(context) => {
                assert_eq!(context.to_bytes()[..], bytes);
                assert_eq!(empty.close_bytes(&bytes), Ok(0));
                taken += 1;
            }
            Err(refusal) => {
                assert_eq!(refusal, Refusal::ContextField);
                assert_eq!(held.close_bytes(&bytes), Err(refusal));
            }
        }
    }
    assert_eq!(taken, 5);
    for length in (0..=40).filter(|&length| length != Context::LENGTH) {
        let bytes = vec![0; length];
        assert_eq!(Context::read(&bytes), Err(Refusal::ContextLength));
        assert_eq!(held.close_bytes(&bytes), Err(Refusal::ContextLength));
    }
    assert!(held.image() == image, "a refused closing altered the table");
    assert_eq!(held.close(&Context::WHOLE_BUSINESS), Ok(1));
}

/// Many threads preview one full table at the same time, and each gets what one alone gets.
#[test]
fn readers_at_once() {
    let mut chance = Chance::new(4);
    let world = World::either(&mut chance);
    let records = world.records(&mut chance, images::places(128));
    let image = images::write_table(world.stamp(), &records, 128);
    let policy = Policy::check(&world.image).unwrap();
    let table = policy.own_table(image.clone()).unwrap();
    let requests: Vec<Request> = (0..200)
        .map(|_| request(&world.request(&mut chance)))
        .collect();
    let alone: Vec<_> = requests.iter().map(|one| table.preview(one)).collect();
    std::thread::scope(|scope| {
        for _ in 0..4 {
            scope.spawn(|| {
                for (request, expected) in requests.iter().zip(&alone) {
                    assert_eq!(table.preview(request), *expected);
                }
            });
        }
    });
    assert!(table.image() == image, "the table was altered");
}

/// A table can be decided on in another thread, and its policy can be shared.
#[test]
fn threads() {
    let twice = Exclusion::of_privileges(2, &[step(), step()]).unwrap();
    let image = PolicyBuilder::new()
        .rule(Rule::over([]).exclude(twice))
        .permit(Role::of(1), step())
        .build()
        .unwrap();
    let policy = Policy::check(&image).unwrap();
    let mut buffers = [[0; 512]; 2];
    std::thread::scope(|scope| {
        for buffer in &mut buffers {
            scope.spawn(|| {
                let mut table = policy.fresh_table(buffer).unwrap();
                let request = Request::new(User::of(1), Role::of(1), step(), []);
                assert!(table.decide(&request).is_ok());
                let expected = Refusal::ExclusivePrivileges {
                    rule: 1,
                    exclusion: 1,
                };
                assert_eq!(table.decide(&request), Err(expected));
            });
        }
    });
    assert_eq!(buffers[0], buffers[1]);
}
