//! Policies and tables with images of their own, and tables that grow.

mod independent;
mod support;

use hastovimen::*;
use independent::images;
use std::collections::HashSet;
use std::sync::RwLock;
use support::chance::Chance;
use support::world::World;
use support::wrapped::request;

/// What a program keeps: all that there is of a policy and its tables.
struct Kept {
    tables: Vec<TableBuf>,
}

fn kept_anywhere<T: Send + Sync + 'static>(_: &T) {}

/// Lent and owned, the same requests and closings get the same answers and leave the same images.
/// What was recorded less what was removed, by grants and by closings, is held.
#[test]
fn lent_and_owned_alike() {
    let mut chance = Chance::new(21);
    let mut all_closed = 0;
    for _ in 0..100 {
        let world = World::either(&mut chance);
        let blocks = chance.from(1, 3);
        let mut buffer = vec![0; blocks * BLOCK];
        let lent = Policy::check(&world.image).unwrap();
        let mut table = lent.fresh_table(&mut buffer).unwrap();
        let policy = Policy::own(world.image.clone()).unwrap();
        let mut kept = Kept {
            tables: vec![policy.new_table(blocks).unwrap()],
        };
        kept_anywhere(&kept);
        kept_anywhere(&policy);
        let (mut recorded, mut removed) = (0, 0);
        for i in 0..60 {
            let asked = request(&world.request(&mut chance));
            let first = kept.tables.len() - 1;
            assert_eq!(kept.tables[first].preview(&asked), table.preview(&asked));
            let decided = table.decide(&asked);
            assert_eq!(kept.tables[first].decide(&asked), decided);
            if let Ok(grant) = decided {
                recorded += u32::from(grant.recorded);
                removed += grant.removed;
            }
            if i % 20 == 15 {
                let outermost: Vec<_> = asked.context.levels().take(1).collect();
                let depot = Context::new(&outermost).unwrap();
                let closed = table.close(&depot);
                assert_eq!(kept.tables[first].close(&depot), closed);
                removed += closed.unwrap();
                all_closed += closed.unwrap();
            }
            assert_eq!(kept.tables[first].image(), table.image());
            assert_eq!(table.held() as u32, recorded - removed);
            if i % 20 == 10 {
                // Stored and opened again; the old one is kept, and not decided on any more.
                let image = kept.tables[first].image().to_vec();
                kept.tables.push(policy.own_table(image).unwrap());
            }
        }
        let image = table.image().to_vec();
        let owned = table.into_owned();
        assert_eq!(owned.policy(), &policy);
        assert_eq!(owned.into_image(), image);
        assert_eq!(buffer, image);
    }
    assert!(
        all_closed > 300,
        "closings have removed {all_closed} records"
    );
}

/// A table behind a lock: readers preview it together, a writer decides in between, and no preview
/// is of a table older than the one before it.
#[test]
fn readers_and_a_writer() {
    let step = Operation::of(1).on(Target::of(1));
    let twice = Exclusion::of_privileges(2, &[step, step]).unwrap();
    let policy = PolicyBuilder::new()
        .rule(Rule::over([]).exclude(twice))
        .permit(Role::of(1), step);
    let policy = Policy::own(policy.build().unwrap()).unwrap();
    let table = RwLock::new(policy.new_table(8).unwrap());
    let by = |user| Request::new(User::of(user), Role::of(1), step, []);
    std::thread::scope(|scope| {
        for _ in 0..3 {
            scope.spawn(|| {
                let mut last = 0;
                for _ in 0..100 {
                    let preview = table.read().unwrap().preview(&by(1_000)).unwrap();
                    assert!(preview.recorded && preview.held > 0 && preview.held >= last);
                    last = preview.held;
                }
            });
        }
        scope.spawn(|| {
            for user in 1..=100 {
                let granted = table.write().unwrap().decide(&by(user)).unwrap();
                assert_eq!(granted.held, user);
            }
        });
    });
    let table = table.into_inner().unwrap();
    assert_eq!(table.preview(&by(1_000)).unwrap().held, 101);
    assert_eq!(table.held(), 100);
}

/// A table is opened only under the policy that it was made under.
#[test]
fn another_policy() {
    let step = Operation::of(1).on(Target::of(1));
    let one = Policy::own(PolicyBuilder::new().build().unwrap()).unwrap();
    let image = PolicyBuilder::new().permit(Role::of(1), step).build();
    let other = Policy::own(image.unwrap()).unwrap();
    let stamp = Err(Refusal::TableStamp { block: 0 });
    let image = one.new_table(2).unwrap().into_image();
    assert_eq!(other.own_table(image.clone()).map(|_| ()), stamp);
    assert_eq!(other.open_table(&mut image.clone()).map(|_| ()), stamp);
    let mut table = one.own_table(image).unwrap();
    // Whatever is at hand, it is decided under its own, which permits nothing.
    let asked = Request::new(User::of(1), Role::of(1), step, []);
    assert_eq!(table.decide(&asked), Err(Refusal::NotPermitted));
    assert_eq!(table.policy(), &one);
}

#[test]
fn policies_are_equal_by_their_images() {
    let image = PolicyBuilder::new().build().unwrap();
    let lent = Policy::check(&image).unwrap();
    let owned = lent.clone().into_owned();
    assert_eq!(lent, owned);
    assert_eq!(HashSet::from([lent, owned.clone()]).len(), 1);
    // A clone shares the image of an owned one.
    assert_eq!(owned.clone().image().as_ptr(), owned.image().as_ptr());
    assert_eq!(
        owned.clone().into_owned().image().as_ptr(),
        owned.image().as_ptr()
    );
    assert_eq!(Policy::own(vec![0; 511]), Err(Refusal::PolicyLength));
}

#[test]
fn blocks_of_a_new_table() {
    let policy = Policy::own(PolicyBuilder::new().build().unwrap()).unwrap();
    for blocks in [0, 129, usize::MAX / BLOCK, usize::MAX] {
        let refused = policy.new_table(blocks).map(|_| ());
        assert_eq!(refused, Err(Refusal::TableLength));
    }
    for blocks in [1, 128] {
        let table = policy.new_table(blocks).unwrap();
        assert_eq!((table.blocks(), table.places()), (blocks, 15 * blocks));
        let empty = images::write_table(images::sums(policy.image()), &[], blocks);
        assert_eq!(table.image(), empty);
    }
}

/// A grown table is the image of the same records in more blocks, and goes on as the small one does
/// but for 34.
#[test]
fn grown_tables() {
    let mut chance = Chance::new(22);
    let mut full = 0;
    for _ in 0..300 {
        let world = World::either(&mut chance);
        let policy = Policy::check(&world.image).unwrap();
        let blocks = chance.from(1, 3);
        let count = images::places(blocks) - chance.below(3);
        let records = world.records(&mut chance, count);
        let image = images::write_table(world.stamp(), &records, blocks);
        let mut small = policy.own_table(image.clone()).unwrap();
        let more = chance.pick(&[blocks, blocks + 1, 9, 128]);
        let mut grown = small.grown(more).unwrap();
        assert_eq!(small.image(), image);
        let same = images::write_table(world.stamp(), &records, more);
        assert!(grown.image() == same, "the grown table is another");
        for _ in 0..5 {
            let asked = request(&world.request(&mut chance));
            let (before, after) = (small.decide(&asked), grown.decide(&asked));
            if before == Err(Refusal::TableFull) && more > blocks {
                full += 1;
                assert!(after.unwrap().recorded);
                break;
            }
            assert_eq!(after, before);
        }
    }
    assert!(full > 20, "{full} tables were full");
}

#[test]
fn tables_that_cannot_grow_so() {
    let policy = Policy::own(PolicyBuilder::new().build().unwrap()).unwrap();
    let table = policy.new_table(3).unwrap();
    for asked in [0, 1, 2] {
        let error = BuildError::FewerBlocks { has: 3, asked };
        assert_eq!(table.grown(asked).unwrap_err(), error);
    }
    for blocks in [129, usize::MAX] {
        let error = BuildError::TableBlocks(blocks);
        assert_eq!(table.grown(blocks).unwrap_err(), error);
    }
}
