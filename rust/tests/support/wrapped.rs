//! What the independent reader and writer call a rule, a request and so on, in the wrapper's types.

use super::world::World;
use crate::independent::images;
use hastovimen::*;

pub fn privilege(privilege: images::Privilege) -> Privilege {
    Operation::of(privilege.operation).on(Target::of(privilege.target))
}

pub fn role(role: u16) -> Role {
    Role::of(role as u8)
}

pub fn rule(rule: &images::Rule) -> Rule {
    let levels: Vec<Level> = (rule.levels.iter())
        .map(|level| {
            let kind = ContextType::of(level.kind);
            match level.mark {
                images::Mark::Fixed(value) => Level::fixed(kind, ContextValue::of(value)),
                images::Mark::Every => Level::every(kind),
                images::Mark::Each => Level::each(kind),
                images::Mark::Range(low, high) => {
                    let [low, high] = [low, high].map(ContextValue::of);
                    Level::range(kind, low..=high).unwrap()
                }
            }
        })
        .collect();
    let mut built = Rule::over(Levels::new(&levels).unwrap());
    if let Some(first) = rule.first {
        built = built.first(privilege(first));
    }
    if let Some(last) = rule.last {
        built = built.last(privilege(last));
    }
    for exclusion in &rule.exclusions {
        let m = exclusion.m as u8;
        let exclusion = match &exclusion.members {
            images::Members::Roles(roles) => {
                let roles: Vec<Role> = roles.iter().map(|&one| role(one)).collect();
                Exclusion::of_roles(m, &roles)
            }
            images::Members::Privileges(privileges) => {
                let privileges: Vec<_> = privileges.iter().map(|&one| privilege(one)).collect();
                Exclusion::of_privileges(m, &privileges)
            }
        };
        built = built.exclude(exclusion.unwrap());
    }
    built
}

pub fn request(request: &images::Request) -> Request {
    let levels: Vec<_> = (request.context.iter())
        .map(|&(kind, value)| (ContextType::of(kind), ContextValue::of(value)))
        .collect();
    Request::new(
        User::of(request.user),
        Roles::from_bits(request.roles).unwrap(),
        privilege(request.privilege),
        Context::new(&levels).unwrap(),
    )
}

/// The world's policy by the wrapper's builder, its permissions in as few blocks as they take; and
/// the same by the independent writer.
pub fn build(world: &World) -> (Vec<u8>, Vec<u8>) {
    let mut builder = PolicyBuilder::new();
    for one in &world.policy.rules {
        builder = builder.rule(rule(one));
    }
    let entries: Vec<_> = world.policy.permissions.iter().flatten().copied().collect();
    for entry in &entries {
        builder = builder.permit(role(entry.role), privilege(entry.privilege));
    }
    let mut same = images::Policy {
        rules: world.policy.rules.clone(),
        permissions: entries.chunks(61).map(|block| block.to_vec()).collect(),
    };
    if same.rules.is_empty() && same.permissions.is_empty() {
        same.permissions.push(vec![]);
    }
    (builder.build().unwrap(), images::write_policy(&same))
}
