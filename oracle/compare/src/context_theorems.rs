//! The theorems on samples of the calls over contexts. The arguments are accepted, and the call is
//! not refused.

use crate::call::Checks;
use crate::context_answers::{name, path};
use dsntk_feel::Name;
use dsntk_feel::context::FeelContext;
use dsntk_feel::values::Value;
use feel_form::{MAX_LENGTH, contexts, read_value};

/// A path is found exactly when it is contained; one name is found as an entry.
pub fn of_search(args: &[&[u8]]) -> Checks {
    let mut checks = Checks::default();
    let (c, path) = (args[0], path(args[1]));
    let part = contexts::search_deep(c, &path);
    checks.check(
        part.map(|part| part.is_some()) == contexts::contains_deep(c, &path),
        "theorem fails: a path is found exactly when it is contained",
    );
    if let [name] = path[..] {
        checks.check(
            part == contexts::get_entry(c, name),
            "theorem fails: an entry is the search of one name",
        );
    }
    checks
}

/// What is created is found, creating it again changes nothing, the other entries stay, and
/// `apply_entries` does the same unless what is on the way is no context.
pub fn of_create(args: &[&[u8]]) -> Checks {
    let (c, path, v) = (args[0], path(args[1]), args[2]);
    let after = contexts::create_entries(c, &path, v, MAX_LENGTH).expect("not refused");
    let mut checks = of_put(c, &path, v, &after);
    let applied = contexts::apply_entries(c, &path, v, MAX_LENGTH);
    let blocked = (1..path.len()).any(|end| {
        let part = contexts::search_deep(c, &path[..end]).expect("accepted");
        part.is_some_and(|part| c[part.place] != 0x0B)
    });
    checks.check(
        applied == if blocked { Err(16) } else { Ok(after) },
        "theorem fails: entries are applied as they are created, unless no context is on the way",
    );
    checks
}

/// What is applied is found, applying it again changes nothing, the other entries stay, and
/// `create_entries` does the same.
pub fn of_apply(args: &[&[u8]]) -> Checks {
    let (c, path, v) = (args[0], path(args[1]), args[2]);
    let after = contexts::apply_entries(c, &path, v, MAX_LENGTH).expect("not refused");
    let mut checks = of_put(c, &path, v, &after);
    checks.check(
        contexts::create_entries(c, &path, v, MAX_LENGTH) == Ok(after),
        "theorem fails: entries are created as they are applied",
    );
    checks
}

fn of_put(c: &[u8], path: &[u16], v: &[u8], after: &[u8]) -> Checks {
    let mut checks = Checks::default();
    let Some(first) = path.first() else {
        checks.check(c == after, "theorem fails: an empty path changes nothing");
        return checks;
    };
    let part = contexts::search_deep(after, path).expect("accepted");
    checks.check(
        part.is_some_and(|part| part.of(after) == v),
        "theorem fails: what is put at a path is found there",
    );
    checks.check(
        contexts::create_entries(after, path, v, MAX_LENGTH).is_ok_and(|again| again == after),
        "theorem fails: putting a value again changes nothing",
    );
    let first = feel_form::name(*first);
    checks.check(
        same_but(&tree(c), &tree(after), &[&first]),
        "theorem fails: the other entries stay",
    );
    checks
}

/// Every entry of the other is there, and every entry whose name the other has not.
pub fn of_zip(args: &[&[u8]]) -> Checks {
    let mut checks = Checks::default();
    let (c, other) = (tree(args[0]), tree(args[1]));
    let after = tree(&contexts::zip(args[0], args[1], MAX_LENGTH).expect("not refused"));
    let more = other.keys().filter(|name| !c.contains_entry(name)).count();
    checks.check(
        after.len() == c.len() + more,
        "theorem fails: a zip has the names of both",
    );
    checks.check(
        after
            .iter()
            .all(|(name, v)| Some(v) == taken(&other, &c, name)),
        "theorem fails: the other's entries come first in a zip",
    );
    checks
}

/// The names stay, with the values of the other where it has them.
pub fn of_overwrite(args: &[&[u8]]) -> Checks {
    let mut checks = Checks::default();
    let (c, other) = (tree(args[0]), tree(args[1]));
    let after = tree(&contexts::overwrite(args[0], args[1], MAX_LENGTH).expect("not refused"));
    checks.check(
        after.keys().eq(c.keys()),
        "theorem fails: overwriting keeps the names",
    );
    checks.check(
        after
            .iter()
            .all(|(name, v)| Some(v) == taken(&other, &c, name)),
        "theorem fails: the other's entries are written over those of equal names",
    );
    checks
}

/// The entry is found below the parent, and no longer at its place; the others stay.
pub fn of_move(args: &[&[u8]]) -> Checks {
    let mut checks = Checks::default();
    let (c, entry, parent) = (args[0], name(args[1]), name(args[2]));
    let after = contexts::move_entry(c, entry, parent, MAX_LENGTH).expect("not refused");
    let before = contexts::get_entry(c, entry).expect("accepted");
    let Some(part) = before else {
        checks.check(c == after, "theorem fails: an absent name moves nothing");
        return checks;
    };
    let found = contexts::search_deep(&after, &[parent, entry]).expect("accepted");
    checks.check(
        found.is_some_and(|found| found.of(&after) == part.of(c)),
        "theorem fails: what is moved is found below its parent",
    );
    let [entry, parent] = [entry, parent].map(feel_form::name);
    checks.check(
        tree(&after).contains_entry(&entry) == (entry == parent),
        "theorem fails: what is moved is gone from its place",
    );
    checks.check(
        same_but(&tree(c), &tree(&after), &[&entry, &parent]),
        "theorem fails: the other entries stay",
    );
    checks
}

/// Setting an entry is creating it at a path of one name.
pub fn of_set(args: &[&[u8]]) -> Checks {
    let mut checks = Checks::default();
    let (c, name, v) = (args[0], name(args[1]), args[2]);
    let after = contexts::set_entry(c, name, v, MAX_LENGTH).expect("not refused");
    checks.check(
        contexts::create_entries(c, &[name], v, MAX_LENGTH) == Ok(after),
        "theorem fails: an entry is set as it is created",
    );
    checks
}

/// Setting null is setting an entry to null without a trace.
pub fn of_set_null(args: &[&[u8]]) -> Checks {
    let mut checks = Checks::default();
    let (c, name) = (args[0], name(args[1]));
    let after = contexts::set_null(c, name, MAX_LENGTH).expect("not refused");
    checks.check(
        contexts::set_entry(c, name, &[0x00, 0], MAX_LENGTH) == Ok(after),
        "theorem fails: null is set as an entry",
    );
    checks
}

/// What is removed is gone, the others stay, and setting it again gives the context back.
pub fn of_remove(args: &[&[u8]]) -> Checks {
    let mut checks = Checks::default();
    let (c, name) = (args[0], name(args[1]));
    let after = contexts::remove_entry(c, name, MAX_LENGTH).expect("not refused");
    checks.check(
        contexts::contains_entry(&after, name) == Ok(false),
        "theorem fails: what is removed is gone",
    );
    let back = match contexts::get_entry(c, name).expect("accepted") {
        Some(part) => contexts::set_entry(&after, name, part.of(c), MAX_LENGTH),
        None => Ok(after),
    };
    checks.check(
        back.is_ok_and(|back| back == c),
        "theorem fails: what was removed can be set again",
    );
    checks
}

/// The value of a name, the other's first.
fn taken<'a>(other: &'a FeelContext, c: &'a FeelContext, name: &Name) -> Option<&'a Value> {
    other.get_entry(name).or(c.get_entry(name))
}

/// Whether both have the same entries but for these names.
fn same_but(before: &FeelContext, after: &FeelContext, names: &[&Name]) -> bool {
    let kept = |(name, _): &(&Name, &Value)| !names.contains(name);
    before.iter().filter(kept).eq(after.iter().filter(kept))
}

fn tree(bytes: &[u8]) -> FeelContext {
    let (value, _) = read_value(bytes).expect("accepted");
    FeelContext::try_from(value).expect("a context")
}

#[cfg(test)]
mod tests {
    use super::*;

    /// {1: true, 2: {3: Irrelevant}}
    const C: &[u8] = &[0x0B, 2, 0, 1, 0, 0x01, 1, 2, 0, 0x0B, 1, 0, 3, 0, 0x0F];

    /// {2: null, 5: Irrelevant}
    const OTHER: &[u8] = &[0x0B, 2, 0, 2, 0, 0x00, 0, 5, 0, 0x0F];

    #[test]
    fn samples_hold() {
        let v: &[u8] = &[0x03, 7, 0];
        let absent: &[u8] = &[9, 0];
        for (checks, held) in [
            (of_search(&[C, &[2, 0, 3, 0]]), 1),
            (of_search(&[C, &[2, 0]]), 2),
            (of_create(&[C, &[], v]), 2),
            (of_create(&[C, &[2, 0, 3, 0], v]), 4),
            (of_create(&[C, &[1, 0, 3, 0], v]), 4),
            (of_apply(&[C, &[2, 0, 4, 0], v]), 4),
            (of_apply(&[C, &[], v]), 2),
            (of_zip(&[C, OTHER]), 2),
            (of_overwrite(&[C, OTHER]), 2),
            (of_move(&[C, &[1, 0], &[2, 0]]), 3),
            (of_move(&[C, &[2, 0], &[2, 0]]), 3),
            (of_move(&[C, absent, &[2, 0]]), 1),
            (of_set(&[C, &[1, 0], v]), 1),
            (of_set_null(&[C, absent]), 1),
            (of_remove(&[C, &[2, 0]]), 2),
            (of_remove(&[C, absent]), 2),
        ] {
            assert_eq!((checks.held, checks.failed), (held, None));
        }
    }

    #[test]
    fn a_wrong_context_fails() {
        let v: &[u8] = &[0x0F];
        let failed = |after: &[u8]| of_put(C, &[2, 3], v, after).failed.unwrap_or("nothing");
        assert_eq!(failed(C), "nothing");
        assert!(failed(&[0x0B, 0, 0]).contains("found there"));
        let fewer = [0x0B, 1, 0, 2, 0, 0x0B, 1, 0, 3, 0, 0x0F];
        assert!(failed(&fewer).contains("the other entries stay"));
        assert!(of_put(C, &[], v, OTHER).failed.is_some());
    }
}
