//! Function definitions inside values, each beside the type that the value has there.

use crate::{Random, Tree, ValueTree, null};

/// A step from a value to one of its parts; the other parts are Null, or not in the type.
#[derive(Debug, Clone, Copy, PartialEq, Eq, PartialOrd, Ord)]
pub enum ValueStep {
    Item,
    ItemAfterNull,
    ItemBeforeNull,
    Start,
    End,
    Entry,
}

pub const VALUE_STEPS: [ValueStep; 6] = [
    ValueStep::Item,
    ValueStep::ItemAfterNull,
    ValueStep::ItemBeforeNull,
    ValueStep::Start,
    ValueStep::End,
    ValueStep::Entry,
];

/// How two values stand together in one.
#[derive(Debug, Clone, Copy, PartialEq, Eq, PartialOrd, Ord)]
pub enum Holder {
    List,
    NullFirst,
    NullBetween,
    Range,
}

pub const HOLDERS: [Holder; 4] = [
    Holder::List,
    Holder::NullFirst,
    Holder::NullBetween,
    Holder::Range,
];

/// The function definition with this function type; none where it is no function type.
pub fn definition(t: &Tree, random: &mut Random) -> Option<ValueTree> {
    let Tree::Function(parameters, result) = t else {
        return None;
    };
    let parameter = |t: &Tree| (random.below(4) as u16, t.clone());
    let parameters = parameters.iter().map(parameter).collect();
    let body = random.bits() as u16;
    Some(ValueTree::Definition(body, parameters, Tree::clone(result)))
}

/// A value with this part, and a type with this child: the value conforms to the type exactly when
/// the part conforms to the child.
pub fn value_around(
    step: ValueStep,
    v: ValueTree,
    t: Tree,
    random: &mut Random,
) -> (ValueTree, Tree) {
    let one = |command, t| Tree::One(command, Box::new(t));
    let range = |ends| ValueTree::Range([2, 0], Box::new(ends));
    match step {
        ValueStep::Item => (ValueTree::List(vec![v]), one(0x2A, t)),
        ValueStep::ItemAfterNull => (ValueTree::List(vec![null(), v]), one(0x2A, t)),
        ValueStep::ItemBeforeNull => (ValueTree::List(vec![v, null()]), one(0x2A, t)),
        ValueStep::Start => (range([v, null()]), one(0x2B, t)),
        ValueStep::End => (range([null(), v]), one(0x2B, t)),
        ValueStep::Entry => {
            let [before, after] = [0; 2].map(|_| random.below(2) as u16);
            let mut entries: Vec<(u16, ValueTree)> = (0..before).map(|n| (n, null())).collect();
            entries.push((before, v));
            entries.extend((0..after).map(|n| (before + 1 + n, ValueTree::Leaf(vec![0x01, 1]))));
            (
                ValueTree::Context(entries),
                Tree::Context(vec![(before, t)]),
            )
        }
    }
}

/// The two values in one.
pub fn held(holder: Holder, [a, b]: [ValueTree; 2]) -> ValueTree {
    match holder {
        Holder::List => ValueTree::List(vec![a, b]),
        Holder::NullFirst => ValueTree::List(vec![null(), a, b]),
        Holder::NullBetween => ValueTree::List(vec![a, null(), b]),
        Holder::Range => ValueTree::Range([1, 2], Box::new([a, b])),
    }
}

#[cfg(test)]
mod tests {
    use super::*;

    #[test]
    fn definitions_have_their_types() {
        let mut random = Random::new(1);
        let t = Tree::of(&[0x2D, 2, 0x22, 0x2D, 0, 0x21, 0x23]);
        let v = definition(&t, &mut random).expect("a function type");
        assert_eq!(v.shape(&mut random), t);
        assert_eq!(definition(&Tree::of(&[0x2A, 0x22]), &mut random), None);
        for step in VALUE_STEPS {
            let (v, t) = value_around(step, v.clone(), t.clone(), &mut random);
            assert_eq!((v.level(), t.level()), (4, 4));
        }
        for holder in HOLDERS {
            assert_eq!(held(holder, [v.clone(), null()]).level(), 4);
        }
    }
}
