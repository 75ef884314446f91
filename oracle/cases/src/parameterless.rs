//! Types that differ at a parameterless function: at the end of every way into a type, and random
//! ones with such functions at every depth.

use crate::{ANY, Move, NULL, Random, Tree, ValueTree, near};

/// A step from a type to one of its children.
#[derive(Debug, Clone, Copy, PartialEq, Eq, PartialOrd, Ord)]
pub enum Step {
    List,
    Range,
    Entry,
    /// To a parameter of a function, first, last or between.
    Parameter,
    /// To the result of a function that has parameters.
    Result,
    /// To the result of a parameterless function.
    Inner,
}

pub const STEPS: [Step; 6] = [
    Step::List,
    Step::Range,
    Step::Entry,
    Step::Parameter,
    Step::Result,
    Step::Inner,
];

/// What two types have at the end of the way: a parameterless function, on one side at least.
#[derive(Debug, Clone, Copy, PartialEq, Eq, PartialOrd, Ord)]
pub enum End {
    /// Two with equal results.
    Equal,
    /// Two, the first result strictly below the second.
    Below,
    /// Two, the first result strictly above the second.
    Above,
    /// Two with results of which neither conforms to the other.
    Beside,
    /// Null on one side.
    NullFirst,
    NullSecond,
    /// Any on one side.
    AnyFirst,
    AnySecond,
    /// A function with a parameter on the second side.
    OtherCount,
    /// A list on the second side.
    OtherKind,
    /// In a context, under a name that only one side has.
    LoneFirst,
    LoneSecond,
}

pub const ENDS: [End; 12] = [
    End::Equal,
    End::Below,
    End::Above,
    End::Beside,
    End::NullFirst,
    End::NullSecond,
    End::AnyFirst,
    End::AnySecond,
    End::OtherCount,
    End::OtherKind,
    End::LoneFirst,
    End::LoneSecond,
];

impl End {
    /// Whether the first side strictly conforms to the second, and the second to the first.
    pub fn conforms(self) -> [bool; 2] {
        match self {
            End::Equal => [true, true],
            End::Below | End::NullFirst | End::AnySecond | End::LoneFirst => [true, false],
            End::Above | End::NullSecond | End::AnyFirst | End::LoneSecond => [false, true],
            End::Beside | End::OtherCount | End::OtherKind => [false, false],
        }
    }
}

/// Types of which the first is strictly below the second.
const BELOW: [[&[u8]; 2]; 10] = [
    [&[0x22], &[0x20]],
    [&[0x29], &[0x22]],
    [&[0x29], &[0x20]],
    [&[0x2A, 0x22], &[0x2A, 0x20]],
    [&[0x2B, 0x29], &[0x2B, 0x23]],
    [&[0x2C, 1, 0, 1, 0, 0x22], &[0x2C, 0, 0]],
    [&[0x2D, 1, 0x20, 0x22], &[0x2D, 1, 0x22, 0x22]],
    [&[0x2D, 0, 0x22], &[0x2D, 0, 0x20]],
    [&[0x2D, 0, 0x29], &[0x2D, 0, 0x2A, 0x21]],
    [
        &[0x2D, 1, 0x2D, 0, 0x20, 0x20],
        &[0x2D, 1, 0x2D, 0, 0x24, 0x20],
    ],
];

/// Types of which neither conforms to the other.
const BESIDE: [[&[u8]; 2]; 8] = [
    [&[0x22], &[0x23]],
    [&[0x2A, 0x22], &[0x2B, 0x22]],
    [&[0x2A, 0x22], &[0x2A, 0x23]],
    [&[0x2C, 1, 0, 1, 0, 0x22], &[0x2C, 1, 0, 2, 0, 0x23]],
    [&[0x2D, 0, 0x22], &[0x2D, 0, 0x23]],
    [&[0x2D, 1, 0x22, 0x22], &[0x2D, 1, 0x23, 0x22]],
    [&[0x21], &[0x2D, 0, 0x21]],
    [&[0x2D, 0, 0x21], &[0x2D, 1, 0x20, 0x21]],
];

/// The two types that differ so.
pub fn ends(end: End, random: &mut Random) -> [Tree; 2] {
    let function = |result: Tree| Tree::Function(vec![], Box::new(result));
    let any_result = Tree::random(3, 1 + random.below(3), random);
    let alone = function(any_result.clone());
    let of_two = |two: [&[u8]; 2]| two.map(|t| function(Tree::of(t)));
    let turned = |[a, b]: [Tree; 2]| [b, a];
    match end {
        End::Equal => [alone.clone(), alone],
        End::Below => of_two(random.pick(&BELOW)),
        End::Above => turned(of_two(random.pick(&BELOW))),
        End::Beside if random.below(2) == 0 => of_two(random.pick(&BESIDE)),
        End::Beside => turned(of_two(random.pick(&BESIDE))),
        End::NullFirst => [NULL, alone],
        End::NullSecond => [alone, NULL],
        End::AnyFirst => [ANY, alone],
        End::AnySecond => [alone, ANY],
        End::OtherCount => [alone, Tree::Function(vec![ANY], Box::new(any_result))],
        End::OtherKind => [alone, Tree::One(0x2A, Box::new(any_result))],
        End::LoneFirst => with_lone_name(alone, random),
        End::LoneSecond => turned(with_lone_name(alone, random)),
    }
}

/// Two contexts that are equal but for an entry of the first.
fn with_lone_name(entry: Tree, random: &mut Random) -> [Tree; 2] {
    let common: Vec<(u16, Tree)> = (0..random.below(3))
        .map(|number| (2 * number as u16 + 1, small(random)))
        .collect();
    let mut entries = common.clone();
    let place = random.below(entries.len() + 1);
    entries.insert(place, (2 * place as u16, entry));
    [entries, common].map(Tree::Context)
}

/// Two types with these children, equal in all else.
pub fn around(step: Step, two: [Tree; 2], random: &mut Random) -> [Tree; 2] {
    around_with(step, two, 2, random)
}

/// The same for a way of many steps: a function has one parameter. The Rust compares the results of
/// functions once for each parameter, so that its time grows by this factor with each step.
pub fn around_once(step: Step, two: [Tree; 2], random: &mut Random) -> [Tree; 2] {
    around_with(step, two, 0, random)
}

/// With up to so many parameters beside the one that a function must have.
fn around_with(step: Step, [a, b]: [Tree; 2], most: usize, random: &mut Random) -> [Tree; 2] {
    let one = |command| [&a, &b].map(|child| Tree::One(command, Box::new(child.clone())));
    match step {
        Step::List => one(0x2A),
        Step::Range => one(0x2B),
        Step::Entry => {
            let before: Vec<Tree> = (0..random.below(3)).map(|_| small(random)).collect();
            let after: Vec<Tree> = (0..random.below(3)).map(|_| small(random)).collect();
            [a, b].map(|child| {
                let children = before.iter().cloned().chain([child]);
                let children = children.chain(after.iter().cloned());
                Tree::Context((0..).zip(children).collect())
            })
        }
        Step::Parameter => {
            let count = random.below(most + 1);
            let mut parameters: Vec<Tree> = (0..count).map(|_| small(random)).collect();
            let place = random.below(parameters.len() + 1);
            parameters.insert(place, ANY);
            let result = small(random);
            [a, b].map(|child| {
                let mut parameters = parameters.clone();
                parameters[place] = child;
                Tree::Function(parameters, Box::new(result.clone()))
            })
        }
        Step::Result => {
            let count = 1 + random.below(most + 1);
            let parameters: Vec<Tree> = (0..count).map(|_| small(random)).collect();
            [a, b].map(|child| Tree::Function(parameters.clone(), Box::new(child)))
        }
        Step::Inner => [a, b].map(|child| Tree::Function(vec![], Box::new(child))),
    }
}

fn small(random: &mut Random) -> Tree {
    Tree::random(3, 1 + random.below(3), random)
}

/// The type with many parameterless functions: in the place of lists, by parameters dropped, around
/// leaves.
pub fn with_parameterless(tree: Tree, random: &mut Random) -> Tree {
    let may_grow = tree.level() < 28;
    replaced(tree, may_grow, random)
}

fn replaced(tree: Tree, may_grow: bool, random: &mut Random) -> Tree {
    let inside = |child: Tree, random: &mut Random| replaced(child, may_grow, random);
    match tree {
        Tree::Simple(_) if may_grow && random.below(5) == 0 => {
            Tree::Function(vec![], Box::new(tree))
        }
        Tree::Simple(_) => tree,
        Tree::One(command, inner) => {
            let inner = Box::new(inside(*inner, random));
            match random.below(3) {
                0 => Tree::Function(vec![], inner),
                _ => Tree::One(command, inner),
            }
        }
        Tree::Context(entries) => {
            let entry = |(name, child)| (name, inside(child, random));
            Tree::Context(entries.into_iter().map(entry).collect())
        }
        Tree::Function(parameters, result) => {
            let keep = random.below(3) > 0;
            let parameters = parameters.into_iter().filter(|_| keep);
            let parameters = parameters.map(|child| inside(child, random)).collect();
            Tree::Function(parameters, Box::new(inside(*result, random)))
        }
    }
}

/// The value with many parameterless functions in the types of its function definitions.
pub fn value_with_parameterless(value: ValueTree, random: &mut Random) -> ValueTree {
    let mut inside = |child: ValueTree| value_with_parameterless(child, random);
    match value {
        ValueTree::Range(interval, ends) => ValueTree::Range(interval, Box::new(ends.map(inside))),
        ValueTree::List(items) => ValueTree::List(items.into_iter().map(inside).collect()),
        ValueTree::Context(entries) => {
            let entry = |(name, child)| (name, inside(child));
            ValueTree::Context(entries.into_iter().map(entry).collect())
        }
        ValueTree::Definition(body, parameters, result) => {
            let parameter = |(name, t)| (name, replaced(t, false, random));
            let parameters = parameters.into_iter().map(parameter).collect();
            ValueTree::Definition(body, parameters, replaced(result, false, random))
        }
        other => other,
    }
}

/// A copy in which the result of one parameterless function is changed so that the whole moves as
/// told; where there is none, a copy near the type.
pub fn near_result(tree: &Tree, how: Move, random: &mut Random) -> Tree {
    let mut copy = tree.clone();
    let mut left = match count(tree) {
        0 => return near(tree, how, random),
        count => random.below(count),
    };
    change(&mut copy, how, &mut left, random);
    copy
}

/// How many parameterless functions are in a type.
fn count(tree: &Tree) -> usize {
    match tree {
        Tree::Simple(_) => 0,
        Tree::One(_, inner) => count(inner),
        Tree::Context(entries) => entries.iter().map(|(_, child)| count(child)).sum(),
        Tree::Function(parameters, result) => {
            usize::from(parameters.is_empty())
                + parameters.iter().map(count).sum::<usize>()
                + count(result)
        }
    }
}

/// Changes the result of the function behind so many others; says whether it was there.
fn change(tree: &mut Tree, how: Move, left: &mut usize, random: &mut Random) -> bool {
    match tree {
        Tree::Simple(_) => false,
        Tree::One(_, inner) => change(inner, how, left, random),
        Tree::Context(entries) => entries
            .iter_mut()
            .any(|(_, child)| change(child, how, left, random)),
        Tree::Function(parameters, result) => {
            if parameters.is_empty() {
                if *left == 0 {
                    **result = near(result, how, random);
                    return true;
                }
                *left -= 1;
            }
            parameters
                .iter_mut()
                .any(|child| change(child, how.turned(), left, random))
                || change(result, how, left, random)
        }
    }
}

#[cfg(test)]
mod tests {
    use super::*;

    #[test]
    fn one_result_is_changed() {
        let mut random = Random::new(1);
        // function<function<>->number>->list<function<>->string>
        let tree = Tree::of(&[0x2D, 1, 0x2D, 0, 0x22, 0x2A, 0x2D, 0, 0x23]);
        assert_eq!(count(&tree), 2);
        let copies: Vec<Vec<u8>> = (0..2_000)
            .map(|_| near_result(&tree, Move::Up, &mut random).bytes())
            .collect();
        for bytes in [
            [0x2D, 1, 0x2D, 0, 0x29, 0x2A, 0x2D, 0, 0x23],
            [0x2D, 1, 0x2D, 0, 0x22, 0x2A, 0x2D, 0, 0x20],
        ] {
            assert!(copies.contains(&bytes.to_vec()), "{bytes:02X?}");
        }
        let kept = |copy: &Vec<u8>| copy[..4] == [0x2D, 1, 0x2D, 0];
        assert!(copies.iter().all(kept));
    }

    #[test]
    fn many_functions_are_parameterless() {
        let mut random = Random::new(2);
        let mut with = 0;
        for _ in 0..1_000 {
            let tree = Tree::random_of_any_size(&mut random);
            let tree = with_parameterless(tree, &mut random);
            assert!(tree.level() <= 32);
            assert_eq!(Tree::of(&tree.bytes()), tree);
            with += usize::from(count(&tree) > 0);
        }
        assert!(with > 600, "{with}");
    }

    #[test]
    fn what_stands_beside_is_equal() {
        let mut random = Random::new(3);
        for step in STEPS {
            for _ in 0..100 {
                let two = ends(End::Beside, &mut random);
                let parents = around(step, two.clone(), &mut random).map(|tree| tree.bytes());
                let [a, b] = two.map(|tree| tree.bytes());
                let before = parents[0].windows(a.len()).position(|part| part == a);
                assert!(
                    before.is_some() && parents[0].len() - a.len() == parents[1].len() - b.len()
                );
            }
        }
    }
}
