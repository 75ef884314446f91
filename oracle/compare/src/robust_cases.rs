//! Cases of the robustness run: good arguments, damaged copies and random bytes, most of them short,
//! with outputs and scratches of every kind of length.

use crate::call::{Call, Case, EachCase, Gives};
use crate::robust_args::{Arg, Family, Limits, damage};
use feel_cases::Random;

/// How many families of arguments are at hand.
const FAMILIES: usize = 256;

/// After so many cases a new family takes the place of an old one.
const RENEWED: u64 = 64;

/// One case in so many has records that are as long as may be: the Rust takes long to read them.
const LONG: usize = 3_000;

/// One record in so many has the highest level, or one more.
const DEEP: usize = 100;

/// One context in so many is another value.
const OTHER: usize = 40;

/// The scratch that a call wants.
#[derive(Debug, Clone, Copy, PartialEq, Eq)]
enum Scratch {
    None,
    /// As long as both arguments.
    Together,
    /// Four times as long as the argument.
    FourTimes,
}

/// The arguments of a call.
fn args_of(name: &str) -> &'static [Arg] {
    use Arg::{
        Byte, Context, Name, NamedType, OtherContext, OtherType, Parts, Path, SimpleTable, Table,
        Text, Type, TypeName, Value,
    };
    // A strict call takes the arguments of the ported one.
    match name.trim_start_matches("strict_") {
        "check_value" | "value_least_type" | "value_type_of" => &[Value],
        "value_is_conformant" | "value_coerced" => &[Value, Type],
        "type_is_conformant"
        | "type_instance_of"
        | "type_common_supertype"
        | "type_common_subtype" => &[Type, OtherType],
        "type_get_value_checked" | "type_get_conformant_value" => &[Type, Value],
        "bif_feel_type" => &[Byte],
        "context_get_first" | "context_is_empty" | "context_len" => &[Context],
        "context_search_deep" | "context_contains_deep" => &[Context, Path],
        "context_create_entries" | "context_apply_entries" => &[Context, Path, Value],
        "context_zip" | "context_overwrite" => &[Context, OtherContext],
        "context_move_entry" => &[Context, Name, Name],
        "context_set_entry" => &[Context, Name, Value],
        "names_display" => &[NamedType, Table],
        "table_check" => &[SimpleTable],
        "table_type_is_conformant"
        | "table_type_common_supertype"
        | "table_type_common_subtype" => &[SimpleTable, Type, OtherType],
        "table_value_is_conformant" => &[SimpleTable, Value, Type],
        "table_value_least_type" => &[SimpleTable, Value],
        "names_from_str" | "names_is_built_in_type_name" => &[TypeName],
        "names_name_new" => &[Parts],
        "names_trim" => &[Text],
        _ if name.starts_with("value_is_") => &[Value],
        _ if name.starts_with("interval_") => &[Byte],
        _ if name.starts_with("context_") => &[Context, Name],
        _ => &[Type],
    }
}

fn scratch_of(name: &str) -> Scratch {
    let name = name.trim_start_matches("strict_");
    match name.trim_start_matches("table_") {
        "type_common_supertype" | "type_common_subtype" => Scratch::Together,
        "value_least_type" | "value_type_of" => Scratch::FourTimes,
        _ => Scratch::None,
    }
}

/// Makes the cases; the same seed gives the same ones.
pub struct Maker {
    random: Random,
    families: Vec<Family>,
    limits: Limits,
}

impl Maker {
    pub fn new(seed: u64) -> Maker {
        let mut random = Random::new(seed);
        let families = (0..FAMILIES).map(|_| Family::new(&mut random)).collect();
        Maker {
            random,
            families,
            limits: Limits::new(),
        }
    }

    /// So many cases of a call.
    pub fn cases(&mut self, call: &Call, count: u64, each: &mut EachCase) {
        let kinds = args_of(call.name);
        let mut args = vec![vec![]; kinds.len()];
        for number in 0..count {
            if number % RENEWED == 0 {
                self.renew();
            }
            self.fill(kinds, &mut args);
            let args: Vec<&[u8]> = args.iter().map(Vec::as_slice).collect();
            // A table wants no scratch.
            let records = match kinds {
                [Arg::SimpleTable, ..] => &args[1..],
                _ => &args,
            };
            let scratch = self.scratch(scratch_of(call.name), records);
            let output = match call.gives {
                Gives::Length => self.output(call, &args),
                _ => 0,
            };
            each(Case {
                args: &args,
                others: None,
                scratch,
                output,
            });
        }
    }

    fn renew(&mut self) {
        let place = self.random.below(FAMILIES);
        self.families[place] = Family::new(&mut self.random);
    }

    /// Makes the arguments: most of one family, and at most one of them damaged.
    fn fill(&mut self, kinds: &[Arg], args: &mut [Vec<u8>]) {
        let family = self.random.below(FAMILIES);
        let damaged = match self.random.below(8) {
            0..5 => None,
            _ => Some(self.random.below(kinds.len())),
        };
        let long = self.random.below(LONG) == 0;
        for (place, (kind, arg)) in kinds.iter().zip(args).enumerate() {
            arg.clear();
            self.put(*kind, family, long, arg);
            if damaged == Some(place) {
                damage(*kind, arg, &mut self.random);
            }
        }
    }

    fn put(&mut self, kind: Arg, family: usize, long: bool, arg: &mut Vec<u8>) {
        let random = &mut self.random;
        let family = match random.below(8) {
            0 => &self.families[random.below(FAMILIES)],
            _ => &self.families[family],
        };
        let limits = if long && random.below(3) > 0 {
            self.limits.long(kind)
        } else if random.below(DEEP) == 0 {
            self.limits.deep(kind)
        } else {
            &[]
        };
        match kind {
            Arg::Byte => arg.push(match random.below(4) {
                0 => random.byte(),
                1 => random.below(90) as u8,
                _ => random.below(6) as u8,
            }),
            Arg::Name => arg.extend(family.name(random).to_le_bytes()),
            _ if !limits.is_empty() => arg.extend(&limits[random.below(limits.len())]),
            Arg::Context if random.below(OTHER) == 0 => arg.extend(family.record(Arg::Value)),
            _ => arg.extend(family.record(kind)),
        }
    }

    fn scratch(&mut self, scratch: Scratch, args: &[&[u8]]) -> usize {
        let need = match scratch {
            Scratch::None => return 0,
            Scratch::Together => args[0].len() + args[1].len(),
            Scratch::FourTimes => 4 * args[0].len(),
        };
        match self.random.below(16) {
            0 => 0,
            1 => need.saturating_sub(1),
            2 => self.random.below(need + 1),
            3 => need + 1 + self.random.below(64),
            _ => need,
        }
    }

    /// A length of the output: none, any, ample, or around what the answer needs.
    fn output(&mut self, call: &Call, args: &[&[u8]]) -> usize {
        let together: usize = args.iter().map(|arg| arg.len()).sum();
        let kind = self.random.below(12);
        match kind {
            0 => 0,
            1 => self.random.below(together + 2),
            2..6 => together + 16 + self.random.below(32),
            _ => {
                let need = need(call, args);
                match kind {
                    6 | 7 => need.saturating_sub(1),
                    8..11 => need,
                    _ => need + 1 + self.random.below(16),
                }
            }
        }
    }
}

/// How long the Rust's answer is; 1 where it refuses.
fn need(call: &Call, args: &[&[u8]]) -> usize {
    let expected = (call.expected)(Case {
        args,
        others: None,
        scratch: usize::MAX,
        output: usize::MAX,
    });
    match expected.answer.high() {
        0 => expected.output.len(),
        _ => 1,
    }
}

#[cfg(test)]
mod tests {
    use super::*;
    use crate::calls::CALLS;
    use crate::lent::Standing;
    use crate::run::run_cases;

    fn lengths(name: &str) -> Vec<Vec<usize>> {
        let call = CALLS.iter().find(|call| call.name == name);
        let mut lengths = vec![];
        Maker::new(1).cases(call.expect("a call"), 20_000, &mut |case| {
            let args = case.args.iter().map(|arg| arg.len());
            lengths.push(args.chain([case.scratch, case.output]).collect());
        });
        lengths
    }

    #[test]
    fn lengths_of_every_kind_occur() {
        let lengths = lengths("value_type_of");
        let has = |wanted: fn(&[usize]) -> bool| lengths.iter().any(|case| wanted(case));
        assert!(has(|case| case[0] == 0));
        assert!(has(|case| case[0] == 16_384));
        assert!(has(|case| case[0] > 16_384));
        assert!(has(|case| case[1] == 0));
        assert!(has(|case| case[1] + 1 == 4 * case[0]));
        assert!(has(|case| case[2] == 0));
        let short = lengths.iter().filter(|case| case[0] < 300).count();
        assert!(short > 18_000, "{short} are short");
    }

    #[test]
    fn every_call_is_answered_and_refused() {
        let mut maker = Maker::new(1);
        for call in CALLS {
            for standing in [Standing::AtPages, Standing::Heap] {
                let tally = run_cases(&call, standing, |each| maker.cases(&call, 4_000, each));
                assert_eq!(tally.smallest, None, "{tally}");
                assert_eq!(tally.cases, 4_000);
                assert!(tally.accepted > 200, "{tally}");
                assert_eq!(tally.refused.len(), call.refusals.len(), "{tally}");
                // A result that is too long is seldom.
                let mut counts = tally.refused.iter().filter(|(number, _)| **number != 17);
                assert!(counts.all(|(_, count)| *count > 0), "{tally}");
            }
        }
    }
}
