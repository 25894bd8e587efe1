//! The proved code beside the Rust that it must equal, in one process.

mod batch_slices;
mod batches;
mod calls;
mod careful;
mod careful_batches;
mod careful_commands;
mod careful_commands_known;
mod careful_known;
mod checks;
mod command_slices;
#[cfg(live)]
mod commands;
mod forged_marks;
mod idle;
mod idle_known;
mod join;
mod lent;
mod looked;
#[cfg(live)]
mod marks;
#[cfg(live)]
mod missing;
mod previews;
mod replay;
mod run;
mod short_sheets;
#[cfg(live)]
mod slices;
mod split;
mod tables;
mod utf8;
mod why;
mod why_known;

pub use replay::replay;
#[cfg(live)]
pub use replay::{call_of, state_of};
pub use run::show as show_run;
pub use split::show as show_split;
pub use utf8::show_arguments;

/// Cases tried and differences found.
#[derive(Default)]
pub struct Compared {
    pub cases: u64,
    pub differ: u64,
    /// how often each number was answered, where a layer counts them
    pub numbers: std::collections::BTreeMap<u32, u64>,
    /// single calls of `take_cmd` that took a word
    commands: u64,
    /// what the cases must have met, where a layer says so
    pub goals: Vec<Goal>,
}

/// What must be met so often, or a comparison shows too little.
pub struct Goal {
    pub what: &'static str,
    pub met: u64,
    pub least: u64,
}

impl Compared {
    /// How many tries an input that differs is worth: only the first that differ are printed.
    fn tries(&self) -> usize {
        if self.differ < 10 { 2000 } else { 0 }
    }

    fn answered(&mut self, number: u32) {
        *self.numbers.entry(number).or_default() += 1;
    }

    /// One case: equal, or printed if it is among the first that differ.
    fn same<T: PartialEq + std::fmt::Debug>(&mut self, what: &str, input: &dyn Fn() -> String, ours: T, theirs: T) {
        if ours != theirs {
            self.differ += 1;
            if self.differ <= 10 {
                println!("DIFFER {what} on {}: ours {ours:?}, the Rust's {theirs:?}", input());
            }
        }
    }

    /// Every word of a slice.
    fn words(&mut self, what: &str, input: &dyn Fn() -> String, ours: &[u32], theirs: &[u32]) {
        if ours != theirs {
            let at = ours.iter().zip(theirs).position(|(a, b)| a != b).unwrap_or(0);
            self.same(what, &|| format!("{} at word {at}", input()), ours[at], theirs[at]);
        }
    }
}

/// Where two differ first: what it is, the first's word and the second's.
type Difference = (String, u32, u32);

/// Of slices with these names, by someone who says what the first must be.
fn difference(names: &[&str], whose: &str, ours: &[Vec<u32>], theirs: &[Vec<u32>]) -> Option<Difference> {
    let k = (0..names.len()).find(|k| ours[*k] != theirs[*k])?;
    let at = ours[k].iter().zip(&theirs[k]).position(|(a, b)| a != b)?;
    Some((format!("{} at word {at}, by {whose},", names[k]), ours[k][at], theirs[k][at]))
}

/// The smallest input that still differs, as far as so many tries come, and how it does.
fn smallest<T>(
    found: (T, Difference),
    mut tries: usize,
    smaller: impl Fn(&T) -> Vec<T>,
    differs: impl Fn(&T) -> Option<Difference>,
) -> (T, Difference) {
    let mut least = found;
    let mut differs = |small: T| {
        tries = tries.checked_sub(1)?;
        differs(&small).map(|how| (small, how))
    };
    while let Some(small) = smaller(&least.0).into_iter().find_map(&mut differs) {
        least = small;
    }
    least
}

/// A slice filled with a pattern, so that an untouched word shows.
fn pattern(length: usize) -> Vec<u32> {
    (0..length as u32).map(|k| 0xdead_0000 ^ k).collect()
}

/// The same of bytes.
fn byte_pattern(length: usize) -> Vec<u8> {
    (0..length).map(|k| 0xa5 ^ k as u8).collect()
}

/// A layer by name, with a seed and a count of random cases; none if this build has no such layer.
pub fn compare(layer: &str, seed: u64, count: Option<u64>) -> Option<Compared> {
    Some(match layer {
        "utf8" => utf8::compare(seed, count.unwrap_or(1_000_000)),
        "checks" => checks::compare(seed, count.unwrap_or(250_000)),
        "portable" => checks::compare_portable(),
        "forged" => calls::compare_forged(seed, count.unwrap_or(200_000)),
        "forged-lent" => lent::compare_forged(seed, count.unwrap_or(150_000)),
        "forged-eval" => run::compare_forged(seed, count.unwrap_or(100_000)),
        "batches" => batches::compare(seed, count.unwrap_or(100_000)),
        "careful-batches" => careful_batches::compare(seed, count.unwrap_or(100_000)),
        "careful-commands" => careful_commands::compare(seed, count.unwrap_or(1_000_000)),
        "idle" => idle::compare(seed, count.unwrap_or(1_000_000)),
        "join" => join::compare(seed, count.unwrap_or(1_000_000)),
        "preview" => previews::compare(seed, count.unwrap_or(300_000)),
        "short-sheets" => short_sheets::compare(seed, count),
        "forged-tables" => tables::compare(seed, count.unwrap_or(200_000)),
        "why" => why::compare(seed, count.unwrap_or(1_000_000)),
        "careful" => careful::compare(seed, count.unwrap_or(1_000_000)),
        #[cfg(live)]
        "calls" => calls::compare(seed, count.unwrap_or(300_000)),
        #[cfg(live)]
        "lent" => lent::compare(seed, count.unwrap_or(300_000)),
        #[cfg(live)]
        "eval" => run::compare_eval(seed, count.unwrap_or(300_000)),
        #[cfg(live)]
        "run" => run::compare(seed, count.unwrap_or(300_000)),
        #[cfg(live)]
        "commands" => commands::compare(seed, count.unwrap_or(300_000)),
        #[cfg(live)]
        "missing" => missing::compare(seed, count.unwrap_or(1_000_000)),
        #[cfg(live)]
        "marks" => marks::compare(seed, count.unwrap_or(1_000_000)),
        #[cfg(live)]
        "split" => split::compare(seed, count.unwrap_or(300_000)),
        _ => return None,
    })
}
