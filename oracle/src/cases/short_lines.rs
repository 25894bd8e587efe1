//! All short lines.

use super::forms::written;
use crate::format::*;

/// Every sheet of up to so many arguments of up to so many bytes from the alphabet, ordered by the number of arguments,
/// then by their lengths from the left, then by their bytes in the order of the alphabet.
pub fn short_lines(alphabet: &[u8], arguments: usize, bytes: usize) -> impl Iterator<Item = Sheet> {
    let alphabet = alphabet.to_vec();
    let lengths = (0..=arguments).flat_map(move |count| tuples(count, bytes + 1));
    lengths.flat_map(move |lengths| {
        let alphabet = alphabet.clone();
        let letters = tuples(lengths.iter().sum(), alphabet.len());
        letters.map(move |letters| cut(&lengths, &letters, &alphabet))
    })
}

/// Every list of `count` numbers below `base`, in the order of lists.
fn tuples(count: usize, base: usize) -> impl Iterator<Item = Vec<usize>> {
    let first = (count == 0 || base > 0).then(|| vec![0; count]);
    std::iter::successors(first, move |list| {
        let mut next = list.clone();
        let at = next.iter().rposition(|number| number + 1 < base)?;
        next[at] += 1;
        next[at + 1..].fill(0);
        Some(next)
    })
}

/// The letters, numbered by the alphabet, cut into arguments of these lengths.
fn cut(lengths: &[usize], letters: &[usize], alphabet: &[u8]) -> Sheet {
    let mut letters = letters.iter().map(|k| alphabet[*k]);
    let arguments = lengths.iter().map(|length| letters.by_ref().take(*length).collect());
    Sheet {
        arguments: arguments.collect(),
    }
}

/// Forms to run all short lines on.
pub fn sample_forms() -> Vec<Form> {
    written(&[
        "flag(-v); flag(-q); number(-w); switch(-b); fallback(text(-b), \"\")",
        "switch(-v); switch(-q); optional(number(-w)); switch(-b); optional(text(-b))",
        "choice(flag(-v), flag(-q))",
        "count(flag(-v)); many(optional(flag(-q)))",
        "many(operand); switch(-v)",
        "optional(operand#); optional!(operand#); optional(operand)",
        "optional(text=(-w --w)); many!(number=(-v)); switch(-q)",
        "many(non-strict); many(strict)",
        "operand; guard(fallback(number(-w), 9), 1..5)",
        "fallback(choice(text(-w), operand), \"none\"); last(switch(-v))",
        "choice(many(flag(-v)), some(flag(-q))); optional(some(number(-w)))",
        "some!(choice(text(-v), strict)); count(switch(-v))",
        "last(optional(number(-w --))); choice(optional(flag(-v)), last(optional!(switch(-q))))",
        "choice(fallback(number(-w), 7), choice(guard(operand#, 1..7), count(flag(-v)))); \
         many(choice(strict, non-strict))",
    ])
}
