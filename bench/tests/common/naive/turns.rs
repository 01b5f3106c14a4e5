//! Fewer turns at the same length, by the plainest reading of document 02's order 6:
//! words are made as in kinds 3 and 4, but for each first letter by itself, and of two
//! words the one with fewer runs is better, or the first if they have as many.

use super::{shortest_steps, Node, Step};

/// The best of the shortest words that lead from s to t. A word from a node is a step
/// and a word from the node after it; which of these is best may depend on the step, so
/// the best for each first letter are kept.
pub fn straightest_word(size: Node, steps: &[Step], s: Node, t: Node) -> Option<Vec<u8>> {
    let index = |p: Node| (p.1 * (size.0 + 1) + p.0) as usize;
    let mut words: Vec<Vec<Vec<u8>>> = vec![Vec::new(); index(size) + 1];
    for step in shortest_steps(size, steps, s, t)? {
        let mut made: Vec<Vec<u8>> = Vec::new();
        if step.to == index(t) {
            made.push(vec![step.letter]);
        }
        for rest in &words[step.to] {
            made.push([&[step.letter], rest.as_slice()].concat());
        }
        words[step.from].push(best(made));
    }
    Some(best(words.swap_remove(index(s))))
}

fn best(words: Vec<Vec<u8>>) -> Vec<u8> {
    words.into_iter().min_by_key(|word| (runs(word), word.clone())).expect("a word")
}

fn runs(word: &[u8]) -> usize {
    1 + (1..word.len()).filter(|&k| word[k - 1] != word[k]).count()
}
