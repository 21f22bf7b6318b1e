//! A small store, damaged in every place: each word, each link, each tuple.

use super::buffers::{fields, lay_out, next_of, Fields, FREE_HEAD, USED_COUNT, USED_HEAD};
use super::{lists, Draws};

/// Where the words of a buffer, or names, are at the edge of what fits.
const GREAT_WORDS: [u32; 5] = [65_535, 65_536, 0x7fff_ffff, 0x8000_0000, u32::MAX];

/// A store of at most ten records, and all that is made of it by damage.
pub fn draw(draws: &mut Draws) -> Vec<Vec<u32>> {
    let capacity = 1 + draws.below(10);
    let length = capacity + draws.below(16);
    let machine = lists::run(draws, capacity, length).machine;
    let tuples: Vec<Fields> = machine.tuples().map(fields).collect();
    let store = lay_out(draws, &tuples, capacity);
    let mut all = vec![store.clone()];
    all.extend(wrong_words(&store, capacity));
    all.extend(wrong_links(&store, capacity));
    for tuples in wrong_tuples(&tuples) {
        all.push(lay_out(draws, &tuples, capacity));
    }
    all
}

/// Each word set to every number up to C + 1, to great ones, and to one more
/// or less than it was: among them wrong counts, and chains that end early,
/// close to a ring or run into each other.
fn wrong_words(store: &[u32], capacity: usize) -> Vec<Vec<u32>> {
    let mut all = Vec::new();
    for (place, &word) in store.iter().enumerate() {
        let near = [word.wrapping_add(1), word.wrapping_sub(1)];
        let mut wrong: Vec<u32> = (0..=capacity as u32 + 1)
            .chain(GREAT_WORDS)
            .chain(near)
            .filter(|&other| other != word)
            .collect();
        wrong.sort_unstable();
        wrong.dedup();
        all.extend(wrong.into_iter().map(|other| changed(store, place, other)));
    }
    all
}

fn changed(store: &[u32], place: usize, word: u32) -> Vec<u32> {
    let mut words = store.to_vec();
    words[place] = word;
    words
}

/// Each link led to every record, or exchanged with every other, and word 3
/// made to count what the used chain has then.
fn wrong_links(store: &[u32], capacity: usize) -> Vec<Vec<u32>> {
    let links: Vec<usize> = [USED_HEAD, FREE_HEAD]
        .into_iter()
        .chain((1..=capacity).map(next_of))
        .collect();
    let mut all = Vec::new();
    for (number, &link) in links.iter().enumerate() {
        for other in 0..=capacity as u32 {
            all.push(counted(changed(store, link, other), capacity));
        }
        for &other in &links[number + 1..] {
            let mut words = store.to_vec();
            words.swap(link, other);
            all.extend([words.clone(), counted(words, capacity)]);
        }
    }
    all
}

/// Word 3 counts the records of the used chain, up to C.
fn counted(mut words: Vec<u32>, capacity: usize) -> Vec<u32> {
    let mut count = 0;
    let mut link = words[USED_HEAD] as usize;
    while (1..=capacity).contains(&link) && count < capacity {
        count += 1;
        link = words[next_of(link)] as usize;
    }
    words[USED_COUNT] = count as u32;
    words
}

/// Each tuple left out, and each word of its key changed; in order, so that
/// nothing is wrong but what the keys name.
fn wrong_tuples(tuples: &[Fields]) -> Vec<Vec<Fields>> {
    let mut all = Vec::new();
    for place in 0..tuples.len() {
        let mut others = tuples.to_vec();
        let tuple = others.remove(place);
        for word in 0..4 {
            for name in (0..=4).chain(GREAT_WORDS) {
                let mut changed = tuple;
                changed[word] = name;
                let mut with_it = others.clone();
                with_it.push(changed);
                with_it.sort_unstable();
                all.push(with_it);
            }
        }
        all.push(others);
    }
    all
}

#[cfg(test)]
mod tests {
    use super::*;
    use crate::buffer;

    #[test]
    fn most_are_no_stores_and_some_are() {
        let (mut stores, mut others) = (0, 0);
        for place in 0..20 {
            let all = draw(&mut Draws::new(1, 31, place));
            assert!(buffer::is_store(&all[0]));
            let count = all.iter().filter(|words| buffer::is_store(words)).count();
            stores += count;
            others += all.len() - count;
        }
        assert!(stores > 1_000 && others > 3 * stores, "{stores} {others}");
    }
}
