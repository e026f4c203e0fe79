//! Counts words, with the standard library's maps and strings.
use std::collections::{BTreeMap, HashMap};

#[no_mangle]
pub extern "C" fn words(seed: u32, count: u32) -> u32 {
    let mut text = String::new();
    let mut state = seed;
    for _ in 0..count {
        state = state.wrapping_mul(1_664_525).wrapping_add(1_013_904_223);
        text.push_str(["one", "two", "three", "four"][(state >> 30) as usize]);
        text.push(' ');
    }
    let mut by_word: HashMap<&str, u32> = HashMap::new();
    for word in text.split_whitespace() {
        *by_word.entry(word).or_default() += 1;
    }
    let sorted: BTreeMap<_, _> = by_word.into_iter().collect();
    let shown = format!("{sorted:?}");
    shown.len() as u32 + sorted.values().copied().max().unwrap_or(0)
}
