//! Makes what shows a difference as small as it gets.

/// The shortest beginning that shows it, found in a few steps where what comes later does not matter.
pub fn front<T>(mut items: Vec<T>, mut shows: impl FnMut(&[T]) -> bool) -> Vec<T> {
    let (mut without, mut with) = (0, items.len());
    while without + 1 < with {
        let middle = (without + with) / 2;
        if shows(&items[..middle]) {
            with = middle;
        } else {
            without = middle;
        }
    }
    items.truncate(with);
    items
}

/// Deletes items while the rest still shows it: halves first, single ones last.
pub fn delete<T: Clone>(mut items: Vec<T>, mut shows: impl FnMut(&[T]) -> bool) -> Vec<T> {
    let mut size = items.len().div_ceil(2);
    while size > 0 {
        let (mut at, before) = (0, items.len());
        while at < items.len() {
            let end = items.len().min(at + size);
            let shorter = [&items[..at], &items[end..]].concat();
            if shows(&shorter) {
                items = shorter;
            } else {
                at = end;
            }
        }
        let settled = size == 1 && items.len() == before;
        size = if settled { 0 } else { size.div_ceil(2) };
    }
    items
}

/// Makes items nothing while the list still shows it: halves first, single ones last.
pub fn blank<T: Copy + PartialEq>(
    mut items: Vec<T>,
    nothing: T,
    mut shows: impl FnMut(&[T]) -> bool,
) -> Vec<T> {
    let mut size = items.len();
    while size > 0 {
        for at in (0..items.len()).step_by(size) {
            let end = items.len().min(at + size);
            if items[at..end].iter().any(|&item| item != nothing) {
                let mut blanked = items.clone();
                blanked[at..end].fill(nothing);
                if shows(&blanked) {
                    items = blanked;
                }
            }
        }
        size /= 2;
    }
    items
}

/// Makes single bits 0 while the list still shows it.
pub fn zero_bits(mut words: Vec<u32>, mut shows: impl FnMut(&[u32]) -> bool) -> Vec<u32> {
    for at in 0..words.len() {
        for bit in (0..32).map(|place| 1 << place) {
            if words[at] & bit != 0 {
                words[at] ^= bit;
                if !shows(&words) {
                    words[at] ^= bit;
                }
            }
        }
    }
    words
}

/// Joins rows of a map to the ones before them while it still shows it.
pub fn fewer_rows(mut map: Vec<u64>, mut shows: impl FnMut(&[u64]) -> bool) -> Vec<u64> {
    let mut at = 3;
    while at + 3 <= map.len() {
        let mut fewer = map.clone();
        fewer[at - 2] = map[at + 1];
        fewer.drain(at..at + 3);
        if shows(&fewer) {
            map = fewer;
        } else {
            at += 3;
        }
    }
    map
}
