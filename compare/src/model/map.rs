//! The map of a guard's window: spans of equal rights.

use super::guard::Guard;

/// Offsets from `start` to `end`, both included, with the rights of each.
#[derive(Clone, Copy, Debug, PartialEq, Eq)]
pub struct Span {
    pub start: u64,
    pub end: u64,
    pub rights: u64,
}

/// The offsets where a piece may start: 0, and wherever an enabled region or
/// subregion starts or has ended.
fn piece_starts(guard: &Guard) -> Vec<u64> {
    let window = guard.shape().window;
    let mut starts = Vec::with_capacity(1 + 6 * guard.own_regions().len());
    let mut add = |start: u32, end: u32| {
        starts.push(u64::from(start));
        starts.push(u64::from(end) + 1);
    };
    for region in guard.own_regions().iter().filter(|r| r.enabled()) {
        add(region.start, region.end);
        for subregion in region.subregions.iter().filter(|s| s.enabled()) {
            add(subregion.start, subregion.end);
        }
    }
    starts.push(0);
    starts.retain(|&start| start < window);
    starts.sort_unstable();
    starts.dedup();
    starts
}

/// The rule is the same all over a piece, so its first offset speaks for it.
pub fn spans(guard: &Guard) -> Vec<Span> {
    let starts = piece_starts(guard);
    let mut spans: Vec<Span> = Vec::with_capacity(starts.len());
    let ends = starts.iter().skip(1).copied().chain([guard.shape().window]);
    for (&start, next) in starts.iter().zip(ends) {
        let rights = guard.governing(start as u32).rights();
        let end = next - 1;
        match spans.last_mut() {
            Some(last) if last.rights == rights => last.end = end,
            _ => spans.push(Span { start, end, rights }),
        }
    }
    spans
}

/// The first row of three numbers whose start and end enclose the offset, or
/// an empty part. Numbers left over at the end are no row.
pub fn lookup(numbers: &[u64], offset: u64) -> &[u64] {
    numbers
        .chunks_exact(3)
        .find(|row| row[0] <= offset && offset <= row[1])
        .unwrap_or(&[])
}
