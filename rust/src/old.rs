//! The old program's fault, as modelled for the neck: it merged the slices' spans and then fetched the rows under the index
//! that each span had before the merge.

use crate::areas::Area;
use crate::rules::{self, heights, Flash, Interval};

/// A span, and the slice whose rows the old program would fetch for it.
#[derive(Clone, Copy)]
struct Span {
    now: Interval,
    before: Interval,
}

/// The old program: a meet stands where the left one of its pair stood, and keeps that one's rows.
pub fn flashes(area: &Area) -> Vec<Flash> {
    let mut spans: Vec<Span> = rules::starting_set(area).into_iter().map(|i| Span { now: i, before: i }).collect();
    loop {
        let set: Vec<Interval> = spans.iter().map(|span| span.now).collect();
        let bracket = match rules::least_minimal(&set, area.width) {
            Some(bracket) => bracket,
            None => break,
        };
        let kept = rules::reduce(&set, bracket);
        let dropped: Vec<Span> = spans.iter().copied().filter(|span| !kept.contains(&span.now)).collect();
        spans.retain(|span| kept.contains(&span.now));
        for pair in dropped.windows(2) {
            let now = pair[0].now.meet(pair[1].now).unwrap();
            spans.push(Span { now, before: pair[0].before });
        }
        spans.sort_by_key(|span| span.now);
    }
    let flash = |span: &Span| {
        let (bottom, top) = heights(area, span.before);
        [span.now.left, span.now.right - 1, bottom, top]
    };
    spans.iter().map(flash).collect()
}
