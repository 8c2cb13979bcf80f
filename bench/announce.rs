//! Look-ahead, kept values and the order within a turn (document 01, "What the check announces" and
//! refusals 7 and 8).

use crate::check::Checked;
use crate::edges::Edge;
use crate::{Refusal, MOST_STREAMS, MOST_WORDS};

pub fn announce(checked: &mut Checked, edges: &[Edge]) -> Result<(), Refusal> {
    let streams = checked.streams;
    let mut counts = [0; MOST_STREAMS];
    if !settle(&mut counts, edges, streams) {
        return Err(Refusal { number: 7, place: place_of_loop(edges, streams) });
    }
    let unit = streams as i32 + 1;
    for (stream, &count) in counts[..streams].iter().enumerate() {
        checked.look[stream] = (count / unit) as u16;
        checked.kept[stream] = 1;
        checked.closing = checked.closing.max(checked.look[stream]);
    }
    for edge in edges {
        let (from, to) = (edge.from as usize, edge.to as usize);
        let slack = checked.look[from] as i32 - edge.weight as i32 - checked.look[to] as i32;
        checked.kept[to] = checked.kept[to].max((1 + slack) as u16);
    }
    for stream in 0..streams {
        checked.parts[stream] = checked.words as u16;
        checked.words += checked.kept[stream] as usize;
    }
    if checked.words > MOST_WORDS {
        return Err(Refusal { number: 8, place: 0 });
    }
    let order = &mut checked.order[..streams - checked.inputs];
    for (output, place) in order.iter_mut().enumerate() {
        *place = (checked.inputs + output) as u8;
    }
    order.sort_unstable_by_key(|&stream| counts[stream as usize] % unit);
    Ok(())
}

/// Raises each stream's count to the largest of a walk from it; false if a loop totals 0 or more.
///
/// Each edge of weight k counts k·(S+1) + 1. A loop that visits no stream twice has at most S
/// edges, so it totals 0 or more exactly when it counts more than 0. The largest count of a walk
/// from v, divided by S+1, is then v's look-ahead, and the remainder is the number of edges of
/// such a walk: it is larger than that of any stream that v reads on the same turn.
fn settle(counts: &mut [i32; MOST_STREAMS], edges: &[Edge], streams: usize) -> bool {
    let unit = streams as i32 + 1;
    for _ in 0..=streams {
        let mut raised = false;
        for edge in edges {
            let count = counts[edge.to as usize] + edge.weight as i32 * unit + 1;
            if count > counts[edge.from as usize] {
                counts[edge.from as usize] = count;
                raised = true;
            }
        }
        if !raised {
            return true;
        }
    }
    false
}

/// Refusal 7's place: "lowest stream with a walk of 1 to S edges back to itself totalling 0 or
/// more". The largest totals are taken by exact number of edges; there is such a stream, since
/// some loop is refused.
fn place_of_loop(edges: &[Edge], streams: usize) -> u16 {
    for start in 0..streams {
        let mut totals = [None; MOST_STREAMS];
        totals[start] = Some(0);
        for _ in 0..streams {
            let mut longer = [None; MOST_STREAMS];
            for edge in edges {
                let end = edge.to as usize;
                let total = totals[edge.from as usize].map(|t: i32| t + edge.weight as i32);
                longer[end] = longer[end].max(total);
            }
            totals = longer;
            if totals[start].is_some_and(|total| total >= 0) {
                return start as u16;
            }
        }
    }
    unreachable!("only called where a loop totals 0 or more")
}
