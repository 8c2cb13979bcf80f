//! What the check announces: document 01, "What the check announces" and refusals 7 and 8.
//! Walks are counted by their number of edges, the simplest way the document's words can be read.

use crate::table::{scan, Node, Refusal, Table};

const MOST_WORDS: i64 = 4096;

/// "An edge of weight k leads from y to v for each at(v, k) in y's equation, weight 0 for each
/// now(v); both branches of an if count."
struct Edge {
    from: usize,
    to: usize,
    weight: i64,
}

/// The announced numbers of an accepted table; look-ahead and kept have one entry a stream.
#[derive(Debug, PartialEq, Eq)]
pub struct Announced {
    pub look_ahead: Vec<i64>,
    pub kept: Vec<i64>,
    pub words: i64,
    pub room: usize,
    pub closing: i64,
}

/// The whole check: the scan (with 9), then 7, then 8.
pub fn check(bytes: &[u8]) -> Result<(Table, Announced), Refusal> {
    let table = scan(bytes)?;
    let edges = edges_of(&table);
    if let Some(place) = place_of_loop(&edges, table.streams()) {
        return Err(Refusal { number: 7, place });
    }
    let announced = announce(&table, &edges);
    if announced.words > MOST_WORDS {
        return Err(Refusal { number: 8, place: 0 });
    }
    Ok((table, announced))
}

fn edges_of(table: &Table) -> Vec<Edge> {
    let mut edges = Vec::new();
    for (index, equation) in table.equations.iter().enumerate() {
        collect(equation, table.inputs + index, &mut edges);
    }
    edges
}

fn collect(node: &Node, from: usize, edges: &mut Vec<Edge>) {
    match node {
        Node::Constant(_) => {}
        Node::Now(stream) => edges.push(Edge { from, to: *stream, weight: 0 }),
        Node::At { stream, offset, .. } => edges.push(Edge { from, to: *stream, weight: *offset }),
        Node::Operator { operands, .. } => {
            for operand in operands {
                collect(operand, from, edges);
            }
        }
    }
}

/// Refusal 7's place: "lowest stream with a walk of 1 to S edges back to itself totalling 0 or
/// more". Any loop of such a total contains one that visits no stream twice, which has at most S
/// edges, so no answer here means that every loop's total is below 0.
fn place_of_loop(edges: &[Edge], streams: usize) -> Option<usize> {
    (0..streams).find(|&start| {
        let mut totals = vec![None; streams];
        totals[start] = Some(0);
        (1..=streams).any(|_| {
            totals = one_edge_more(edges, &totals);
            totals[start].is_some_and(|total| total >= 0)
        })
    })
}

/// From the largest totals of walks of exactly n edges, by end, those of exactly n + 1 edges.
fn one_edge_more(edges: &[Edge], totals: &[Option<i64>]) -> Vec<Option<i64>> {
    let mut longer = vec![None; totals.len()];
    for edge in edges {
        if let Some(total) = totals[edge.from] {
            longer[edge.to] = longer[edge.to].max(Some(total + edge.weight));
        }
    }
    longer
}

/// "Look-ahead of v: the largest total of a walk from v, the empty walk (0) included." Every loop
/// is below 0, so a walk of S edges or more is never larger than one without its loops.
fn look_ahead(edges: &[Edge], streams: usize) -> Vec<i64> {
    let mut largest = vec![0; streams];
    for _ in 0..streams {
        let shorter = largest.clone();
        for edge in edges {
            largest[edge.from] = largest[edge.from].max(edge.weight + shorter[edge.to]);
        }
    }
    largest
}

fn announce(table: &Table, edges: &[Edge]) -> Announced {
    let look_ahead = look_ahead(edges, table.streams());
    // "Kept values of v: 1 plus the largest of 0 and, over every edge of weight k from some y to
    // v, look-ahead(y) - k - look-ahead(v)."
    let mut kept = vec![1; table.streams()];
    for edge in edges {
        let slack = look_ahead[edge.from] - edge.weight - look_ahead[edge.to];
        kept[edge.to] = kept[edge.to].max(1 + slack);
    }
    // "Room: 10 bytes for each output and 6 for each trigger."
    let triggers = table.triggers.iter().filter(|&&trigger| trigger).count();
    let room = 10 * table.equations.len() + 6 * triggers;
    let words = kept.iter().sum();
    let closing = look_ahead.iter().copied().max().unwrap_or(0);
    Announced { look_ahead, kept, words, room, closing }
}

/// The line that `reference tables` prints for one table.
pub fn answer_line(bytes: &[u8]) -> String {
    match check(bytes) {
        Err(refusal) => format!("{} {}", refusal.number, refusal.place),
        Ok((_, announced)) => format!(
            "0 0 look {} kept {} words {} room {} closing {}",
            spaced(&announced.look_ahead),
            spaced(&announced.kept),
            announced.words,
            announced.room,
            announced.closing
        ),
    }
}

fn spaced(numbers: &[i64]) -> String {
    let texts: Vec<String> = numbers.iter().map(|number| number.to_string()).collect();
    texts.join(" ")
}
