//! What `bench/search` holds the search against: the entries of all contexts in one sorted array,
//! a tree of greatest weights over it, and a best-first search over both. It is exact, has no
//! bound on its queue, and knows neither deletes nor step counts.
//!
//! Standard input has a line that isn't read here, a line for each document (key, weight, contexts,
//! with tabs between), an empty line, and groups of queries: a line `# NAME`, then a line for each
//! query (prefix, k, contexts with boosts). Standard output has the rows of each query, standard
//! error a line `ready` after the empty line, and the time of each group.

use std::cmp::Reverse;
use std::collections::BinaryHeap;
use std::hint::black_box;
use std::io::{self, BufRead, Read, Write};
use std::time::Instant;

/// An entry: its context, key, weight and document.
type Entry<'a> = (&'a str, &'a str, u64, u32);

struct Index<'a> {
    entries: Vec<Entry<'a>>,
    contexts: Vec<&'a str>,
    /// The greatest weight below each node of a complete binary tree; leaves from `base` on.
    most: Vec<u64>,
    base: usize,
}

struct Query<'a> {
    prefix: &'a str,
    k: usize,
    contexts: Vec<(&'a str, u64)>,
}

impl<'a> Index<'a> {
    fn new(rows: &'a str) -> Index<'a> {
        let mut entries = Vec::new();
        for (doc, row) in rows.lines().enumerate() {
            let mut fields = row.split('\t');
            let (key, weight, contexts) = (
                fields.next().expect("a key"),
                fields.next().expect("a weight").parse().expect("a number"),
                fields.next().expect("contexts"),
            );
            for context in contexts.split(',') {
                entries.push((context, key, weight, doc as u32));
            }
        }
        entries.sort_unstable_by(|a: &Entry, b| {
            (a.0, a.1, Reverse(a.2), a.3).cmp(&(b.0, b.1, Reverse(b.2), b.3))
        });
        let mut contexts: Vec<&str> = entries.iter().map(|entry| entry.0).collect();
        contexts.dedup();
        let base = entries.len().next_power_of_two();
        let mut most = vec![0; 2 * base];
        for (at, entry) in entries.iter().enumerate() {
            most[base + at] = entry.2 + 1;
        }
        for at in (1..base).rev() {
            most[at] = most[2 * at].max(most[2 * at + 1]);
        }
        Index {
            entries,
            contexts,
            most,
            base,
        }
    }

    /// Puts the nodes that cover the entries of a context under the prefix into the queue.
    fn start(
        &self,
        queue: &mut BinaryHeap<(u64, Reverse<usize>, u64)>,
        context: &str,
        prefix: &str,
        boost: u64,
    ) {
        let low = self
            .entries
            .partition_point(|e| (e.0, e.1) < (context, prefix));
        let high = low
            + self.entries[low..].partition_point(|e| e.0 == context && e.1.starts_with(prefix));
        let (mut low, mut high) = (low + self.base, high + self.base);
        while low < high {
            if low & 1 == 1 {
                queue.push(((self.most[low] - 1) * boost, Reverse(low), boost));
                low += 1;
            }
            if high & 1 == 1 {
                high -= 1;
                queue.push(((self.most[high] - 1) * boost, Reverse(high), boost));
            }
            low /= 2;
            high /= 2;
        }
    }

    /// The first k rows: score, key, document.
    fn search(
        &self,
        query: &Query,
        queue: &mut BinaryHeap<(u64, Reverse<usize>, u64)>,
    ) -> Vec<(u64, &'a str, u32)> {
        queue.clear();
        if query.contexts.is_empty() {
            for context in &self.contexts {
                self.start(queue, context, query.prefix, 1);
            }
        } else {
            for (context, boost) in &query.contexts {
                self.start(queue, context, query.prefix, *boost);
            }
        }
        let mut rows: Vec<(u64, &'a str, u32)> = Vec::with_capacity(2 * query.k);
        while let Some((score, Reverse(at), boost)) = queue.pop() {
            if rows.len() >= query.k && rows[query.k - 1].0 > score {
                break;
            }
            if at < self.base {
                for child in [2 * at, 2 * at + 1] {
                    if self.most[child] > 0 {
                        queue.push(((self.most[child] - 1) * boost, Reverse(child), boost));
                    }
                }
                continue;
            }
            let entry = &self.entries[at - self.base];
            if let Some(own) = rows.iter().position(|row| row.2 == entry.3) {
                if (Reverse(rows[own].0), rows[own].1) <= (Reverse(score), entry.1) {
                    continue;
                }
                rows.remove(own);
            }
            let place = rows.partition_point(|row| {
                (Reverse(row.0), row.1, row.2) < (Reverse(score), entry.1, entry.3)
            });
            rows.insert(place, (score, entry.1, entry.3));
        }
        rows.truncate(query.k);
        rows
    }
}

fn query_of(line: &str) -> Query<'_> {
    let mut fields = line.split('\t');
    let prefix = fields.next().expect("a prefix");
    let k = fields.next().expect("k").parse().expect("a number");
    let listed = fields.next().unwrap_or("");
    let contexts = listed
        .split(',')
        .filter(|word| !word.is_empty())
        .map(|word| {
            let (context, boost) = word.split_once('*').expect("a boost");
            (context, boost.parse().expect("a number"))
        })
        .collect();
    Query {
        prefix,
        k,
        contexts,
    }
}

/// Standard input up to an empty line.
fn read_rows(source: &mut impl BufRead) -> String {
    let mut rows = String::new();
    loop {
        let before = rows.len();
        source.read_line(&mut rows).expect("a text");
        if rows.len() - before <= 1 {
            rows.truncate(before);
            return rows;
        }
    }
}

fn main() {
    let mut source = io::stdin().lock();
    source.read_line(&mut String::new()).expect("a line");
    let rows = read_rows(&mut source);
    let index = Index::new(&rows);
    eprintln!("ready");
    let mut groups = String::new();
    source.read_to_string(&mut groups).expect("a text");
    let mut out = io::BufWriter::new(io::stdout().lock());
    let mut queue = BinaryHeap::new();
    for group in groups.split("# ").filter(|group| !group.is_empty()) {
        let (name, lines) = group.split_once('\n').expect("a name");
        let queries: Vec<Query> = lines.lines().map(query_of).collect();
        for query in &queries {
            let rows: Vec<String> = index
                .search(query, &mut queue)
                .iter()
                .map(|row| format!("{}:{}", row.2, row.0))
                .collect();
            writeln!(out, "{}", rows.join(" ")).expect("a place to write");
        }
        let start = Instant::now();
        for query in &queries {
            black_box(index.search(query, &mut queue));
        }
        let time = start.elapsed();
        eprintln!("{name}\t{}\t{}", queries.len(), time.as_nanos());
    }
}
