//! What `plain` does for three queries, written by hand over std alone: read, parse, work, sort, print.
//!
//! `plain_peer filter|group|distinct` in the folder of r.csv. It trusts its input as no real program may: the header isn't read,
//! a field is digits, and a quote is unknown. It is the time that `bench/plain` compares with.
use std::collections::{HashMap, HashSet};
use std::io::Write;

fn parse(line: &[u8]) -> Vec<u64> {
    let field = |bytes: &[u8]| bytes.iter().fold(0u64, |value, byte| value * 10 + u64::from(byte - b'0'));
    line.split(|byte| *byte == b',').map(field).collect()
}

fn main() {
    let mode = std::env::args().nth(1).expect("filter, group or distinct");
    let bytes = std::fs::read("r.csv").expect("r.csv");
    let lines = bytes.split(|byte| *byte == b'\n').skip(1).filter(|line| !line.is_empty());
    let rows = lines.map(parse);
    let (head, mut answer): (&str, Vec<Vec<u64>>) = match mode.as_str() {
        "filter" => ("f\nx,y,z\n", rows.filter(|row| row[0] >= 500).collect()),
        "group" => {
            let mut groups: HashMap<u64, (u64, u64)> = HashMap::new();
            for row in rows {
                let group = groups.entry(row[0]).or_default();
                *group = (group.0.wrapping_add(row[2]), group.1 + 1);
            }
            ("g\nx,s,n\n", groups.into_iter().map(|(key, (sum, count))| vec![key, sum, count]).collect())
        }
        _ => ("d\nx,y\n", rows.collect::<HashSet<_>>().into_iter().collect()),
    };
    answer.sort_unstable();
    let mut out = Vec::from(head);
    for row in answer {
        for (at, word) in row.iter().enumerate() {
            let end = if at + 1 == row.len() { '\n' } else { ',' };
            write!(out, "{word}{end}").expect("memory");
        }
    }
    std::io::stdout().write_all(&out).expect("output");
}
