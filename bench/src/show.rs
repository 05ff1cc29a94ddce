//! The table, and the plot of it.
use crate::rows::Row;

fn time(seconds: f64) -> String {
    let us = seconds * 1e6;
    if us < 10.0 { format!("{us:.2}") } else if us < 1000.0 { format!("{us:.1}") } else { format!("{us:.0}") }
}

pub fn table(rows: &[Row]) -> String {
    let mut text = String::from("| work | here, us | Rust, us | here / Rust | others / Rust |\n|---|---|---|---|---|\n");
    for row in rows {
        let peer = row.peer.map_or(String::new(), |(name, t)| format!("{name} {:.2}", t / row.rust));
        text += &format!("| {} | {} | {} | {:.2} | {} |\n", row.name, time(row.here), time(row.rust), row.here / row.rust, peer);
    }
    text
}

pub fn page(rows: &[Row], kit: &str) -> String {
    format!(
        "# Benchmark\n\nTimes of this library and of the Rust original on the same inputs, in one process, release builds, best of several runs after one to warm up.\n\
         Made by `bench.sh`, which also draws the plot, from an archive that {kit} built. Every call here judges its input first and, where it takes a directory, compares it with its data; the\n\
         original's values are valid by construction, so that it does neither. Outputs are lent as they are. The original's result is a new `Vec` for each call.\n\
         So one `contains` over a long list costs its judging: 100,000 runs are read for a search of some twenty steps, and the original makes the search alone; hence its\n\
         ratio of some 2,000. One `rank` costs the same pass, which also compares the directory; a list of positions costs it once, and its searches take turns, so that they\n\
         wait for memory together. It is the same with one `neighbours` and one `first_overlap`, at several hundred: the original has neither, and its rank and select, over a\n\
         directory built beforehand, are composed to give the same in some more searches. The rows of `search` over one list judge it once for 100,000 rows: nearly the search alone, against\n\
         the original's `contains`, which makes the same search and gives yes or no. The set operations take words without branches where the lists are mixed, and pass stretches of one\n\
         list, or of both, at once. Short lists are merged over and over here, so that a processor learns the branches of the original; on the balanced ones of 1k runs\n\
         that tells, and not on 256 different pairs of them. The original has no merge of indexes: it reads both, inserts each entry of the second into the first, row by\n\
         row, or unites the runs of each value that both have, and writes. Nor has it filters: its own operations make the steps, and where a value is missing it reads the index and looks the values up. It has no select over packed bits: it makes runs of the bits and a directory of these, and selects among them. CRoaring keeps 32-bit rows in containers of its own; sdsl's rank and select support are built beforehand.\n\n![ratios](benchmark.svg)\n\n{}",
        table(rows)
    )
}

/// Bars of the ratios on a logarithmic scale from 1/16 to 16. A bar that would be longer ends there.
pub fn plot(rows: &[Row]) -> String {
    let (left, width, line) = (330.0, 520.0, 18.0);
    let most = 4.0f64;
    let x = |ratio: f64| left + width / 2.0 + ratio.log2().clamp(-most, most) / most * width / 2.0;
    let height = 50.0 + line * rows.len() as f64;
    let mut svg = format!(
        "<svg xmlns=\"http://www.w3.org/2000/svg\" width=\"{}\" height=\"{height}\" font-family=\"sans-serif\" font-size=\"12\">\n<rect width=\"100%\" height=\"100%\" fill=\"white\"/>\n<text x=\"{left}\" y=\"16\">time here / time of the Rust original (left of 1 is faster)</text>\n",
        left + width + 60.0
    );
    let mut k = -most;
    while k <= most {
        let at = x(2f64.powf(k));
        let color = if k == 0.0 { "#444" } else { "#ddd" };
        let label = if k < 0.0 { format!("1/{}", 2f64.powf(-k)) } else { format!("{}", 2f64.powf(k)) };
        svg += &format!("<line x1=\"{at:.1}\" x2=\"{at:.1}\" y1=\"36\" y2=\"{height}\" stroke=\"{color}\"/>\n<text x=\"{at:.1}\" y=\"32\" text-anchor=\"middle\" fill=\"#666\">{label}</text>\n");
        k += 1.0;
    }
    for (i, row) in rows.iter().enumerate() {
        let y = 40.0 + line * i as f64;
        let ratio = row.here / row.rust;
        let (a, b) = if ratio < 1.0 { (x(ratio), x(1.0)) } else { (x(1.0), x(ratio)) };
        let color = if ratio <= 1.0 { "#2a7f62" } else { "#b5532a" };
        svg += &format!(
            "<text x=\"{:.1}\" y=\"{:.1}\" text-anchor=\"end\">{}</text>\n<rect x=\"{a:.1}\" y=\"{:.1}\" width=\"{:.1}\" height=\"{:.1}\" fill=\"{color}\"/>\n<text x=\"{:.1}\" y=\"{:.1}\" fill=\"#444\">{ratio:.2}</text>\n",
            left - 8.0, y + 12.0, row.name, y + 2.0, (b - a).max(1.0), line - 6.0, b + 4.0, y + 12.0
        );
    }
    svg + "</svg>\n"
}
