//! figures [SVG]: reads the lines of counts.sh, prints them as a table and draws them into the file SVG.

use compare::calls::OPERATIONS;
use std::collections::BTreeMap;
use std::fmt::Write;
use std::io::Read;
use std::process::ExitCode;

/// By connections, operation and side.
type Counts = BTreeMap<(usize, usize, bool), f64>;

fn read(text: &str) -> Option<Counts> {
    let mut counts = Counts::new();
    for line in text.lines() {
        let words: Vec<&str> = line.split_whitespace().collect();
        let [c, _, side, op, n] = words[..] else {
            return None;
        };
        let op = OPERATIONS.iter().position(|o| o.name == op)?;
        counts.insert((c.parse().ok()?, op, side == "library"), n.parse().ok()?);
    }
    Some(counts)
}

fn sizes(counts: &Counts) -> Vec<usize> {
    let mut all: Vec<usize> = counts.keys().map(|k| k.0).collect();
    all.dedup();
    all
}

fn grouped(n: f64) -> String {
    let digits = format!("{n:.0}");
    let mut out = String::new();
    for (i, d) in digits.chars().enumerate() {
        if i > 0 && (digits.len() - i) % 3 == 0 {
            out.push(',');
        }
        out.push(d);
    }
    out
}

fn table(counts: &Counts) {
    let sizes = sizes(counts);
    let heads: Vec<String> = sizes
        .iter()
        .map(|c| format!("C = {}", grouped(*c as f64)))
        .collect();
    println!("| Operation | | {} |", heads.join(" | "));
    println!("|---|---|{}", "---|".repeat(sizes.len()));
    for (op, operation) in OPERATIONS.iter().enumerate() {
        let row =
            |side: bool| -> Vec<f64> { sizes.iter().map(|c| counts[&(*c, op, side)]).collect() };
        let (library, rust) = (row(true), row(false));
        let cells = |v: &[f64]| {
            v.iter()
                .map(|n| grouped(*n))
                .collect::<Vec<_>>()
                .join(" | ")
        };
        let ratios: Vec<String> = library
            .iter()
            .zip(&rust)
            .map(|(a, b)| format!("{:.2}", a / b))
            .collect();
        println!("| {} | library | {} |", operation.name, cells(&library));
        println!("| | Rust | {} |", cells(&rust));
        println!("| | ratio | {} |", ratios.join(" | "));
    }
}

/// One operation: instructions over connections, both from 0.
fn panel(svg: &mut String, counts: &Counts, op: usize, left: f64, top: f64) {
    const WIDE: f64 = 220.0;
    const HIGH: f64 = 150.0;
    let sizes = sizes(counts);
    let widest = *sizes.last().unwrap_or(&1) as f64;
    let most = sizes
        .iter()
        .flat_map(|c| [counts[&(*c, op, true)], counts[&(*c, op, false)]])
        .fold(1.0, f64::max);
    let unit = 10f64.powf(most.log10().floor());
    let step = if most / unit < 2.5 { unit / 2.0 } else { unit };
    let x = |c: usize| left + WIDE * c as f64 / widest;
    let y = |n: f64| top + HIGH - HIGH * n / most;
    let mut mark = 0.0;
    while mark <= most {
        let h = y(mark);
        let _ = writeln!(
            svg,
            r##"<path d="M{left:.1} {h:.1}h{WIDE}" stroke="#ddd"/>"##
        );
        let _ = writeln!(
            svg,
            r##"<text x="{:.1}" y="{:.1}" text-anchor="end">{}</text>"##,
            left - 5.0,
            h + 4.0,
            grouped(mark)
        );
        mark += step;
    }
    for c in &sizes {
        if *c >= 500 {
            let _ = writeln!(
                svg,
                r##"<text x="{:.1}" y="{:.1}" text-anchor="middle">{}</text>"##,
                x(*c),
                top + HIGH + 15.0,
                grouped(*c as f64)
            );
        }
    }
    let _ = writeln!(
        svg,
        r##"<text x="{left:.1}" y="{:.1}" font-weight="bold">{}</text>"##,
        top - 8.0,
        OPERATIONS[op].name
    );
    for (side, colour) in [(false, "#888"), (true, "#05a")] {
        let points: Vec<String> = sizes
            .iter()
            .map(|c| format!("{:.1},{:.1}", x(*c), y(counts[&(*c, op, side)])))
            .collect();
        let _ = writeln!(
            svg,
            r##"<polyline points="{}" fill="none" stroke="{colour}" stroke-width="2"/>"##,
            points.join(" ")
        );
        for p in &points {
            let (px, py) = p.split_once(',').unwrap_or(("0", "0"));
            let _ = writeln!(
                svg,
                r##"<circle cx="{px}" cy="{py}" r="3" fill="{colour}"/>"##
            );
        }
    }
}

/// Panels side by side, and what each of them takes.
const ACROSS: usize = 3;
const WIDTH: usize = 305;
const HEIGHT: usize = 225;

fn drawing(counts: &Counts) -> String {
    let width = 45 + ACROSS * WIDTH;
    let height = 50 + OPERATIONS.len().div_ceil(ACROSS) * HEIGHT;
    let mut svg = format!(
        r##"<svg xmlns="http://www.w3.org/2000/svg" width="{width}" height="{height}" font-family="sans-serif" font-size="11">
<rect width="{width}" height="{height}" fill="#fff"/>
<text x="70" y="20">Instructions of one call by connections,
library <tspan fill="#05a">blue</tspan>, Rust <tspan fill="#888">grey</tspan></text>
"##,
    );
    for op in 0..OPERATIONS.len() {
        panel(
            &mut svg,
            counts,
            op,
            (70 + WIDTH * (op % ACROSS)) as f64,
            (60 + HEIGHT * (op / ACROSS)) as f64,
        );
    }
    svg.push_str("</svg>\n");
    svg
}

fn main() -> ExitCode {
    let mut text = String::new();
    if std::io::stdin().read_to_string(&mut text).is_err() {
        eprintln!("cannot read standard input");
        return ExitCode::FAILURE;
    }
    let Some(counts) = read(&text) else {
        eprintln!("a line is not 'C NOTICES SIDE OPERATION INSTRUCTIONS'");
        return ExitCode::FAILURE;
    };
    table(&counts);
    if let Some(path) = std::env::args().nth(1) {
        if std::fs::write(&path, drawing(&counts)).is_err() {
            eprintln!("cannot write {path}");
            return ExitCode::FAILURE;
        }
    }
    ExitCode::SUCCESS
}
