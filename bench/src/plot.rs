//! The plot: the rate of an encode over n and over B, at each level and of ISA-L's functions, as two panels of one SVG.

use crate::isal::Isal;
use crate::measure::middle;
use crate::processor;
use crate::shelf::{Level, Stripe, AVX2, AVX512, BLOCK, LARGEST, OLDEST};
use crate::verify;
use outside::random::Random;
use std::fmt::Write;

/// The panels: n with blocks of 4,096 bytes, and B with eight disks.
const DISKS: [usize; 13] = [1, 2, 3, 4, 6, 8, 12, 16, 32, 64, 128, 192, 255];
const BLOCKS: [usize; 16] = [1, 4, 16, 32, 64, 96, 128, 256, 512, 1024, 2048, BLOCK, 8192, 16384, 32768, LARGEST];
const EIGHT: usize = 8;

/// A colour for each level and the functions of ISA-L that stand beside it.
const COLOURS: [(&str, &str); 6] = [
    (OLDEST, "#3f7d45"),
    (AVX2, "#b5502c"),
    (AVX512, "#1b4965"),
    ("pq_gen_sse", "#3f7d45"),
    ("pq_gen_avx2", "#b5502c"),
    ("pq_gen", "#1b4965"),
];

const TURNS: usize = 40;
/// The steps between the lines of the axis of rates, in gigabytes of data a second.
const STEP: usize = 10;

const WIDTH: f64 = 330.0;
const HEIGHT: f64 = 320.0;
const TOP: f64 = 50.0;

/// A contestant's encode of one shape, and its rate.
struct Point {
    name: &'static str,
    shape: (usize, usize),
    run: Box<dyn Fn()>,
}

/// Each contestant on each shape, those of a shape on one stripe. ISA-L takes no block that is no multiple of 32 bytes, and no
/// stripe of one disk.
fn points(levels: &[&'static Level], isal: Option<&Isal>, shapes: &[(usize, usize)]) -> Vec<Point> {
    let mut random = Random::new(4);
    let mut points = vec![];
    for &shape in shapes {
        let (n, b) = shape;
        let stripe = Stripe::random(&mut random, n, b);
        let calls = isal.filter(|_| n > 1).and_then(|isal| isal.on(stripe));
        verify(&mut random, stripe, levels, calls.as_ref(), &[]);
        for &level in levels {
            points.push(Point { name: level.name, shape, run: Box::new(move || level.encode(stripe)) });
        }
        if let Some(calls) = calls {
            for named in calls.generators() {
                let calls = calls.clone();
                points.push(Point { name: named.name, shape, run: Box::new(move || assert!(calls.passes(named))) });
            }
        }
    }
    points
}

struct Panel {
    left: f64,
    most: f64,
    /// The highest line of the axis of rates.
    top: usize,
    title: &'static str,
    ticks: &'static [usize],
}

impl Panel {
    /// Logarithmic from 1 to the most.
    fn x(&self, number: usize) -> f64 {
        self.left + (number as f64).ln() / self.most.ln() * WIDTH
    }

    fn y(&self, rate: f64) -> f64 {
        TOP + HEIGHT - rate / self.top as f64 * HEIGHT
    }

    fn axes(&self, svg: &mut String) {
        let (left, right, bottom) = (self.left, self.left + WIDTH, TOP + HEIGHT);
        for rate in (0..=self.top).step_by(STEP) {
            let y = self.y(rate as f64);
            writeln!(svg, "<path d='M{left} {y:.1}H{right}' stroke='#ddd'/>").unwrap();
            writeln!(svg, "<text x='{}' y='{:.1}' text-anchor='end'>{rate}</text>", left - 6.0, y + 4.0).unwrap();
        }
        for &tick in self.ticks {
            let x = self.x(tick);
            writeln!(svg, "<path d='M{x:.1} {bottom}v5' stroke='#333'/>").unwrap();
            writeln!(svg, "<text x='{x:.1}' y='{}' text-anchor='middle'>{tick}</text>", bottom + 19.0).unwrap();
        }
        writeln!(svg, "<path d='M{left} {TOP}V{bottom}H{right}' fill='none' stroke='#333'/>").unwrap();
        let middle = left + WIDTH / 2.0;
        writeln!(svg, "<text x='{middle}' y='{}' text-anchor='middle'>{}</text>", bottom + 38.0, self.title).unwrap();
    }

    /// A line through the points of these numbers and rates; ISA-L's is dashed.
    fn line(&self, svg: &mut String, name: &str, colour: &str, points: &[(usize, f64)]) {
        let path: Vec<String> = points.iter().map(|&(number, rate)| format!("{:.1},{:.1}", self.x(number), self.y(rate))).collect();
        let dashes = if name.starts_with("pq") { " stroke-dasharray='5 4'" } else { "" };
        writeln!(svg, "<polyline points='{}' fill='none' stroke='{colour}' stroke-width='1.6'{dashes}/>", path.join(" ")).unwrap();
    }
}

fn legend(svg: &mut String, names: &[&'static str]) {
    for (at, &(name, colour)) in COLOURS.iter().filter(|(name, _)| names.contains(name)).enumerate() {
        let x = [75.0, 185.0, 315.0, 445.0, 600.0, 765.0][at];
        let dashes = if name.starts_with("pq") { " stroke-dasharray='5 4'" } else { "" };
        writeln!(svg, "<path d='M{x} 440h26' stroke='{colour}' stroke-width='1.6'{dashes}/>").unwrap();
        let text = if dashes.is_empty() { name.to_string() } else { format!("ISA-L {name}") };
        writeln!(svg, "<text x='{}' y='444' fill='{colour}'>{text}</text>", x + 32.0).unwrap();
    }
}

pub fn svg(levels: &[&'static Level], isal: Option<Isal>) -> String {
    let shapes: Vec<(usize, usize)> = DISKS.map(|n| (n, BLOCK)).into_iter().chain(BLOCKS.map(|b| (EIGHT, b))).collect();
    let points = points(levels, isal.as_ref(), &shapes);
    // all of them take turns, so that a slow spell of the machine does not bend one line
    let seconds = middle(TURNS, &points.iter().map(|point| &*point.run).collect::<Vec<_>>());
    let measured: Vec<_> =
        points.iter().zip(seconds).map(|(p, taken)| (p.name, p.shape, (p.shape.0 * p.shape.1) as f64 / taken / 1e9)).collect();
    let highest = measured.iter().map(|m| m.2).fold(0.0, f64::max);
    let top = (highest as usize / STEP + 1) * STEP;

    let mut svg = String::from("<svg xmlns='http://www.w3.org/2000/svg' viewBox='0 0 920 460' font-family='sans-serif' font-size='12'>\n");
    svg += "<rect width='920' height='460' fill='#fff'/>\n";
    writeln!(svg, "<text x='20' y='24' font-size='15'>Gigabytes of data encoded in a second, {}, one thread</text>", processor()).unwrap();
    let over_n = Panel { left: 75.0, most: 255.0, top, title: "n, data disks, with B = 4096", ticks: &[1, 2, 4, 8, 16, 32, 64, 128, 255] };
    let over_b = Panel {
        left: 520.0,
        most: LARGEST as f64,
        top,
        title: "B, bytes in a block, with n = 8",
        ticks: &[1, 4, 16, 64, 256, 1024, 4096, LARGEST],
    };
    over_n.axes(&mut svg);
    over_b.axes(&mut svg);
    for (name, colour) in COLOURS {
        let of = |number: fn((usize, usize)) -> usize, chosen: fn((usize, usize)) -> bool| {
            let mut line: Vec<_> = measured.iter().filter(|m| m.0 == name && chosen(m.1)).map(|m| (number(m.1), m.2)).collect();
            line.sort_by_key(|&(number, _)| number);
            line.dedup_by_key(|&mut (number, _)| number);
            line
        };
        over_n.line(&mut svg, name, colour, &of(|shape| shape.0, |shape| shape.1 == BLOCK));
        over_b.line(&mut svg, name, colour, &of(|shape| shape.1, |shape| shape.0 == EIGHT));
    }
    let names: Vec<&'static str> = points.iter().map(|point| point.name).collect();
    legend(&mut svg, &names);
    svg + "</svg>\n"
}
