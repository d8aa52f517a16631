//! The plot of a run: the chunks that each van held over time, as an SVG that needs nothing from outside.

use crate::node::SERVER;
use crate::record::History;
use crate::run::{Settings, Yard};
use crate::summary::title;
use crate::timing::SECOND;

/// The size of the picture, and the edges of the plot in it.
const SIZE: (f64, f64) = (1000.0, 600.0);
const LEFT: f64 = 70.0;
const RIGHT: f64 = 980.0;
const TOP: f64 = 70.0;
const BOTTOM: f64 = 540.0;

/// Steps nearer to each other than this are drawn as one, in the picture's units.
const NEAR: f64 = 1.0;

const STYLE: &str = "\
text { font-family: sans-serif; font-size: 13px; fill: #222 } .heading { font-size: 18px }
.grid { stroke: #ddd } .axis { fill: none; stroke: #222; stroke-width: 1.2 }
.van { fill: none; stroke-width: 1.3; stroke-opacity: 0.75 }";

/// The SVG of a run.
pub fn plot(settings: &Settings, yard: &Yard) -> String {
    let scale = Scale {
        seconds: seconds(yard.now.max(1)),
        chunks: f64::from(settings.chunks),
    };
    let (width, height) = SIZE;
    let mut svg = Svg(String::new());
    svg.put(format!(
        r#"<svg xmlns="http://www.w3.org/2000/svg" viewBox="0 0 {width} {height}" role="img">"#
    ));
    heading(&mut svg, settings, yard);
    axes(&mut svg, &scale);
    for (number, history) in yard.record.histories.iter().enumerate().skip(SERVER + 1) {
        let hue = 360 * (number - 1) / settings.vans;
        let stroke = format!("hsl({hue} 70% 42%)");
        let path = path(&scale, history, yard.now);
        svg.put(format!(
            r#"<path class="van" stroke="{stroke}" d="{path}"><title>van {number}</title></path>"#
        ));
        falls(&mut svg, &scale, history, &stroke);
    }
    svg.put("</svg>".into());
    svg.0
}

/// From times and chunks to places in the picture.
struct Scale {
    /// The time at the right edge, in seconds.
    seconds: f64,
    /// The chunks at the top.
    chunks: f64,
}

impl Scale {
    fn x(&self, seconds: f64) -> f64 {
        LEFT + (RIGHT - LEFT) * seconds / self.seconds
    }

    fn y(&self, chunks: f64) -> f64 {
        BOTTOM - (BOTTOM - TOP) * chunks / self.chunks
    }
}

/// An SVG that is being written.
struct Svg(String);

impl Svg {
    fn put(&mut self, element: String) {
        self.0.push_str(&element);
        self.0.push('\n');
    }

    fn text(&mut self, (x, y): (f64, f64), anchor: &str, words: &str) {
        self.put(format!(
            r#"<text x="{x:.1}" y="{y:.1}" text-anchor="{anchor}">{words}</text>"#
        ));
    }

    fn grid(&mut self, (x1, y1): (f64, f64), (x2, y2): (f64, f64)) {
        self.put(format!(
            r#"<line class="grid" x1="{x1:.1}" y1="{y1:.1}" x2="{x2:.1}" y2="{y2:.1}"/>"#
        ));
    }
}

fn seconds(time: u64) -> f64 {
    time as f64 / SECOND as f64
}

fn heading(svg: &mut Svg, settings: &Settings, yard: &Yard) {
    let (vans, drop_outs) = (settings.vans, yard.record.tally.drop_outs);
    let (middle, title) = ((LEFT + RIGHT) / 2.0, title(settings));
    svg.put(format!(
        "<title>Chunks held by each van over time: {title}</title>"
    ));
    svg.put(format!("<style>{STYLE}</style>"));
    svg.put(r##"<rect width="100%" height="100%" fill="#fff"/>"##.into());
    svg.put(format!(
        r#"<text class="heading" x="{middle}" y="26" text-anchor="middle">Chunks held by each of {vans} vans; a dot is one of {drop_outs} drop-outs</text>"#
    ));
    svg.text((middle, 48.0), "middle", &title);
}

fn axes(svg: &mut Svg, scale: &Scale) {
    for (number, words) in ticks(scale.seconds) {
        let x = scale.x(number);
        svg.grid((x, TOP), (x, BOTTOM));
        svg.text((x, BOTTOM + 20.0), "middle", &words);
    }
    for (number, words) in ticks(scale.chunks) {
        let y = scale.y(number);
        svg.grid((LEFT, y), (RIGHT, y));
        svg.text((LEFT - 8.0, y + 4.0), "end", &words);
    }
    svg.put(format!(
        r#"<path class="axis" d="M{LEFT} {TOP}V{BOTTOM}H{RIGHT}"/>"#
    ));
    let (middle, below) = ((LEFT + RIGHT) / 2.0, BOTTOM + 44.0);
    svg.text((middle, below), "middle", "simulated time in seconds");
    let down = (TOP + BOTTOM) / 2.0;
    svg.put(format!(
        r#"<text transform="translate(20 {down}) rotate(-90)" text-anchor="middle">chunks held</text>"#
    ));
}

/// Round numbers from 0 up to the most, at most ten steps, and their words.
fn ticks(most: f64) -> Vec<(f64, String)> {
    let small = [0.1, 0.2, 0.5, 1.0, 2.0, 5.0, 10.0, 20.0, 32.0, 64.0];
    let large = [100.0, 200.0, 500.0, 1e3, 2e3, 5e3, 1e4];
    let mut steps = small.into_iter().chain(large);
    let step = steps.find(|step| most / step <= 10.0).unwrap_or(1e4);
    let decimals = usize::from(step < 1.0);
    let numbers = (0..=10).map(|n| f64::from(n) * step);
    numbers
        .filter(|&number| number <= most)
        .map(|number| (number, format!("{number:.decimals$}")))
        .collect()
}

/// A van's line, in steps. A fall is always drawn from where it began, and of steps near to each other the last.
fn path(scale: &Scale, history: &History, end: u64) -> String {
    let mut path = format!("M{:.1} {:.1}", scale.x(0.0), scale.y(0.0));
    let (mut at, mut held) = (scale.x(0.0), 0);
    for (place, &(time, count)) in history.iter().enumerate() {
        let x = scale.x(seconds(time));
        let next = history.get(place + 1);
        let rises_again = next.is_some_and(|&(_, next)| next >= count);
        if x - at < NEAR && count >= held && rises_again {
            continue;
        }
        path += &format!("H{x:.1}V{:.1}", scale.y(f64::from(count)));
        (at, held) = (x, count);
    }
    path + &format!("H{:.1}", scale.x(seconds(end)))
}

/// A dot where each fall begins.
fn falls(svg: &mut Svg, scale: &Scale, history: &History, fill: &str) {
    for pair in history.windows(2).filter(|pair| pair[1].1 < pair[0].1) {
        let (x, y) = (scale.x(seconds(pair[1].0)), scale.y(f64::from(pair[0].1)));
        svg.put(format!(
            r#"<circle cx="{x:.1}" cy="{y:.1}" r="3" fill="{fill}"/>"#
        ));
    }
}
