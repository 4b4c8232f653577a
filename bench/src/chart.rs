//! The pictures of docs/PERFORMANCE.md, as SVG.

use std::fmt::Write;

const COLOURS: [&str; 4] = ["#4c78a8", "#f58518", "#54a24b", "#b279a2"];
const FONT: &str = "font-family='sans-serif' font-size='12'";

/// A picture being drawn.
struct Picture {
    text: String,
    width: usize,
    height: usize,
}

impl Picture {
    fn new(width: usize, height: usize) -> Picture {
        Picture {
            text: String::new(),
            width,
            height,
        }
    }

    fn put(&mut self, shape: &str) {
        writeln!(self.text, "  {shape}").expect("a string takes all");
    }

    fn line(&mut self, (x, y): (f64, f64), (u, v): (f64, f64), style: &str) {
        self.put(&format!(
            "<line x1='{x:.1}' y1='{y:.1}' x2='{u:.1}' y2='{v:.1}' {style}/>"
        ));
    }

    fn words(&mut self, x: f64, y: f64, anchor: &str, words: &str) {
        self.put(&format!(
            "<text x='{x:.1}' y='{y:.1}' text-anchor='{anchor}' {FONT}>{words}</text>"
        ));
    }

    /// The calls' colours, in a row.
    fn legend(&mut self, y: f64, names: [&str; 4]) {
        for (k, name) in names.iter().enumerate() {
            let x = 250.0 + 90.0 * k as f64;
            let colour = COLOURS[k];
            self.put(&format!(
                "<rect x='{x:.1}' y='{:.1}' width='10' height='10' fill='{colour}'/>",
                y - 10.0
            ));
            self.words(x + 15.0, y, "start", name);
        }
    }

    fn done(self) -> String {
        let (width, height) = (self.width, self.height);
        format!(
            "<svg xmlns='http://www.w3.org/2000/svg' width='{width}' height='{height}' viewBox='0 0 {width} {height}'>\n  <rect width='{width}' height='{height}' fill='white'/>\n{}</svg>\n",
            self.text
        )
    }
}

/// The middle, the least and the greatest.
pub type Spread = (f64, f64, f64);

/// A bar for each book and call: how many times as long as the model it takes.
pub fn ratios(calls: [&str; 4], rows: &[(String, [Spread; 4])]) -> String {
    let (left, top, bar) = (190.0, 50.0, 11.0);
    let group = 4.0 * bar + 12.0;
    let height = top + group * rows.len() as f64 + 30.0;
    let mut picture = Picture::new(780, height as usize);
    let x = |ratio: f64| left + 350.0 * ratio;
    picture.legend(22.0, calls);
    for tick in [0.0, 0.5, 1.0, 1.5] {
        let style = match tick == 1.0 {
            true => "stroke='black'",
            false => "stroke='#cccccc'",
        };
        picture.line((x(tick), top - 8.0), (x(tick), height - 28.0), style);
        picture.words(x(tick), height - 12.0, "middle", &format!("{tick:.1}"));
    }
    for (k, (label, spreads)) in rows.iter().enumerate() {
        let y = top + group * k as f64;
        picture.words(left - 8.0, y + 2.0 * bar + 4.0, "end", label);
        for (call, &(middle, least, most)) in spreads.iter().enumerate() {
            let y = y + bar * call as f64;
            picture.put(&format!(
                "<rect x='{left:.1}' y='{y:.1}' width='{:.1}' height='{:.1}' fill='{}'/>",
                x(middle) - left,
                bar - 1.0,
                COLOURS[call]
            ));
            let y = y + bar / 2.0 - 0.5;
            picture.line((x(least), y), (x(most), y), "stroke='black'");
            picture.words(x(most) + 5.0, y + 4.0, "start", &format!("{middle:.2}"));
        }
    }
    picture.done()
}

/// A line of times, over sizes that double: its name, and for each call its
/// points.
pub struct Growth {
    pub label: String,
    pub points: Vec<(usize, [f64; 4])>,
}

/// A panel for each sort of book, both axes by powers: how long a call takes.
pub fn growth(calls: [&str; 4], all: &[Growth]) -> String {
    let (side, top) = (230.0, 50.0);
    let mut picture = Picture::new(60 + 280 * all.len(), 350);
    picture.legend(22.0, calls);
    // From a microsecond to ten milliseconds.
    let up = |micros: f64| top + side * (1.0 - micros.max(0.5).log10() / 4.0);
    for (k, one) in all.iter().enumerate() {
        let left = 60.0 + 280.0 * k as f64;
        for (tick, words) in ["1 µs", "10 µs", "100 µs", "1 ms", "10 ms"]
            .iter()
            .enumerate()
        {
            let y = up(10f64.powi(tick as i32));
            picture.line((left, y), (left + side, y), "stroke='#cccccc'");
            picture.words(left - 4.0, y + 4.0, "end", words);
        }
        let last = (one.points.len() - 1).max(1) as f64;
        let over = |at: usize| left + side * at as f64 / last;
        for (at, (size, _)) in one.points.iter().enumerate() {
            picture.words(over(at), top + side + 18.0, "middle", &size.to_string());
        }
        picture.words(left + side / 2.0, top + side + 40.0, "middle", &one.label);
        for (call, colour) in COLOURS.iter().enumerate() {
            let style = format!("stroke='{colour}' stroke-width='2'");
            for (at, pair) in one.points.windows(2).enumerate() {
                let (a, b) = (up(pair[0].1[call]), up(pair[1].1[call]));
                picture.line((over(at), a), (over(at + 1), b), &style);
            }
        }
    }
    picture.done()
}
