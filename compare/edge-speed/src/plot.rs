//! The growth as a picture.

use crate::growth::Growth;
use std::fmt::Write;

/// A panel's size and the room around its axes.
const WIDTH: f64 = 420.0;
const HEIGHT: f64 = 300.0;
const LEFT: f64 = 60.0;
const RIGHT: f64 = 20.0;
const TOP: f64 = 40.0;
const BOTTOM: f64 = 50.0;

/// Ticks on an axis, at least.
const TICKS: f64 = 4.0;

/// How far the axis of times goes past the longest, which leaves room for the names of the lines.
const HEADROOM: f64 = 1.2;

/// The two lines, by name and colour.
const SERIES: [(&str, &str); 2] = [("Ledgerwren", "#0b6e4f"), ("crate sacn", "#c0392b")];

/// The panels side by side, as an SVG file.
pub fn svg(panels: &[Growth]) -> String {
    let width = WIDTH * panels.len() as f64;
    let mut text = format!(
        "<svg xmlns=\"http://www.w3.org/2000/svg\" width=\"{width}\" height=\"{HEIGHT}\" \
         font-family=\"sans-serif\" font-size=\"11\">\n\
         <rect width=\"{width}\" height=\"{HEIGHT}\" fill=\"white\"/>\n"
    );
    for (i, panel) in panels.iter().enumerate() {
        let x = WIDTH * i as f64;
        let drawn = Panel::new(panel).draw();
        text += &format!("<g transform=\"translate({x} 0)\">\n{drawn}</g>\n");
    }
    text + "</svg>\n"
}

struct Panel<'a> {
    growth: &'a Growth,
    /// How far the axes of sizes and times go.
    most: (f64, f64),
}

/// A step of 1, 2 or 5 times a power of ten that gives enough ticks.
fn step(most: f64) -> f64 {
    let power = 10f64.powf((most / TICKS).log10().floor());
    let fits = [5.0, 2.0].into_iter().find(|k| k * power * TICKS <= most);
    power * fits.unwrap_or(1.0)
}

fn ticks(most: f64) -> impl Iterator<Item = f64> {
    let step = step(most);
    (0..)
        .map(move |i| f64::from(i) * step)
        .take_while(move |tick| *tick <= most)
}

impl Panel<'_> {
    fn new(growth: &Growth) -> Panel<'_> {
        let sizes = growth.points.iter().map(|(size, _)| *size as f64);
        let times = growth.points.iter().flat_map(|(_, times)| *times);
        Panel {
            growth,
            most: (
                sizes.fold(1.0, f64::max),
                times.fold(1.0, f64::max) * HEADROOM,
            ),
        }
    }

    fn x(&self, size: f64) -> f64 {
        LEFT + size / self.most.0 * (WIDTH - LEFT - RIGHT)
    }

    fn y(&self, time: f64) -> f64 {
        HEIGHT - BOTTOM - time / self.most.1 * (HEIGHT - TOP - BOTTOM)
    }

    fn draw(&self) -> String {
        let mut text = format!(
            "<text x=\"{LEFT}\" y=\"18\" font-weight=\"bold\">{}</text>\n",
            self.growth.title
        );
        self.draw_axes(&mut text);
        for (i, (name, colour)) in SERIES.iter().enumerate() {
            self.draw_line(&mut text, i, name, colour);
        }
        text
    }

    fn draw_axes(&self, text: &mut String) {
        let (left, right, top, bottom) = (LEFT, WIDTH - RIGHT, TOP, HEIGHT - BOTTOM);
        for time in ticks(self.most.1) {
            let (x, y) = (left - 7.0, self.y(time));
            *text += &format!(
                "<path d=\"M{left} {y:.1}H{right}\" stroke=\"#ddd\"/>\
                 <text x=\"{x}\" y=\"{:.1}\" text-anchor=\"end\">{time}</text>\n",
                y + 4.0
            );
        }
        for size in ticks(self.most.0) {
            let (x, y) = (self.x(size), bottom + 16.0);
            *text += &format!(
                "<path d=\"M{x:.1} {bottom}v4\" stroke=\"black\"/>\
                 <text x=\"{x:.1}\" y=\"{y}\" text-anchor=\"middle\">{size}</text>\n"
            );
        }
        let middle = ((left + right) / 2.0, (top + bottom) / 2.0);
        *text += &format!(
            "<path d=\"M{left} {top}V{bottom}H{right}\" fill=\"none\" stroke=\"black\"/>\n\
             <text x=\"{}\" y=\"{}\" text-anchor=\"middle\">{}</text>\n\
             <text x=\"14\" y=\"{y}\" text-anchor=\"middle\" \
             transform=\"rotate(-90 14 {y})\">nanoseconds</text>\n",
            middle.0,
            bottom + 38.0,
            self.growth.unit,
            y = middle.1,
        );
    }

    fn draw_line(&self, text: &mut String, i: usize, name: &str, colour: &str) {
        let mut path = String::new();
        for (size, times) in &self.growth.points {
            let (x, y) = (self.x(*size as f64), self.y(times[i]));
            write!(path, " {x:.1},{y:.1}").expect("text can grow");
            *text +=
                &format!("<circle cx=\"{x:.1}\" cy=\"{y:.1}\" r=\"2.5\" fill=\"{colour}\"/>\n");
        }
        let (x, y) = (LEFT + 12.0, TOP + 8.0 + 15.0 * i as f64);
        *text += &format!(
            "<polyline points=\"{}\" fill=\"none\" stroke=\"{colour}\" stroke-width=\"1.5\"/>\n\
             <path d=\"M{x} {y}h18\" stroke=\"{colour}\" stroke-width=\"3\"/>\
             <text x=\"{:.0}\" y=\"{:.0}\">{name}</text>\n",
            path.trim_start(),
            x + 24.0,
            y + 4.0
        );
    }
}
