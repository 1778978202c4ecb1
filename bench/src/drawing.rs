//! Line plots as SVG: panels in rows and columns, each with its axes and lines, and one legend for all.

use std::fmt::Write;

const PANEL: (f64, f64) = (220.0, 150.0);
const GAP: (f64, f64) = (64.0, 62.0);
const MARGIN: (f64, f64) = (64.0, 96.0);
const RIGHT: f64 = 24.0;
const INK: &str = "#222222";
const FAINT: &str = "#dddddd";

#[derive(Clone, Copy)]
pub struct Style {
    pub colour: &'static str,
    pub width: f64,
    /// SVG's dash pattern; empty for a whole line.
    pub dashes: &'static str,
}

pub struct Line {
    pub style: Style,
    pub points: Vec<(f64, f64)>,
}

pub struct Axis {
    pub label: String,
    pub low: f64,
    pub high: f64,
    pub logarithmic: bool,
    pub ticks: Vec<(f64, String)>,
}

impl Axis {
    /// Where a number stands between the ends, from 0 to 1.
    fn share(&self, number: f64) -> f64 {
        match self.logarithmic {
            true => (number / self.low).ln() / (self.high / self.low).ln(),
            false => (number - self.low) / (self.high - self.low),
        }
    }
}

pub struct Panel {
    pub title: String,
    pub x: Axis,
    pub y: Axis,
    pub lines: Vec<Line>,
}

pub struct Drawing {
    pub title: String,
    pub columns: usize,
    pub panels: Vec<Panel>,
    pub legend: Vec<(String, Style)>,
}

impl Drawing {
    pub fn svg(&self) -> String {
        let rows = self.panels.len().div_ceil(self.columns);
        let width = MARGIN.0 + self.columns as f64 * (PANEL.0 + GAP.0) - GAP.0 + RIGHT;
        let height = MARGIN.1 + rows as f64 * (PANEL.1 + GAP.1);
        let mut svg = format!(
            "<svg xmlns=\"http://www.w3.org/2000/svg\" viewBox=\"0 0 {width} {height}\" width=\"{width}\" height=\"{height}\" \
             font-family=\"sans-serif\" font-size=\"11\" fill=\"{INK}\">\n\
             <rect width=\"{width}\" height=\"{height}\" fill=\"white\"/>\n\
             <text x=\"{}\" y=\"26\" font-size=\"15\" font-weight=\"bold\">{}</text>\n",
            MARGIN.0, self.title
        );
        self.legend(&mut svg);
        for (at, panel) in self.panels.iter().enumerate() {
            let (row, column) = (at / self.columns, at % self.columns);
            let left = MARGIN.0 + column as f64 * (PANEL.0 + GAP.0);
            let top = MARGIN.1 + row as f64 * (PANEL.1 + GAP.1);
            let _ = write!(
                svg,
                "<g transform=\"translate({left} {top})\">\n{}</g>\n",
                panel.svg()
            );
        }
        svg + "</svg>\n"
    }

    fn legend(&self, svg: &mut String) {
        let mut left = MARGIN.0;
        for (name, style) in &self.legend {
            let _ = writeln!(
                svg,
                "{}<text x=\"{}\" y=\"52\">{name}</text>",
                polyline(style, &[(left, 48.0), (left + 30.0, 48.0)]),
                left + 36.0
            );
            // Letters are about six wide: near enough for the next entry to stand clear.
            left += 36.0 + 6.0 * name.chars().count() as f64 + 18.0;
        }
    }
}

impl Panel {
    fn svg(&self) -> String {
        let mut svg = self.axes();
        for line in &self.lines {
            let place = |&(x, y): &(f64, f64)| {
                (self.x.share(x) * PANEL.0, (1.0 - self.y.share(y)) * PANEL.1)
            };
            let points: Vec<(f64, f64)> = line.points.iter().map(place).collect();
            svg += &polyline(&line.style, &points);
        }
        svg
    }

    fn axes(&self) -> String {
        let (width, height) = PANEL;
        let mut svg = format!(
            "<text x=\"{}\" y=\"-8\" text-anchor=\"middle\" font-weight=\"bold\">{}</text>\n",
            width / 2.0,
            self.title
        );
        for (number, text) in &self.x.ticks {
            let x = self.x.share(*number) * width;
            svg += &segment(FAINT, (x, 0.0), (x, height));
            let _ = writeln!(
                svg,
                "<text x=\"{x:.1}\" y=\"{}\" text-anchor=\"middle\">{text}</text>",
                height + 14.0
            );
        }
        for (number, text) in &self.y.ticks {
            let y = (1.0 - self.y.share(*number)) * height;
            svg += &segment(FAINT, (0.0, y), (width, y));
            let _ = writeln!(
                svg,
                "<text x=\"-5\" y=\"{:.1}\" text-anchor=\"end\">{text}</text>",
                y + 4.0
            );
        }
        svg += &segment(INK, (0.0, height), (width, height));
        svg += &segment(INK, (0.0, 0.0), (0.0, height));
        svg + &self.labels()
    }

    fn labels(&self) -> String {
        let (width, height) = PANEL;
        format!(
            "<text x=\"{}\" y=\"{}\" text-anchor=\"middle\">{}</text>\n\
             <text transform=\"translate(-46 {}) rotate(-90)\" text-anchor=\"middle\">{}</text>\n",
            width / 2.0,
            height + 30.0,
            self.x.label,
            height / 2.0,
            self.y.label
        )
    }
}

fn segment(colour: &str, from: (f64, f64), to: (f64, f64)) -> String {
    format!(
        "<line x1=\"{:.1}\" y1=\"{:.1}\" x2=\"{:.1}\" y2=\"{:.1}\" stroke=\"{colour}\"/>\n",
        from.0, from.1, to.0, to.1
    )
}

fn polyline(style: &Style, points: &[(f64, f64)]) -> String {
    let places: Vec<String> = points
        .iter()
        .map(|(x, y)| format!("{x:.1},{y:.1}"))
        .collect();
    let dashes = match style.dashes {
        "" => String::new(),
        dashes => format!(" stroke-dasharray=\"{dashes}\""),
    };
    format!(
        "<polyline points=\"{}\" fill=\"none\" stroke=\"{}\" stroke-width=\"{}\"{dashes}/>\n",
        places.join(" "),
        style.colour,
        style.width
    )
}
