//! A drawing of curves against dirty pages, on a white ground.

const WIDTH: f64 = 460.0;
const HEIGHT: f64 = 378.0;
const LEFT: f64 = 70.0;
const RIGHT: f64 = 20.0;
const TOP: f64 = 108.0;
const BOTTOM: f64 = 50.0;
const MOST_PAGES: f64 = 64.0;

pub struct Curve {
    name: &'static str,
    colour: &'static str,
    points: Vec<(f64, f64)>,
}

impl Curve {
    pub fn line(points: Vec<(f64, f64)>) -> Curve {
        Curve { name: "proved machine, a rewind's whole line", colour: "#7f7f7f", points }
    }

    pub fn own_work(points: Vec<(f64, f64)>) -> Curve {
        Curve { name: "proved machine, a rewind's own work", colour: "#1b6ca8", points }
    }

    pub fn bare(points: Vec<(f64, f64)>) -> Curve {
        Curve { name: "bare copy of the dirty pages", colour: "#2e8b57", points }
    }

    pub fn copying(points: Vec<(f64, f64)>) -> Curve {
        Curve { name: "full copy of all 64 pages", colour: "#b22222", points }
    }
}

/// One diagram; its title says what is drawn upwards.
pub struct Panel {
    pub title: &'static str,
    pub curves: [Curve; 4],
}

/// The panels side by side.
pub fn plot(panels: &[Panel]) -> String {
    let width = WIDTH * panels.len() as f64;
    let mut svg = format!(
        "<svg xmlns=\"http://www.w3.org/2000/svg\" width=\"{width}\" height=\"{HEIGHT}\" \
         viewBox=\"0 0 {width} {HEIGHT}\" font-family=\"sans-serif\" font-size=\"12\">\n\
         <rect width=\"{width}\" height=\"{HEIGHT}\" fill=\"white\"/>\n"
    );
    for (index, panel) in panels.iter().enumerate() {
        svg.push_str(&format!("<g transform=\"translate({} 0)\">\n", WIDTH * index as f64));
        svg.push_str(&panel.svg());
        svg.push_str("</g>\n");
    }
    svg.push_str("</svg>\n");
    svg
}

impl Panel {
    fn svg(&self) -> String {
        let values = self.curves.iter().flat_map(|curve| &curve.points).map(|point| point.1);
        let step = step_for(values.fold(0.0, f64::max));
        let steps = (0..).find(|&n| self.fits(f64::from(n) * step)).unwrap_or(1);
        let most = f64::from(steps) * step;
        let mut svg = String::new();
        for n in 0..=steps {
            let value = f64::from(n) * step;
            let y = y_at(value, most);
            svg.push_str(&line(LEFT, y, WIDTH - RIGHT, y, "#dddddd"));
            svg.push_str(&label(LEFT - 8.0, y + 4.0, "end", &format!("{value}")));
        }
        for pages in [0.0, 8.0, 16.0, 32.0, 48.0, 64.0] {
            let x = x_at(pages);
            svg.push_str(&line(x, y_at(0.0, most), x, y_at(0.0, most) + 5.0, "black"));
            svg.push_str(&label(x, y_at(0.0, most) + 20.0, "middle", &format!("{pages}")));
        }
        svg.push_str(&line(LEFT, y_at(0.0, most), WIDTH - RIGHT, y_at(0.0, most), "black"));
        svg.push_str(&line(LEFT, TOP, LEFT, y_at(0.0, most), "black"));
        let middle = (LEFT + WIDTH - RIGHT) / 2.0;
        svg.push_str(&label(middle, HEIGHT - 12.0, "middle", "dirty pages of 64"));
        svg.push_str(&label(LEFT, TOP - 10.0, "middle", self.title));
        for (index, curve) in self.curves.iter().enumerate() {
            svg.push_str(&curve.svg(most, 16.0 + 18.0 * index as f64));
        }
        svg
    }

    /// Whether no curve rises above the value.
    fn fits(&self, value: f64) -> bool {
        self.curves.iter().flat_map(|curve| &curve.points).all(|point| point.1 <= value)
    }
}

impl Curve {
    /// The curve with its dots, and its line of the legend at a height.
    fn svg(&self, most: f64, legend: f64) -> String {
        let colour = self.colour;
        let place = |&(pages, value): &(f64, f64)| (x_at(pages), y_at(value.max(0.0), most));
        let places: Vec<(f64, f64)> = self.points.iter().map(place).collect();
        let path: Vec<String> = places.iter().map(|(x, y)| format!("{x:.1},{y:.1}")).collect();
        let mut svg = format!(
            "<polyline points=\"{}\" fill=\"none\" stroke=\"{colour}\" stroke-width=\"2\"/>\n",
            path.join(" ")
        );
        for (x, y) in places {
            svg.push_str(&format!(
                "<circle cx=\"{x:.1}\" cy=\"{y:.1}\" r=\"3\" fill=\"{colour}\"/>\n"
            ));
        }
        let start = LEFT + 40.0;
        svg.push_str(&line(start, legend, start + 24.0, legend, colour));
        svg.push_str(&label(start + 32.0, legend + 4.0, "start", self.name));
        svg
    }
}

/// A round step that divides the height into at most ten.
fn step_for(most: f64) -> f64 {
    let steps = (0..9).flat_map(|power| [1.0, 2.0, 5.0].map(|digit| digit * 10f64.powi(power)));
    steps.into_iter().find(|step| most / step <= 10.0).unwrap_or(1e9)
}

fn x_at(pages: f64) -> f64 {
    LEFT + (WIDTH - LEFT - RIGHT) * pages / MOST_PAGES
}

fn y_at(value: f64, most: f64) -> f64 {
    HEIGHT - BOTTOM - (HEIGHT - BOTTOM - TOP) * value / most
}

fn line(x1: f64, y1: f64, x2: f64, y2: f64, colour: &str) -> String {
    format!(
        "<line x1=\"{x1:.1}\" y1=\"{y1:.1}\" x2=\"{x2:.1}\" y2=\"{y2:.1}\" stroke=\"{colour}\"/>\n"
    )
}

fn label(x: f64, y: f64, anchor: &str, text: &str) -> String {
    format!("<text x=\"{x:.1}\" y=\"{y:.1}\" text-anchor=\"{anchor}\">{text}</text>\n")
}
