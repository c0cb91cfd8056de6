// Plots side by side, as the text of an SVG file.

// Lines over one pair of axes, both from 0.
pub struct Plot {
    pub title: String,
    pub across: &'static str,
    pub lines: Vec<Line>,
}

// A line: what stands at its end, and its points from left to right.
pub struct Line {
    pub label: String,
    pub points: Vec<(f64, f64)>,
}

// Okabe and Ito's colours, which people with any colour vision can tell apart; the yellow is left out on white.
const COLOURS: [&str; 6] = ["#0072b2", "#d55e00", "#009e73", "#cc79a7", "#56b4e9", "#e69f00"];

const WIDTH: f64 = 340.0;
const HEIGHT: f64 = 240.0;
// What a plot takes beside and above its axes, and all plots together below them.
const LEFT: f64 = 84.0;
const RIGHT: f64 = 76.0;
const TOP: f64 = 72.0;
const BOTTOM: f64 = 58.0;
// The least height between two labels.
const LINE: f64 = 14.0;

// A round step of which at most six make up a number.
fn step(most: f64) -> f64 {
    let steps = (-3..9).flat_map(|k| [1.0, 2.0, 5.0].map(|x| x * 10f64.powi(k)));
    steps.into_iter().find(|step| step * 6.0 >= most).unwrap_or(most)
}

// A number with a comma before each three digits.
pub fn grouped(number: f64) -> String {
    let digits = format!("{number:.0}");
    let mut text = String::new();
    for (k, digit) in digits.chars().enumerate() {
        if k > 0 && (digits.len() - k) % 3 == 0 {
            text.push(',');
        }
        text.push(digit);
    }
    text
}

// A line of text that starts, ends or has its middle at a place.
fn words(x: f64, y: f64, anchor: &str, text: &str) -> String {
    format!("<text x=\"{x:.1}\" y=\"{y:.1}\" text-anchor=\"{anchor}\">{text}</text>\n")
}

impl Plot {
    // The most of one coordinate of all points.
    fn most(&self, of: fn(&(f64, f64)) -> f64) -> f64 {
        self.lines.iter().flat_map(|line| &line.points).map(of).fold(0.0, f64::max)
    }

    // The axes with their numbers and names; the lines between the numbers are pale.
    fn axes(&self, x: impl Fn(f64) -> f64, y: impl Fn(f64) -> f64) -> String {
        let (right, high) = (self.most(|p| p.0), self.most(|p| p.1));
        let mut text = words(x(0.0), TOP - 26.0, "start", &self.title);
        let up = step(high);
        for k in 0..=(high / up) as usize {
            let at = k as f64 * up;
            let (from, to) = (x(0.0), x(right));
            text += &format!("<path d=\"M{from:.1} {0:.1}H{to:.1}\" stroke=\"#dddddd\"/>\n", y(at));
            text += &words(x(0.0) - 8.0, y(at) + 4.0, "end", &grouped(at));
        }
        for k in 0..=(right / 4.0) as usize {
            let at = 4.0 * k as f64;
            text += &words(x(at), y(0.0) + 18.0, "middle", &grouped(at));
        }
        text += &words(x(right / 2.0), y(0.0) + 40.0, "middle", self.across);
        text += &words(x(0.0) - 8.0, TOP - 8.0, "end", "µs");
        text + &format!("<path d=\"M{:.1} {TOP}V{:.1}H{:.1}\" stroke=\"#222222\" fill=\"none\"/>\n", x(0.0), y(0.0), x(right))
    }

    // The plot with its left edge at a place.
    fn svg(&self, left: f64) -> String {
        let (right, high) = (self.most(|p| p.0), self.most(|p| p.1));
        let x = |at: f64| left + LEFT + at / right * WIDTH;
        let y = |at: f64| TOP + HEIGHT - at / high * HEIGHT;
        let mut text = self.axes(x, y);
        let mut free = f64::INFINITY;
        for (line, colour) in self.lines.iter().zip(COLOURS) {
            let points: Vec<String> = line.points.iter().map(|p| format!("{:.1},{:.1}", x(p.0), y(p.1))).collect();
            text += &format!("<polyline points=\"{}\" fill=\"none\" stroke=\"{colour}\" stroke-width=\"2\"/>\n", points.join(" "));
            for p in &line.points {
                text += &format!("<circle cx=\"{:.1}\" cy=\"{:.1}\" r=\"2.5\" fill=\"{colour}\"/>\n", x(p.0), y(p.1));
            }
            let end = line.points.last().map_or(0.0, |p| p.1);
            free = (y(end) + 4.0).min(free - LINE);
            text += &words(x(right) + 8.0, free, "start", &line.label);
        }
        text
    }
}

// The file with a title and plots from left to right. The lines of a plot come from the lowest to the highest.
pub fn svg(title: &str, plots: &[Plot]) -> String {
    let width = plots.len() as f64 * (LEFT + WIDTH + RIGHT);
    let height = TOP + HEIGHT + BOTTOM;
    let mut text = "<svg xmlns=\"http://www.w3.org/2000/svg\"".to_string();
    text += &format!(" width=\"{width}\" height=\"{height}\" viewBox=\"0 0 {width} {height}\"");
    text += " font-family=\"DejaVu Sans, Verdana, sans-serif\" font-size=\"12\" fill=\"#222222\">\n";
    text += &format!("<title>{title}</title>\n<rect width=\"{width}\" height=\"{height}\" fill=\"#ffffff\"/>\n");
    text += &format!("<text x=\"16\" y=\"26\" font-size=\"14\" font-weight=\"bold\">{title}</text>\n");
    for (k, plot) in plots.iter().enumerate() {
        text += &plot.svg(k as f64 * (LEFT + WIDTH + RIGHT));
    }
    text + "</svg>\n"
}
