// Draws the figures of a run, from the standard input, as a picture in SVG, on the standard output: panels with a scale of their own, in
// each a group of bars for each list or kind of document. It brings its paper, light or dark as the reader has it, so that it can be read
// on a page of either kind also where nothing is known of the reader.
use std::fmt::Write;
use std::io::{stdin, Read};

const WIDTH: usize = 860;
/// Where the bars begin, and how long the longest is. Behind it is room for its figure.
const LEFT: usize = 170;
const LONGEST: f64 = 600.0;
const BAR: usize = 15;
const BETWEEN_BARS: usize = 2;
const BETWEEN_GROUPS: usize = 14;

/// The bars in the order of the key: what they are called in the figures, their class, and what they are called in the picture.
const KEY: [(&str, &str, &str); 4] = [
    ("ours", "ours", "Choughbell"),
    ("baseline", "baseline", "baseline in Rust"),
    ("expat", "expat", "expat, check only"),
    ("libxml2", "libxml", "libxml2, check only"),
];

const STYLE: &str = ".paper { fill: #ffffff }
text { font: 13px system-ui, 'Segoe UI', Helvetica, Arial, sans-serif; fill: #24292f }
.head { font-size: 15px; font-weight: 600 }
.figure { font-size: 12px }
.axis { stroke: #8c959f }
.ours { fill: #1f6feb }
.baseline { fill: #d4772c }
.expat { fill: #7d8590 }
.libxml { fill: #adb5bd }
@media (prefers-color-scheme: dark) {
.paper { fill: #0d1117 }
text { fill: #e6edf3 }
.axis { stroke: #6e7681 }
.ours { fill: #58a6ff }
.libxml { fill: #57606a }
}";

struct Panel<'a> {
    title: &'a str,
    groups: Vec<Group<'a>>,
}

struct Group<'a> {
    title: &'a str,
    bars: Vec<(&'a str, f64)>,
}

/// The panels of lines: panel, group, what, figure.
fn panels(text: &str) -> Vec<Panel<'_>> {
    let mut panels: Vec<Panel> = Vec::new();
    for line in text.lines() {
        let [panel, group, what, figure] = line.split('\t').collect::<Vec<_>>()[..] else { panic!("{line}: no figure") };
        if panels.last().map(|last| last.title) != Some(panel) {
            panels.push(Panel { title: panel, groups: Vec::new() });
        }
        let groups = &mut panels.last_mut().unwrap().groups;
        if groups.last().map(|last| last.title) != Some(group) {
            groups.push(Group { title: group, bars: Vec::new() });
        }
        groups.last_mut().unwrap().bars.push((what, figure.parse().expect("a number")));
    }
    panels
}

/// A picture that grows downwards.
struct Drawn {
    svg: String,
    y: usize,
}

impl Drawn {
    fn text(&mut self, class: &str, anchor: &str, x: usize, text: &str) {
        writeln!(self.svg, "<text class=\"{class}\" text-anchor=\"{anchor}\" x=\"{x}\" y=\"{}\">{text}</text>", self.y).unwrap();
    }

    fn bar(&mut self, class: &str, x: usize, width: f64) {
        writeln!(self.svg, "<rect class=\"{class}\" x=\"{x}\" y=\"{}\" width=\"{width:.1}\" height=\"{BAR}\"/>", self.y).unwrap();
    }

    /// The colours and what they stand for, on one line.
    fn key(&mut self) {
        for (i, (_, class, title)) in KEY.iter().enumerate() {
            let x = LEFT + 155 * i;
            self.bar(class, x, BAR as f64);
            self.y += BAR - 3;
            self.text("", "start", x + BAR + 6, title);
            self.y -= BAR - 3;
        }
        self.y += BAR + 18;
    }

    fn group(&mut self, group: &Group, scale: f64) {
        let top = self.y;
        let height = group.bars.len() * (BAR + BETWEEN_BARS);
        self.y = top + height / 2 + 3;
        self.text("", "end", LEFT - 10, group.title);
        self.y = top;
        for (what, figure) in &group.bars {
            let class = KEY.iter().find(|(name, ..)| name == what).map_or("", |(_, class, _)| class);
            let width = (figure * scale).max(1.0);
            self.bar(class, LEFT, width);
            self.y += BAR - 4;
            self.text("figure", "start", LEFT + width as usize + 6, &format!("{figure:.0}"));
            self.y += 4 + BETWEEN_BARS;
        }
        let bottom = self.y + 1;
        writeln!(self.svg, "<line class=\"axis\" x1=\"{LEFT}\" x2=\"{LEFT}\" y1=\"{}\" y2=\"{bottom}\"/>", top - 3).unwrap();
        self.y += BETWEEN_GROUPS;
    }

    fn panel(&mut self, panel: &Panel) {
        self.y += 14;
        self.text("head", "start", 10, panel.title);
        self.y += 16;
        let most = panel.groups.iter().flat_map(|group| &group.bars).fold(1.0, |most: f64, bar| most.max(bar.1));
        panel.groups.iter().for_each(|group| self.group(group, LONGEST / most));
    }
}

fn main() {
    let mut text = String::new();
    stdin().read_to_string(&mut text).expect("figures");
    let mut drawn = Drawn { svg: String::new(), y: 24 };
    drawn.text("head", "start", 10, "Throughput in MB of document a second; longer is faster");
    drawn.y += 14;
    drawn.key();
    panels(&text).iter().for_each(|panel| drawn.panel(panel));
    let height = drawn.y;
    println!("<svg xmlns=\"http://www.w3.org/2000/svg\" width=\"{WIDTH}\" height=\"{height}\" viewBox=\"0 0 {WIDTH} {height}\">");
    println!("<title>Throughput of Choughbell, the baseline, expat and libxml2</title>\n<style>\n{STYLE}\n</style>");
    println!("<rect class=\"paper\" width=\"{WIDTH}\" height=\"{height}\" rx=\"6\"/>\n{}</svg>", drawn.svg);
}
