//! The elements of a picture, one to a line.

const WIDTH: u32 = 1000;
const HEIGHT: u32 = 945;

const STYLE: &str = "\
<defs>
<marker id=\"to\" viewBox=\"0 0 12 8\" refX=\"12\" refY=\"4\" markerWidth=\"12\" markerHeight=\"8\" \
markerUnits=\"userSpaceOnUse\" orient=\"auto\"><path d=\"M0 0 L12 4 L0 8 Z\"/></marker>
<marker id=\"from\" viewBox=\"0 0 12 8\" refX=\"0\" refY=\"4\" markerWidth=\"12\" markerHeight=\"8\" \
markerUnits=\"userSpaceOnUse\" orient=\"auto\"><path d=\"M12 0 L0 4 L12 8 Z\"/></marker>
</defs>
<style>
text { font-family: Helvetica, Arial, sans-serif; font-size: 15px; fill: #000; }
.head { font-size: 19px; font-weight: bold; }
.code { font-family: monospace; }
.mid { text-anchor: middle; }
.end { text-anchor: end; }
line, polyline { fill: none; stroke: #000; stroke-width: 1; }
.dim { marker-start: url(#from); marker-end: url(#to); }
.arrow { marker-end: url(#to); }
.gross { stroke-width: 1.2; stroke-dasharray: 16 4 3 4; }
.effective { stroke-width: 1.6; stroke-dasharray: 9 4; }
.bar { stroke-width: 4; }
.pale-edge { stroke: #8a8a8a; }
.pale { stroke: #e9e9e9; }
.counts { stroke: #3a3a3a; }
</style>
";

/// A point of the picture; y goes down.
#[derive(Clone, Copy)]
pub struct At {
    pub x: f64,
    pub y: f64,
}

pub fn at(x: f64, y: f64) -> At {
    At { x, y }
}

/// What has been drawn so far.
#[derive(Default)]
pub struct Svg(String);

impl Svg {
    pub fn line(&mut self, class: &str, from: At, to: At) {
        let ends = format!(
            "x1=\"{:.2}\" y1=\"{:.2}\" x2=\"{:.2}\" y2=\"{:.2}\"",
            from.x, from.y, to.x, to.y
        );
        self.0 += &format!("<line class=\"{class}\" {ends}/>\n");
    }

    /// A wall of so much thickness along the points.
    pub fn wall(&mut self, class: &str, thickness: f64, points: &[At]) {
        let points: Vec<String> = points
            .iter()
            .map(|p| format!("{:.2},{:.2}", p.x, p.y))
            .collect();
        let points = points.join(" ");
        let width = format!("style=\"stroke-width:{thickness:.2}\"");
        self.0 += &format!("<polyline class=\"{class}\" {width} points=\"{points}\"/>\n");
    }

    /// A wall that does not count, with its edges.
    pub fn pale_wall(&mut self, thickness: f64, points: &[At]) {
        self.wall("pale-edge", thickness, points);
        self.wall("pale", thickness - 2.0, points);
    }

    pub fn text(&mut self, class: &str, at: At, text: &str) {
        let place = format!("x=\"{:.2}\" y=\"{:.2}\"", at.x, at.y);
        self.0 += &format!("<text class=\"{class}\" {place}>{text}</text>\n");
    }

    /// Lines of text, one below the other.
    pub fn texts(&mut self, class: &str, first: At, texts: &[String]) {
        for (i, text) in texts.iter().enumerate() {
            self.text(class, at(first.x, first.y + 20.0 * i as f64), text);
        }
    }

    pub fn finished(self, title: &str) -> String {
        let Svg(elements) = self;
        format!(
            "<svg xmlns=\"http://www.w3.org/2000/svg\" width=\"{WIDTH}\" height=\"{HEIGHT}\" \
             viewBox=\"0 0 {WIDTH} {HEIGHT}\">\n\
             <!-- printed by the command picture of tests/reference; tests/pictures.sh holds it to that -->\n\
             <title>{title}</title>\n{STYLE}\
             <rect width=\"{WIDTH}\" height=\"{HEIGHT}\" fill=\"#fff\"/>\n{elements}</svg>\n"
        )
    }
}
