//! Marks of a picture in SVG. A mark's class, one letter, is one of the style's.

const STYLE: &str = "\
text{font:11px monospace;fill:#222;stroke:#fff;stroke-width:3px;paint-order:stroke}
.t{font-size:20px;font-weight:bold}.r{font-size:13px}.j{font-size:14px;font-weight:bold;fill:#a00018}
.b,.a{text-anchor:middle;font-weight:bold}.w{font-size:12px;font-weight:bold}.w,.a{fill:#fff;stroke:none}
.e,.f{text-anchor:end}.p,.f{fill:#767676}
path{fill:none;stroke:#222;stroke-width:1.5}.l{stroke:#999}.h{stroke:#eee}.m,.d{marker-end:url(#a)}
.d{stroke-dasharray:6 4}.o{stroke:#bbb;marker-end:url(#o)}.x{stroke:#a00018;stroke-width:4}
path.q{stroke:#a00018;stroke-width:2.5;stroke-dasharray:2 4}text.q{fill:#a00018;font-weight:bold}
rect{fill:#fff;stroke:#222}.k{fill:#eee}.n{fill:#a00018}.y{fill:url(#y)}.n,.y,.v{stroke:#400008;stroke-width:3}
rect.q{fill:none;stroke:#a00018;stroke-width:2}
.c,.u{fill:#fff;stroke:#bbb;stroke-width:2}.u{stroke:#a00018;stroke-width:3}
@media print{@page{margin:8mm}svg{width:100%;height:auto}}";

const MARKS: &str = "\
<marker id=\"a\" refX=\"6\" refY=\"3\" markerWidth=\"6\" markerHeight=\"6\" orient=\"auto\"><path d=\"M0 0L6 3L0 6\" style=\"stroke:none;fill:#222\"/></marker>
<marker id=\"o\" refX=\"6\" refY=\"3\" markerWidth=\"6\" markerHeight=\"6\" orient=\"auto\"><path d=\"M0 0L6 3L0 6\" style=\"stroke:none;fill:#bbb\"/></marker>
<pattern id=\"y\" width=\"8\" height=\"8\" patternUnits=\"userSpaceOnUse\"><path d=\"M0 0H8V8H0\" style=\"stroke:none;fill:#a00018\"/>\
<path d=\"M-2 2L2 -2M0 8L8 0M6 10L10 6\" style=\"stroke:#fff;stroke-width:2\"/></pattern>
";

/// Words as XML has them.
pub fn escaped(words: &str) -> String {
    words.replace('&', "&amp;").replace('<', "&lt;").replace('>', "&gt;").replace('"', "&quot;")
}

pub struct Picture {
    out: String,
}

impl Picture {
    pub fn new(width: usize, height: usize, title: &str) -> Picture {
        let mut p = Picture { out: String::new() };
        let size = format!("width=\"{0}\" height=\"{1}\" viewBox=\"0 0 {0} {1}\"", width, height);
        p.put(&format!("<svg xmlns=\"http://www.w3.org/2000/svg\" {}>\n<title>{}</title>\n", size, escaped(title)));
        p.put(&format!("<style>{}</style>\n{}", STYLE, MARKS));
        p.rect('z', [0, 0, width, height]);
        p
    }

    fn put(&mut self, words: &str) {
        self.out.push_str(words);
    }

    pub fn line(&mut self, class: char, from: (usize, usize), to: (usize, usize)) {
        self.put(&format!("<path class=\"{}\" d=\"M{} {}L{} {}\"/>\n", class, from.0, from.1, to.0, to.1));
    }

    /// Two lines, by way of a corner.
    pub fn corner(&mut self, class: char, points: [(usize, usize); 3]) {
        let [a, b, c] = points;
        self.put(&format!("<path class=\"{}\" d=\"M{} {}L{} {}L{} {}\"/>\n", class, a.0, a.1, b.0, b.1, c.0, c.1));
    }

    /// A bend out to the right, from a line back to it.
    pub fn bend(&mut self, class: char, from: (usize, usize), out: usize, to: (usize, usize)) {
        self.put(&format!("<path class=\"{}\" d=\"M{} {}C{} {} {} {} {} {}\"/>\n", class, from.0, from.1, out, from.1, out, to.1, to.0, to.1));
    }

    /// A box: its corner, width and height.
    pub fn rect(&mut self, class: char, [x, y, width, height]: [usize; 4]) {
        self.put(&format!("<rect class=\"{}\" x=\"{}\" y=\"{}\" width=\"{}\" height=\"{}\"/>\n", class, x, y, width, height));
    }

    pub fn circle(&mut self, class: char, x: usize, y: usize, radius: usize) {
        self.put(&format!("<circle class=\"{}\" cx=\"{}\" cy=\"{}\" r=\"{}\"/>\n", class, x, y, radius));
    }

    pub fn text(&mut self, class: char, x: usize, y: usize, words: &str) {
        self.put(&format!("<text class=\"{}\" x=\"{}\" y=\"{}\">{}</text>\n", class, x, y, escaped(words)));
    }

    pub fn end(mut self) -> String {
        self.put("</svg>\n");
        self.out
    }
}
