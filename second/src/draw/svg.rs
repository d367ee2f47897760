//! The few shapes that the pictures are made of.

/// How far a loop's curve is drawn out.
const LOOP: f64 = 26.0;

/// How a box is drawn.
#[derive(Clone, Copy)]
pub(super) enum Look {
    State,
    /// A state at the end of a path on which the condition is true.
    Fulfilled,
    Action,
}

/// A picture that grows with what is drawn on it.
#[derive(Default)]
pub(super) struct Canvas {
    body: String,
    width: f64,
    height: f64,
}

impl Canvas {
    fn reach(&mut self, x: f64, y: f64) {
        self.width = self.width.max(x);
        self.height = self.height.max(y);
    }

    pub(super) fn heading(&mut self, x: f64, words: &str) {
        self.body += &format!("<text class=\"heading\" x=\"{x}\" y=\"28\">{words}</text>\n");
        self.reach(x + 9.0 * words.len() as f64, 40.0);
    }

    /// Words that begin at a place.
    pub(super) fn words(&mut self, x: f64, y: f64, words: &str) {
        let y = y + 4.0;
        self.body += &format!("<text x=\"{x:.1}\" y=\"{y:.1}\">{words}</text>\n");
        self.reach(x + 7.0 * words.len() as f64, y + 8.0);
    }

    /// A box with words in it; `x` is its left side and `y` its middle.
    pub(super) fn boxed(&mut self, look: Look, x: f64, y: f64, width: f64, words: &str) {
        let (class, round) = match look {
            Look::State => ("state", 4.0),
            Look::Fulfilled => ("fulfilled", 4.0),
            Look::Action => ("action", 11.0),
        };
        let (top, middle, base) = (y - 11.0, x + width / 2.0, y + 4.0);
        self.body += &format!(
            "<rect class=\"{class}\" x=\"{x:.1}\" y=\"{top:.1}\" width=\"{width:.1}\" \
             height=\"22\" rx=\"{round}\"/>\n<text class=\"inside\" x=\"{middle:.1}\" \
             y=\"{base:.1}\">{words}</text>\n"
        );
        self.reach(x + width, y + 11.0);
    }

    /// A curve from one place to another further right; the arrow is at its
    /// end.
    pub(super) fn edge(&mut self, from: (f64, f64), to: (f64, f64), arrow: bool) {
        let bend = ((to.0 - from.0) / 2.0).max(8.0);
        let (near, far) = (from.0 + bend, to.0 - bend);
        let end = if arrow {
            " marker-end=\"url(#arrow)\""
        } else {
            ""
        };
        self.body += &format!(
            "<path class=\"edge\" d=\"M{:.1} {:.1}C{near:.1} {:.1} {far:.1} {:.1} \
             {:.1} {:.1}\"{end}/>\n",
            from.0, from.1, from.1, to.1, to.0, to.1
        );
        self.reach(to.0, to.1);
    }

    /// A small loop at the right side of a box, back to the box. Gives where
    /// words beside it may begin.
    pub(super) fn loop_at(&mut self, x: f64, y: f64) -> f64 {
        let (out, above, below) = (x + LOOP, y - 6.0, y + 6.0);
        self.body += &format!(
            "<path class=\"edge\" d=\"M{x:.1} {above:.1}C{out:.1} {:.1} {out:.1} {:.1} \
             {x:.1} {below:.1}\" marker-end=\"url(#arrow)\"/>\n",
            y - 14.0,
            y + 14.0
        );
        self.reach(out, y + 14.0);
        out
    }

    /// The whole picture.
    pub(super) fn finish(self) -> String {
        let (width, height) = (self.width + 20.0, self.height + 20.0);
        format!(
            "<svg xmlns=\"http://www.w3.org/2000/svg\" width=\"{width:.0}\" \
             height=\"{height:.0}\" viewBox=\"0 0 {width:.0} {height:.0}\">\n{STYLE}\
             <rect width=\"100%\" height=\"100%\" fill=\"white\"/>\n{}</svg>\n",
            self.body
        )
    }
}

const STYLE: &str = "<style>
text { font: 12px sans-serif; fill: #222 }
.heading { font-size: 15px; font-weight: bold }
.inside { text-anchor: middle }
.state { fill: #e8f0fb; stroke: #34568b }
.fulfilled { fill: #d9f2dc; stroke: #2c7a3f; stroke-width: 2 }
.action { fill: #fff4d6; stroke: #a97900 }
.edge { fill: none; stroke: #7a8699; stroke-width: 1.2 }
</style>
<defs><marker id=\"arrow\" viewBox=\"0 0 8 8\" refX=\"7\" refY=\"4\" markerWidth=\"7\" markerHeight=\"7\" orient=\"auto\"><path d=\"M0 0L8 4L0 8z\" fill=\"#7a8699\"/></marker></defs>
";
