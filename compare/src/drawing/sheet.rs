//! A sheet to draw on: SVG with its own ground, so that it is legible on any page, and darker where the reader's page is dark.

pub const WIDTH: f64 = 900.0;

/// Light first. Text on a block is set in the class `on`.
const STYLE: &str = r#"
    text { font: 17px "Helvetica Neue", Helvetica, Arial, "DejaVu Sans", sans-serif; fill: #23303d }
    .title { font-size: 25px; font-weight: 600 }
    .number { font-size: 20px; font-weight: 700 }
    .byte { font-family: Menlo, Consolas, "DejaVu Sans Mono", monospace; font-size: 16px }
    .box { font-size: 16px }
    .middle, .box { text-anchor: middle }
    .end { text-anchor: end }
    .ground { fill: #f8f6f1; stroke: #cdc7ba }
    .pipe { fill: #e6e2d8 }
    .zero { fill: #2d6a9f; stroke: #f8f6f1 }
    .one { fill: #a85a12; stroke: #f8f6f1 }
    .bare { fill: #f8f6f1; stroke: #2d6a9f; stroke-width: 2 }
    .flag { fill: #6b4a9c }
    .edge { stroke: #f8f6f1 }
    .cut { fill: none; stroke: #ffffff; stroke-width: 2; stroke-dasharray: 3 5 }
    .lost { fill: none; stroke: #b3261e; stroke-width: 2; stroke-dasharray: 7 5 }
    .gap { fill: #f1d2cd }
    .rule { fill: none; stroke: #6d7780; stroke-width: 1.5 }
    .dashed { stroke-dasharray: 3 5 }
    path.arc { fill: none; stroke-width: 56 }
    .arc.pipe { stroke: #e6e2d8 }
    .arc.zero { stroke: #2d6a9f }
    .arc.flag { stroke: #6b4a9c }
    .off { fill: none; stroke: #b3261e; stroke-width: 3 }
    .back { fill: none; stroke: #2c7a4b; stroke-width: 3 }
    text.soft { fill: #56616b }
    text.on { fill: #ffffff }
    text.off { fill: #b3261e; stroke: none }
    text.back { fill: #256b41; stroke: none }
    text.flag { fill: #6b4a9c; stroke: #f8f6f1; stroke-width: 6px; paint-order: stroke }
    @media (prefers-color-scheme: dark) {
      text { fill: #e4e8ec }
      .ground { fill: #171d24; stroke: #3a444f }
      .pipe { fill: #2a333d }
      .zero { fill: #7db4e3; stroke: #171d24 }
      .one { fill: #e6a661; stroke: #171d24 }
      .bare { fill: #171d24; stroke: #7db4e3 }
      .flag { fill: #b99ae6 }
      .edge { stroke: #171d24 }
      .cut { stroke: #10161c }
      .lost, .off { stroke: #ff8a80 }
      .gap { fill: #4d2b2c }
      .rule { stroke: #96a1ab }
      .arc.pipe { stroke: #2a333d }
      .arc.zero { stroke: #7db4e3 }
      .arc.flag { stroke: #b99ae6 }
      .back { stroke: #7fce9d }
      text.soft { fill: #a9b3bc }
      text.on { fill: #10161c }
      text.off { fill: #ff8a80 }
      text.back { fill: #7fce9d }
      text.flag { fill: #c7aef0; stroke: #171d24 }
    }
"#;

pub struct Sheet {
    /// What one who cannot see the picture is told.
    told: String,
    height: f64,
    body: String,
}

impl Sheet {
    pub fn new(title: &str, description: &str, height: f64) -> Sheet {
        let told = format!("  <title>{}</title>\n  <desc>{}</desc>\n", plain(title), plain(description));
        let mut sheet = Sheet { told, height, body: String::new() };
        sheet.rounded("ground", 1.0, 1.0, WIDTH - 2.0, height - 2.0, 14.0);
        sheet.text("title", 28.0, 42.0, title);
        sheet
    }

    fn put(&mut self, element: &str) {
        self.body += &format!("  {element}\n");
    }

    pub fn rounded(&mut self, class: &str, x: f64, y: f64, wide: f64, high: f64, corner: f64) {
        self.put(&format!(r#"<rect class="{class}" x="{x:.1}" y="{y:.1}" width="{wide:.1}" height="{high:.1}" rx="{corner}"/>"#));
    }

    pub fn block(&mut self, class: &str, x: f64, y: f64, wide: f64, high: f64) {
        self.rounded(class, x, y, wide, high, 4.0);
    }

    pub fn path(&mut self, class: &str, steps: &str) {
        self.put(&format!(r#"<path class="{class}" d="{steps}"/>"#));
    }

    pub fn line(&mut self, class: &str, from: (f64, f64), to: (f64, f64)) {
        self.path(class, &format!("M{:.1} {:.1}L{:.1} {:.1}", from.0, from.1, to.0, to.1));
    }

    /// From one place to another at the same height, with an end on each.
    pub fn span(&mut self, class: &str, from: f64, to: f64, y: f64) {
        self.path(class, &format!("M{from:.1} {:.1}v10m0 -5H{to:.1}m0 -5v10", y - 5.0));
    }

    pub fn text(&mut self, class: &str, x: f64, y: f64, words: &str) {
        self.put(&format!(r#"<text class="{class}" x="{x:.1}" y="{y:.1}">{}</text>"#, plain(words)));
    }

    /// A number and what belongs to it, around a place.
    pub fn label(&mut self, class: &str, x: f64, y: f64, number: &str, words: &str) {
        let (number, words) = (plain(number), plain(words));
        self.put(&format!(
            r#"<text class="middle {class}" x="{x:.1}" y="{y:.1}"><tspan class="number">{number}</tspan><tspan dx="6">{words}</tspan></text>"#
        ));
    }

    pub fn written(&self) -> String {
        let size = format!(r#"viewBox="0 0 {WIDTH} {high}" width="{WIDTH}" height="{high}""#, high = self.height);
        let opening = format!(r#"<svg xmlns="http://www.w3.org/2000/svg" {size} role="img">"#);
        format!("{opening}\n{}  <style>{STYLE}  </style>\n{}</svg>\n", self.told, self.body)
    }
}

fn plain(words: &str) -> String {
    words.replace('&', "&amp;").replace('<', "&lt;")
}
