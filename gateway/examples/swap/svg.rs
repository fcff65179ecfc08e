//! A drawing of 1000 by 512 in SVG, with a title above and a caption below.

pub struct Sheet {
    svg: String,
}

const HEAD: &str = "<svg xmlns='http://www.w3.org/2000/svg' viewBox='0 0 1000 512' \
font-family='DejaVu Sans,Verdana,sans-serif' font-size='14'>
<style>.m{text-anchor:middle}.e{text-anchor:end}.s{font-size:12px}.b{font-weight:bold}.t{font-size:19px}</style>
<rect width='1000' height='512' fill='#fff'/>
";

impl Sheet {
    pub fn new(title: &str) -> Self {
        let mut sheet = Sheet { svg: HEAD.into() };
        sheet.text(14.0, 29.0, "t", "#000", title);
        sheet
    }

    /// The whole drawing, with two lines of words below it.
    pub fn finish(mut self, caption: [&str; 2]) -> String {
        for (line, words) in caption.iter().enumerate() {
            self.text(14.0, 484.0 + 18.0 * line as f64, "s", "#444", words);
        }
        self.svg + "</svg>\n"
    }

    pub fn text(&mut self, x: f64, y: f64, class: &str, fill: &str, words: &str) {
        let start = format!("<text x='{x:.1}' y='{y:.1}' class='{class}' fill='{fill}'>");
        self.svg += &format!("{start}{words}</text>\n");
    }

    /// A path that is not filled.
    pub fn line(&mut self, path: &str, style: &str) {
        self.area(path, &format!("fill='none' {style}"));
    }

    pub fn area(&mut self, path: &str, style: &str) {
        self.svg += &format!("<path d='{path}' {style}/>\n");
    }

    pub fn rect(&mut self, x: [f64; 2], y: f64, height: f64, fill: &str) {
        let place = format!("x='{:.1}' y='{y}' width='{:.1}'", x[0], x[1] - x[0]);
        self.svg += &format!("<rect {place} height='{height}' fill='{fill}'/>\n");
    }
}
