//! One sheet of A4 in SVG, in mm: pictures of a baked oar, and templates of its blade's sections.

use crate::blade::{unit, ACROSS, AROUND, LOOM_LENGTH, SIDES, SIDE_STARTS};
use mesh3d::Vec3;
use std::array::from_fn;

const PICKED: [(usize, &str); 3] = [(3, "A"), (6, "B"), (9, "C")];
const TIMES: [&str; 5] = ["0", "1/4", "1/2", "3/4", "1"];
const CAPTIONS: [&str; 5] = [
    "time 0: blank",
    "time 1/4",
    "time 1/2",
    "time 3/4",
    "time 1: finished",
];
const TURNED: [&str; 5] = ["0", "22.5", "45", "67.5", "90"];
const SHADES: usize = 24;

// In mm on the sheet.
const PICTURE_SCALE: f32 = 1.0 / 6.0;
const PICTURE_TOP: f32 = 41.5;
const FIRST_PICTURE: f32 = 29.0;
const PICTURE_GAP: f32 = 38.0;
const TEMPLATE_MIDDLE: f32 = 84.0;
const FIRST_TEMPLATE: f32 = 172.5;
const TEMPLATE_GAP: f32 = 44.0;
const MEASURES: f32 = 162.0;

const HEAD: &str = concat!(
    r##"<svg xmlns="http://www.w3.org/2000/svg" version="1.1" width="210mm" height="297mm""##,
    r##" viewBox="0 0 210 297">
<title>Oar blade, from blank to finished</title>
<rect width="210" height="297" fill="#fff"/>
<g font-family="sans-serif" font-size="3" fill="#000">
<text x="10" y="16" font-size="6.5" font-weight="bold">Oar blade, from blank to finished</text>
<text x="10" y="22">The blade at five times, at 1 : 6, while it is shaped and the oar is"##,
    r##" feathered by a quarter turn. Lines across are stations.</text>
<text x="10" y="144" font-size="4.5" font-weight="bold">Section templates, 1 : 1</text>
<text x="10" y="149">Seen from the tip, back up. Strong: the finished blade. Thin: from the"##,
    r##" blank on, by their times. Dash-dotted: the loom's axis.</text>
"##
);
const FOOT: &str = concat!(
    r##"<path stroke="#000" stroke-width=".3""##,
    r##" d="M12 287h50M12 285v4M22 286v2M32 286v2M42 286v2M52 286v2M62 285v4"/>
<text x="66" y="288">50 mm: lay a ruler on this line. If it differs, print again at 100 %,"##,
    r##" not fitted to the page.</text>
</g>
</svg>
"##
);

/// The vertices of the loom or the blade at a time: in the world, and their places in the node's
/// own frame.
pub struct Baked {
    pub points: Vec<Vec3>,
    pub normals: Vec<Vec3>,
    pub own: Vec<Vec3>,
}

/// In whole hundredths, half of one away from 0.
fn number(mm: f32) -> String {
    let n = (mm * 100.0 + if mm < 0.0 { -0.5 } else { 0.5 }) as i64;
    let sign = if n < 0 { "-" } else { "" };
    let (whole, rest) = (n.abs() / 100, n.abs() % 100);
    match rest {
        0 => format!("{sign}{whole}"),
        _ if rest % 10 == 0 => format!("{sign}{whole}.{}", rest / 10),
        _ => format!("{sign}{whole}.{rest:02}"),
    }
}

fn point(command: char, x: f32, y: f32) -> String {
    format!("{command}{} {}", number(x), number(y))
}

/// A closed line.
fn polygon<'a>(points: impl Iterator<Item = &'a Vec3>) -> String {
    let mut d = String::new();
    for (i, p) in points.enumerate() {
        d += &point(if i == 0 { 'M' } else { 'L' }, p[0], p[1]);
    }
    d + "Z"
}

/// Seen from 60 degrees beside the blank's back, and from 20 degrees below the blade's tip:
/// right, down, towards the eye.
fn look(p: Vec3) -> Vec3 {
    let near = 0.5 * p[2] - 0.8660254 * p[1];
    [
        0.5 * p[1] + 0.8660254 * p[2],
        0.9396926 * p[0] - 0.3420201 * near,
        0.9396926 * near + 0.3420201 * p[0],
    ]
}

/// Rings of points, as they are seen.
struct Seen {
    rings: usize,
    around: usize,
    points: Vec<Vec3>,
    normals: Vec<Vec3>,
}

impl Seen {
    /// From one ring of a baked node on.
    fn of(baked: &Baked, first: usize, around: usize, middle: f32) -> Seen {
        let place = |p: &Vec3| {
            let [right, down, near] = look([p[0] - LOOM_LENGTH, p[1], p[2]]);
            let right = middle + PICTURE_SCALE * right;
            [right, PICTURE_TOP + PICTURE_SCALE * down, near]
        };
        let (points, normals) = (
            &baked.points[first * around..],
            &baked.normals[first * around..],
        );
        Seen {
            rings: points.len() / around,
            around,
            points: points.iter().map(place).collect(),
            normals: normals.iter().map(|n| look(*n)).collect(),
        }
    }

    fn ring(&self, ring: usize) -> &[Vec3] {
        &self.points[ring * self.around..][..self.around]
    }

    /// The corners of the panel between two rings, two points of each.
    fn panel(&self, ring: usize, k: usize) -> [usize; 4] {
        let (next, a) = ((k + 1) % self.around, ring * self.around);
        let b = a + self.around;
        [a + k, a + next, b + next, b + k]
    }

    /// Past the rings nothing does.
    fn faces_us(&self, ring: usize, k: usize) -> bool {
        if ring >= self.rings - 1 {
            return false;
        }
        let [p, q, r, t] = self.panel(ring, k).map(|i| self.points[i]);
        (r[0] - p[0]) * (t[1] - q[1]) - (r[1] - p[1]) * (t[0] - q[0]) < 0.0
    }

    /// By the mean normal of its corners, with the light from above the eye.
    fn shade(&self, ring: usize, k: usize) -> usize {
        let [a, b, c, d] = self.panel(ring, k).map(|i| self.normals[i]);
        let n = unit(from_fn(|j| a[j] + b[j] + c[j] + d[j]));
        let light = 1.6 * (0.95 * n[2] - 0.1 * n[0] - 0.3 * n[1]) - 0.6;
        match light {
            _ if light <= 0.0 => 0,
            _ if light >= 0.99 => SHADES - 1,
            _ => (light * SHADES as f32) as usize,
        }
    }

    /// A ring where a panel beside it faces us or, as an outline, where just one of the two does.
    fn ring_path(&self, ring: usize, outline: bool) -> String {
        let (at, mut pen) = (self.ring(ring), Pen::default());
        for k in 0..self.around {
            let (above, below) = (
                self.faces_us(ring.wrapping_sub(1), k),
                self.faces_us(ring, k),
            );
            let drawn = if outline {
                above != below
            } else {
                above || below
            };
            pen.step(&at[k], &at[(k + 1) % self.around], drawn);
        }
        pen.path
    }

    /// The line along the oar through points k, where just one of the panels beside it faces us.
    fn length_path(&self, k: usize) -> String {
        let mut pen = Pen::default();
        for ring in 0..self.rings - 1 {
            let left = self.faces_us(ring, (k + self.around - 1) % self.around);
            let drawn = left != self.faces_us(ring, k);
            pen.step(&self.ring(ring)[k], &self.ring(ring + 1)[k], drawn);
        }
        pen.path
    }
}

#[derive(Default)]
struct Pen {
    path: String,
    down: bool,
}

impl Pen {
    /// Goes on from point a to b where that is drawn.
    fn step(&mut self, a: &Vec3, b: &Vec3, drawn: bool) {
        if drawn && !self.down {
            self.path += &point('M', a[0], a[1]);
        }
        if drawn {
            self.path += &point('L', b[0], b[1]);
        }
        self.down = drawn;
    }
}

/// The whole sheet, of the loom and the blade at five times.
pub fn sheet(looms: &[Baked], blades: &[Baked]) -> String {
    let mut sheet = Sheet::default();
    sheet.svg += HEAD;
    for (i, (loom, blade)) in looms.iter().zip(blades).enumerate() {
        sheet.picture(loom, blade, i);
    }
    sheet.blank(&blades[0].own);
    for j in 0..PICKED.len() {
        sheet.template(blades, j);
    }
    sheet.svg + FOOT
}

#[derive(Default)]
struct Sheet {
    svg: String,
}

impl Sheet {
    fn path(&mut self, style: &str, d: &str) {
        self.svg += &format!("<path{style} d=\"{d}\"/>\n");
    }

    fn text(&mut self, x: f32, y: f32, style: &str, words: &str) {
        let (x, y) = (number(x), number(y));
        self.svg += &format!("<text x=\"{x}\" y=\"{y}\"{style}>{words}</text>\n");
    }

    /// A measure in words, as "78 mm wide".
    fn measure(&mut self, y: f32, mm: f32, words: &str) {
        self.text(MEASURES, y, "", &format!("{} mm {words}", number(mm)));
    }

    /// All panels of one shade that face us; a line of the same colour closes the gaps between
    /// them.
    fn panels(&mut self, s: &Seen, shade: usize) {
        let panels = (0..s.rings - 1).flat_map(|ring| (0..s.around).map(move |k| (ring, k)));
        let shaded = panels.filter(|&(ring, k)| s.faces_us(ring, k) && s.shade(ring, k) == shade);
        let corners = shaded.map(|(ring, k)| s.panel(ring, k));
        let d: String = corners
            .map(|c| polygon(c.iter().map(|i| &s.points[*i])))
            .collect();
        if d.is_empty() {
            return;
        }
        let [red, green, blue] = [(200, 53), (168, 78), (118, 116)]
            .map(|(dark, more)| dark + more * shade / (SHADES - 1));
        let colour = format!("#{red:02x}{green:02x}{blue:02x}");
        let style = format!(r#" fill="{colour}" stroke="{colour}" stroke-width=".1""#);
        self.path(&style, &d);
    }

    fn body(&mut self, s: &Seen) {
        for shade in 0..SHADES {
            self.panels(s, shade);
        }
        let line = r##" stroke="#222" stroke-width=".22" stroke-linejoin="round""##;
        let end = polygon(s.ring(s.rings - 1).iter());
        self.path(&format!(r##" fill="#d9bc8c"{line}"##), &end);
        let rings: String = (0..s.rings).map(|ring| s.ring_path(ring, true)).collect();
        let lengths: String = (0..s.around).map(|k| s.length_path(k)).collect();
        self.path(&format!(r##" fill="none"{line}"##), &(rings + &lengths));
    }

    /// The blade's stations, and strong those of the templates.
    fn stations(&mut self, s: &Seen) {
        let rings = |list: &mut dyn Iterator<Item = usize>| -> String {
            list.map(|ring| s.ring_path(ring, false)).collect()
        };
        let all = rings(&mut (1..s.rings - 1));
        self.path(r##" fill="none" stroke="#222" stroke-width=".1""##, &all);
        let picked = rings(&mut PICKED.iter().map(|(ring, _)| *ring));
        self.path(
            r##" fill="none" stroke="#a00" stroke-width=".35""##,
            &picked,
        );
    }

    /// Words beside the right end of a ring.
    fn name(&mut self, ring: &[Vec3], style: &str, words: &str) {
        let right = |end: Vec3, p: &Vec3| if p[0] > end[0] { *p } else { end };
        let end = ring.iter().fold(ring[0], right);
        self.text(end[0] + 1.2, end[1] + 1.0, style, words);
    }

    fn picture(&mut self, loom: &Baked, blade: &Baked, i: usize) {
        let middle = FIRST_PICTURE + PICTURE_GAP * i as f32;
        self.body(&Seen::of(loom, 1, SIDES, middle));
        let seen = Seen::of(blade, 0, AROUND, middle);
        self.body(&seen);
        self.stations(&seen);
        self.name(seen.ring(0), r##" font-size="2.5""##, "root");
        for (station, letter) in PICKED {
            self.name(seen.ring(station), r##" fill="#a00""##, letter);
        }
        let centred = r##" text-anchor="middle""##;
        self.text(
            middle,
            130.5,
            &format!("{centred} font-size=\"4\""),
            CAPTIONS[i],
        );
        self.text(
            middle,
            135.0,
            centred,
            &format!("feathered {}&#176;", TURNED[i]),
        );
    }

    fn section(&mut self, p: &[Vec3], style: &str, y: f32) {
        let mut d = point('M', TEMPLATE_MIDDLE + p[0][1], y - p[0][2]);
        for side in SIDE_STARTS.windows(2) {
            d += &fair_curve(&p[side[0]..side[1]], TEMPLATE_MIDDLE, y);
        }
        self.path(&format!(r##" stroke="#000"{style}"##), &(d + "Z"));
    }

    /// Times on the lines of the back, but that of the finished blade below its line, which is
    /// cut along.
    fn times(&mut self, blades: &[Baked], at: usize, y: f32) {
        let centred = r##" text-anchor="middle""##;
        for (i, blade) in blades.iter().enumerate() {
            let p = blade.own[at];
            let last = i + 1 == blades.len();
            let (x, y) = (
                TEMPLATE_MIDDLE + p[1],
                y - p[2] + if last { 3.4 } else { 0.9 },
            );
            if !last {
                let under = format!(r##"{centred} stroke="#fff" stroke-width=".9""##);
                self.text(x, y, &under, TIMES[i]);
            }
            self.text(x, y, centred, TIMES[i]);
        }
    }

    fn template(&mut self, blades: &[Baked], j: usize) {
        let (station, letter) = PICKED[j];
        let y = FIRST_TEMPLATE + TEMPLATE_GAP * j as f32;
        let ring = |blade: &Baked| blade.own[station * AROUND..][..AROUND].to_vec();
        let (last, before) = blades.split_last().expect("five times");
        let p = ring(last);
        self.section(&p, r##" fill="#faf2e4" stroke-width=".4""##, y);
        for blade in before {
            self.section(&ring(blade), r##" fill="none" stroke-width=".15""##, y);
        }
        let axes = point('M', TEMPLATE_MIDDLE - 74.0, y)
            + "h148"
            + &point('M', TEMPLATE_MIDDLE, y - 21.5)
            + "v43";
        let dashed = r##" stroke="#000" stroke-width=".1" stroke-dasharray="6 1 1 1""##;
        self.path(dashed, &axes);
        self.times(blades, station * AROUND + 1, y);
        let large = r##" fill="#a00" font-size="8" font-weight="bold""##;
        self.text(MEASURES, y - 11.0, large, letter);
        self.measure(y - 4.0, p[0][0], "from the root");
        self.text(MEASURES, y + 3.0, "", "Finished:");
        self.measure(y + 7.5, p[0][1] - p[ACROSS - 1][1], "wide");
        let face = p[ACROSS + 2 + ACROSS / 2];
        self.measure(y + 12.0, p[ACROSS / 2][2] - face[2], "in the middle");
        self.measure(y + 16.5, p[ACROSS][2] - p[ACROSS + 1][2], "at the edges");
    }

    /// How large a blank is planed: length, width, thickness.
    fn blank(&mut self, p: &[Vec3]) {
        let (length, width) = (p[p.len() - 1][0] - p[0][0], p[0][1] - p[ACROSS - 1][1]);
        let sizes = [length, width, p[ACROSS][2] - p[ACROSS + 1][2]];
        let words = format!("Blank: {} mm", sizes.map(number).join(" &#215; "));
        self.text(200.0, 144.0, r##" text-anchor="end""##, &words);
    }
}

/// A fair curve through the points of one side of a section.
fn fair_curve(p: &[Vec3], x: f32, y: f32) -> String {
    let mut d = String::new();
    for i in 0..p.len() - 1 {
        let (a, b) = (p[i.saturating_sub(1)], p[i]);
        let (c, e) = (p[i + 1], p[(i + 2).min(p.len() - 1)]);
        let from = |j: usize| b[j] + (c[j] - a[j]) / 6.0;
        let to = |j: usize| c[j] - (e[j] - b[j]) / 6.0;
        d += &point('C', x + from(1), y - from(2));
        d += &point(' ', x + to(1), y - to(2));
        d += &point(' ', x + c[1], y - c[2]);
    }
    d
}
