//! The solution text of a trace's plan.
use crate::base::Instance;
use crate::model::Trace;
struct Out { text: String, node: u32 }
impl Out {
    fn row(&mut self, plate: u32, x: u32, y: u32, w: u32, h: u32, t: i64, cut: u32, parent: Option<u32>) -> u32 {
        let p = parent.map_or(String::new(), |p| p.to_string());
        self.text += &format!("{plate};{};{x};{y};{w};{h};{t};{cut};{p}\n", self.node);
        self.node += 1;
        self.node - 1
    }
}
struct Cell { e: u32, w: u32, lift: bool, items: Vec<(u32, u32)> } // id, height; from below
struct Band { c: u32, d: u32, cells: Vec<Cell> }
struct Strip { a: u32, b: u32, bands: Vec<Band> }
pub fn text(inst: &Instance, t: &Trace) -> String {
    let mut drawn = vec![0; inst.stacks.len()];
    let mut plates: Vec<Vec<Strip>> = vec![];
    for (k, s) in t.steps.iter().enumerate() {
        let kind = if k == 0 { 0 } else { s.kind };
        let it = &inst.items[inst.stacks[s.stack as usize][drawn[s.stack as usize]] as usize];
        drawn[s.stack as usize] += 1;
        let (w, h) = if s.turn == 0 { (it.length, it.width) } else { (it.width, it.length) };
        if kind == 0 { plates.push(vec![]); }
        let p = plates.last_mut().unwrap();
        if kind <= 1 { p.push(Strip { a: s.a, b: s.b, bands: vec![] }); }
        let st = p.last_mut().unwrap();
        if kind <= 2 { st.bands.push(Band { c: s.c, d: s.d, cells: vec![] }); }
        let b = st.bands.last_mut().unwrap();
        if kind <= 3 { b.cells.push(Cell { e: s.e, w, lift: s.lift == 1, items: vec![] }); }
        b.cells.last_mut().unwrap().items.push((it.id, h));
    }
    let high = inst.params.height;
    let mut o = Out { text: "PLATE_ID;NODE_ID;X;Y;WIDTH;HEIGHT;TYPE;CUT;PARENT\n".into(), node: 0 };
    let count = plates.len();
    for (n, strips) in plates.iter().enumerate() {
        let (n32, wide) = (n as u32, inst.width(n as u32));
        let root = o.row(n32, 0, 0, wide, high, -2, 0, None);
        let mut x = 0;
        for s in strips {
            if s.a > x { o.row(n32, x, 0, s.a - x, high, -1, 1, Some(root)); }
            let w = s.b - s.a;
            let whole = |b: &Band| b.cells.len() == 1 && b.cells[0].e == s.a && b.cells[0].w == w && b.cells[0].items.len() == 1 && b.cells[0].items[0].1 == b.d - b.c;
            if s.bands.len() == 1 && s.bands[0].c == 0 && s.bands[0].d == high && whole(&s.bands[0]) {
                o.row(n32, s.a, 0, w, high, s.bands[0].cells[0].items[0].0 as i64, 1, Some(root));
            } else {
                let strip = o.row(n32, s.a, 0, w, high, -2, 1, Some(root));
                let mut y = 0;
                for b in &s.bands {
                    if b.c > y { o.row(n32, s.a, y, w, b.c - y, -1, 2, Some(strip)); }
                    let h = b.d - b.c;
                    if whole(b) { o.row(n32, s.a, b.c, w, h, b.cells[0].items[0].0 as i64, 2, Some(strip)); }
                    else {
                        let band = o.row(n32, s.a, b.c, w, h, -2, 2, Some(strip));
                        let mut at = s.a;
                        for c in &b.cells {
                            if c.e > at { o.row(n32, at, b.c, c.e - at, h, -1, 3, Some(band)); }
                            if c.items.len() == 1 && c.items[0].1 == h { o.row(n32, c.e, b.c, c.w, h, c.items[0].0 as i64, 3, Some(band)); }
                            else {
                                let cell = o.row(n32, c.e, b.c, c.w, h, -2, 3, Some(band));
                                let mut v = b.c;
                                if c.lift { let gap = h - c.items[0].1; o.row(n32, c.e, v, c.w, gap, -1, 4, Some(cell)); v += gap; }
                                for (id, ih) in &c.items { o.row(n32, c.e, v, c.w, *ih, *id as i64, 4, Some(cell)); v += ih; }
                                if v < b.d { o.row(n32, c.e, v, c.w, b.d - v, -1, 4, Some(cell)); }
                            }
                            at = c.e + c.w;
                        }
                        if at < s.b { o.row(n32, at, b.c, s.b - at, h, -1, 3, Some(band)); }
                    }
                    y = b.d;
                }
                if y < high { o.row(n32, s.a, y, w, high - y, -1, 2, Some(strip)); }
            }
            x = s.b;
        }
        if x < wide { o.row(n32, x, 0, wide - x, high, if n + 1 == count { -3 } else { -1 }, 1, Some(root)); }
    }
    o.text
}
