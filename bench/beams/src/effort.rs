//! Plans that get better with effort: wide beams over partial traces, each level of which is expanded by several threads.
//! What comes out hangs on the effort alone and not on the number of threads, and the effort only says how many beams are
//! run: a greater one never has a worse plan.

use crate::base::Instance;
use crate::model::{Step, Trace};
use crate::trace::{meets, trace_loss};
use std::thread;

const NO: u16 = u16::MAX;
const ROOT: u32 = u32::MAX;
/// More than any key.
const FAR_KEY: i64 = 1 << 62;
/// At most so many partners of one form in pairs, and so many steps along one chain.
const MOST_PAIRS: usize = 6;
const MOST_CHAIN: usize = 1_000;
/// Rounds in which a place may be shifted.
const ROUNDS: usize = 30;
/// Chains of nodes with the same items in each sieve; a prime number.
const SLOTS: u64 = 4_093;
/// The nodes of a level are dealt out to so many lanes, whatever the number of threads. The first ones go ahead, and what
/// they find tells the others from which key on a child is of no use.
const LANES: usize = 32;
const AHEAD: usize = 4;
/// The arena is cleared of nodes without children from so many nodes on.
const MANY_NODES: usize = 1 << 20;

/// What differs from beam to beam.
#[derive(Clone, Copy, Debug)]
pub struct Guide {
    /// Loss that is expected per area of items, in 1/1024.
    pub rho: i64,
    /// How much worse a front may be and still be taken as no worse, in mm; below 0 the least gap, with which none is taken as no worse that is.
    pub eps: i32,
    /// Charges for free places of the open strip, in 1/1024: at the right of the band where an item may fit, there where
    /// none can, and above.
    pub right: i64,
    pub small: i64,
    pub above: i64,
    /// How much more an item counts for what stands behind it in its stack, in 1/1024.
    pub even: i64,
    /// Whether all places around holes are tried, and whether an item that fits may be put where it makes a band or strip anew.
    pub more: bool,
    pub loose: bool,
    /// The effort, and the most nodes on a level.
    pub ticks: u64,
    pub width: u64,
}

/// One cell put down, and the least `b` and `d` of the open strip and band after it.
#[derive(Clone, Copy, Default)]
struct Node {
    parent: u32,
    stack: u16,
    over: u16,
    plate: u16,
    items: u16,
    a: u16,
    b: u16,
    c: u16,
    d: u16,
    e: u16,
    w: u16,
    h: u16,
    kind: u8,
    /// Bit 0 the turn, bit 1 the turn of the item above, bit 2 the lift.
    turns: u8,
    /// The top of the last closed band of the strip that may be higher by any number, or 0; and the right side of the last closed
    /// strip of the plate that may be wider by any number, or 0.
    lax_d: u16,
    lax_b: u16,
}

/// A node with its sums.
#[derive(Clone, Copy, Default)]
struct Cand {
    node: Node,
    key: i64,
    area: i64,
    value: i64,
    waste: i64,
    hash: u64,
}

#[derive(Clone, Copy)]
struct Cell {
    e: i32,
    w: i32,
    h: i32,
    two: bool,
    lift: bool,
}

/// A closed band: bottom, top, right side of its last cell.
#[derive(Clone, Copy)]
struct Band {
    c: i32,
    d: i32,
    r: i32,
}

#[derive(Clone, Copy)]
struct Hole {
    x0: i32,
    y0: i32,
    x1: i32,
    y1: i32,
}

/// What a hole asks of a place.
enum Bar {
    Free,
    Right(i32),
    Up(i32),
    Shut,
}

/// The strip and band in which a cell is to be put; `b` and `d` as they are so far.
#[derive(Clone, Copy)]
struct Scene<'s> {
    wide: i32,
    a: i32,
    b: i32,
    c: i32,
    d: i32,
    holes: &'s [Hole],
    bands: &'s [Band],
    cells: &'s [Cell],
    /// `lax_d` and `lax_b` as they hold for the new cell.
    lax_d: i32,
    lax_b: i32,
    plate: u16,
}

/// Parameters and plates in the form that the search reads.
pub struct Sheet {
    high: i32,
    min1: i32,
    max1: i32,
    min2: i32,
    waste: i32,
    /// The least side of all items.
    small: i32,
    wide: Vec<i32>,
    before: Vec<i64>,
    /// The holes of each plate by `x0`.
    holes: Vec<Vec<Hole>>,
}

impl Sheet {
    pub fn new(inst: &Instance) -> Sheet {
        let p = &inst.params;
        let mut holes = Vec::new();
        for n in 0..p.plates {
            let mut list = Vec::new();
            for q in inst.defects_of(n) {
                if q.x0 < inst.width(n) && q.y0 < p.height {
                    list.push(Hole { x0: q.x0 as i32, y0: q.y0 as i32, x1: q.x1 as i32, y1: q.y1 as i32 });
                }
            }
            list.sort_by_key(|q| (q.x0, q.y0, q.x1, q.y1));
            holes.push(list);
        }
        Sheet {
            high: p.height as i32,
            min1: p.min1 as i32,
            max1: p.max1 as i32,
            min2: p.min2 as i32,
            waste: p.waste as i32,
            small: inst.items.iter().map(|x| x.length.min(x.width)).min().unwrap_or(0) as i32,
            wide: (0..p.plates).map(|n| inst.width(n) as i32).collect(),
            before: (0..p.plates).map(|n| inst.before(n) as i64).collect(),
            holes,
        }
    }

    /// The least `b` from `b` on that the gaps allow, the open band ending at `r`.
    fn wall(&self, s: &Scene, mut b: i32, r: i32, lax: bool) -> Option<i32> {
        for _ in 0..ROUNDS {
            if b < s.wide && s.wide - b < self.waste && !lax {
                b = s.wide;
            }
            if b > s.wide || b - s.a > self.max1 {
                return None;
            }
            let mut least = b;
            if r < b && b - r < self.waste {
                least = r + self.waste;
            }
            for x in s.bands {
                if x.r < b && b - x.r < self.waste {
                    least = least.max(x.r + self.waste);
                }
            }
            if least == b {
                return Some(b);
            }
            b = least;
        }
        None
    }

    /// The least `d` from `d` on that the gaps over the cells allow.
    fn top(&self, s: &Scene, mut d: i32, new: &Cell, lax: bool) -> Option<i32> {
        for _ in 0..ROUNDS {
            if d < self.high && self.high - d < self.waste && !lax {
                d = self.high;
            }
            if d > self.high {
                return None;
            }
            let mut least = self.over(s, d, new)?;
            for x in s.cells {
                least = least.max(self.over(s, d, x)?);
            }
            if least == d {
                return Some(d);
            }
            d = least;
        }
        None
    }

    /// The least `d` from `d` on that the gap over one cell allows.
    fn over(&self, s: &Scene, d: i32, x: &Cell) -> Option<i32> {
        let rest = d - s.c - x.h;
        if rest <= 0 {
            Some(d)
        } else if x.two || x.w < self.waste {
            None
        } else {
            Some(d.max(s.c + x.h + self.waste))
        }
    }

    /// What a hole that reaches into the strip and into the band asks of a cell.
    fn cell_bar(&self, s: &Scene, q: &Hole, b: i32, d: i32, x: &Cell) -> Bar {
        let right = x.e + x.w;
        if (s.a < x.e && q.x0 < x.e && x.e < q.x1) || (right < b && q.x0 < right && right < q.x1) {
            Bar::Shut
        } else if q.x1 <= x.e || right <= q.x0 {
            Bar::Free
        } else if x.lift && d - x.h < q.y1 {
            Bar::Up(q.y1 + x.h)
        } else if !x.lift && q.y0 < s.c + x.h {
            Bar::Shut
        } else {
            Bar::Free
        }
    }

    /// Whether a line of a closed band runs through a hole of the strip.
    fn band_shut(&self, q: &Hole, b: i32, x: &Band) -> bool {
        (0 < x.c && q.y0 < x.c && x.c < q.y1)
            || (x.d < self.high && q.y0 < x.d && x.d < q.y1)
            || (x.r < b && q.x0 < x.r && x.r < q.x1 && q.y0 < x.d && x.c < q.y1)
    }

    /// What a hole asks of the new cell's place with these `b` and `d`.
    fn bar(&self, s: &Scene, q: &Hole, b: i32, d: i32, new: &Cell) -> Bar {
        if q.x1 <= s.a || b <= q.x0 {
            return Bar::Free;
        }
        if b < s.wide && b < q.x1 {
            return Bar::Right(q.x1);
        }
        if b > s.b && s.bands.iter().any(|x| self.band_shut(q, b, x)) {
            return Bar::Shut;
        }
        if 0 < s.c && q.y0 < s.c && s.c < q.y1 {
            return Bar::Shut;
        }
        if d < self.high && q.y0 < d && d < q.y1 {
            return Bar::Up(q.y1);
        }
        if q.y1 <= s.c || d <= q.y0 {
            return Bar::Free;
        }
        if b > s.b || d > s.d {
            for x in s.cells {
                match self.cell_bar(s, q, b, d, x) {
                    Bar::Free => {}
                    other => return other,
                }
            }
        }
        self.cell_bar(s, q, b, d, new)
    }

    /// What the first hole asks that asks for something.
    fn first_bar(&self, s: &Scene, b: i32, d: i32, new: &Cell) -> Bar {
        for q in s.holes {
            if b <= q.x0 {
                return Bar::Free;
            }
            match self.bar(s, q, b, d, new) {
                Bar::Free => {}
                other => return other,
            }
        }
        Bar::Free
    }

    /// The least `b` and `d` with which the cell stands lawfully, or None; and the effort.
    fn fit(&self, s: &Scene, new: &Cell, ticks: &mut u64) -> Option<(i32, i32, bool)> {
        let r = new.e + new.w;
        let lift = if new.lift { self.waste } else { 0 };
        let mut b = s.b.max(r).max(s.a + self.min1);
        let mut d = s.d.max(s.c + self.min2).max(s.c + new.h + lift);
        *ticks += 2;
        let (lax_d, lax_b) = (s.lax_d > 0, s.lax_b > 0);
        for _ in 0..ROUNDS {
            b = self.wall(s, b, r, lax_b)?;
            d = self.top(s, d, new, lax_d)?;
            *ticks += s.holes.len() as u64 / 4;
            match self.first_bar(s, b, d, new) {
                Bar::Free => {
                    let up = d < self.high && self.high - d < self.waste;
                    let right = b < s.wide && s.wide - b < self.waste;
                    let tight = (up && s.holes.iter().any(|q| q.x0 < b && q.x1 > s.a && q.y1 > s.lax_d))
                        || (right && self.holes[s.plate as usize].iter().any(|q| q.x1 > s.lax_b));
                    return Some((b, d, tight));
                }
                Bar::Right(x) => b = x,
                Bar::Up(y) => d = y,
                Bar::Shut => return None,
            }
        }
        None
    }

    /// Left sides that holes give a piece of width `w` that can't begin at `x`.
    fn rights(&self, s: &Scene, x: i32, w: i32, out: &mut Vec<i32>) {
        out.clear();
        let least = x + self.waste;
        for q in s.holes {
            if x < q.x1 && q.x0 < least + w {
                out.push(q.x1.max(least));
                out.push((q.x1 - w).max(least));
                out.push(least);
            }
        }
        out.sort_unstable();
        out.dedup();
        out.truncate(8);
    }

    /// Further bottoms of a band, or left sides of a strip, behind the holes: with a waste before them, and through no hole.
    fn behind(&self, s: &Scene, from: i32, up: bool) -> Vec<i32> {
        let mut out: Vec<i32> = s
            .holes
            .iter()
            .map(|q| if up { q.y1 } else { q.x1 })
            .filter(|&x| from < x)
            .map(|x| x.max(from + self.waste))
            .filter(|&x| up || !s.holes.iter().any(|q| q.x0 < x && x < q.x1))
            .collect();
        out.sort_unstable();
        out.dedup();
        out.truncate(3);
        out
    }
}

/// The next item of a stack, with what the forms need of it.
#[derive(Clone, Copy)]
struct Piece {
    sides: [(i32, i32); 2],
    turns: usize,
    area: i64,
    value: i64,
}

/// One next item as a cell, or two of the same width one over the other.
#[derive(Clone, Copy)]
struct Form {
    stack: u16,
    over: u16,
    turns: u8,
    w: i32,
    h: i32,
    area: i64,
    value: i64,
    mix: u64,
    /// A child is of use where its waste and charge, in 1/1024, are below this.
    room: i64,
    /// Whether no looser place is to be tried.
    done: bool,
}

/// What one beam has to do.
struct Task<'p> {
    p: &'p Sheet,
    g: Guide,
    total: usize,
    stacks: Vec<Vec<Piece>>,
    mixes: Vec<u64>,
    all_value: i64,
    /// Nodes with as much waste as this are of no use.
    best: i64,
}

/// The pieces of each stack. An item is worth more when it is cut, in waste times 1024, where much stands behind it.
fn pieces(inst: &Instance, g: &Guide) -> Vec<Vec<Piece>> {
    let mean = (inst.area / inst.stacks.len() as u64).max(1) as i64;
    let mut out = Vec::new();
    for list in &inst.stacks {
        let mut stack = Vec::new();
        let mut behind = 0i64;
        for &j in list.iter().rev() {
            let it = &inst.items[j as usize];
            let area = it.area() as i64;
            let value = g.rho * area / 1024 * (512 + g.even * (2 * behind + area) / (2 * mean));
            let (w, h) = (it.length as i32, it.width as i32);
            stack.push(Piece { sides: [(w, h), (h, w)], turns: if w == h { 1 } else { 2 }, area, value });
            behind += area;
        }
        stack.reverse();
        out.push(stack);
    }
    out
}

/// Numbers below 2^48 by whose sums sets of items are told apart.
fn mixes(stacks: usize) -> Vec<u64> {
    let mut x = 12_345u64;
    let mut out = Vec::new();
    for _ in 0..stacks {
        let mut m = 0;
        for _ in 0..3 {
            x = (1_664_525 * x + 1_013_904_223) % (1 << 32);
            m = m * (1 << 16) + x / 65_536;
        }
        out.push(m);
    }
    out
}

/// The nodes of the level that is expanded, with the places in the stacks after each, and all nodes before them.
struct Work<'w> {
    task: &'w Task<'w>,
    arena: &'w [Node],
    first: usize,
    taken: &'w [Cand],
    seats: &'w [u16],
}

/// The node from which a cell is put, and as what.
#[derive(Clone, Copy)]
struct Origin<'f> {
    at: u32,
    base: &'f Cand,
    plate: u16,
    kind: u8,
}

impl Origin<'_> {
    fn node(&self, f: &Form, s: &Scene, e: i32, lift: bool, bd: (i32, i32)) -> Node {
        Node {
            parent: self.at,
            stack: f.stack,
            over: f.over,
            plate: self.plate,
            items: self.base.node.items + if f.over == NO { 1 } else { 2 },
            a: s.a as u16,
            b: bd.0 as u16,
            c: s.c as u16,
            d: bd.1 as u16,
            e: e as u16,
            w: f.w as u16,
            h: f.h as u16,
            kind: self.kind,
            turns: f.turns + if lift { 4 } else { 0 },
            lax_d: s.lax_d as u16,
            lax_b: s.lax_b as u16,
        }
    }
}

/// What the expansion of one node works on; kept from one to the next for its memory.
#[derive(Default)]
struct Room {
    /// The open band and the closed ones, from the last on.
    bands: Vec<Band>,
    cells: Vec<Cell>,
    here: Vec<Hole>,
    tries: Vec<i32>,
    forms: Vec<Form>,
    path: Vec<Node>,
    heads: Vec<u16>,
    links: Vec<u16>,
    /// Whether the plate takes a child, and whether none was passed over.
    any: bool,
    hope: bool,
}

/// A share of a level's nodes, and their children with one and with two more items.
#[derive(Default)]
struct Lane {
    next: [Vec<Cand>; 2],
    /// From these keys on a child is of no use.
    cut: [i64; 2],
    /// A list that is longer is cut down to its better half.
    most: usize,
    ticks: u64,
    room: Room,
}

impl Lane {
    /// Expands each `LANES`th node of a level, from the one at `from` on.
    fn work(&mut self, w: &Work, from: usize) {
        let stacks = w.task.stacks.len();
        for k in (from..w.taken.len()).step_by(LANES) {
            let pos = &w.seats[k * stacks..(k + 1) * stacks];
            self.expand(w, (w.first + k) as u32, &w.taken[k], pos);
        }
    }

    fn expand(&mut self, w: &Work, at: u32, base: &Cand, pos: &[u16]) {
        let t = w.task;
        self.forms(t, base, pos);
        self.ticks += 40 + self.room.forms.len() as u64;
        self.room.any = false;
        self.room.hope = true;
        let mut plate = 0;
        if at != ROOT {
            self.open(w, &base.node);
            self.cells(w, at, base);
            self.bands(w, at, base);
            self.strips(w, at, base, base.node.plate, base.node.b as i32, 1);
            plate = base.node.plate + 1;
        }
        if !self.room.any && self.room.hope && (plate as usize) < t.p.wide.len() {
            self.strips(w, at, base, plate, 0, 0);
        }
    }

    // The forms.

    /// A child with this value and so many more items is of use where its waste and charge are below this.
    fn space(&self, t: &Task, more: usize, value: i64) -> i64 {
        (self.cut[more - 1] - (t.all_value - value)).min(1024 * t.best)
    }

    /// All cells that may come next.
    fn forms(&mut self, t: &Task, base: &Cand, pos: &[u16]) {
        self.room.forms.clear();
        for s in 0..t.stacks.len() {
            let Some(q) = t.stacks[s].get(pos[s] as usize) else { continue };
            let room = self.space(t, 1, base.value + q.value);
            for turn in 0..q.turns {
                let (w, h) = q.sides[turn];
                if w <= t.p.max1 && h <= t.p.high {
                    self.room.forms.push(Form {
                        stack: s as u16,
                        over: NO,
                        turns: turn as u8,
                        w,
                        h,
                        area: q.area,
                        value: q.value,
                        mix: t.mixes[s],
                        room,
                        done: false,
                    });
                }
            }
        }
        let single = self.room.forms.len();
        self.pairs_in_stack(t, base, pos, single);
        self.pairs(t, base, single);
    }

    /// The form `g` with the item of `f` over it.
    fn stacked(&self, t: &Task, base: &Cand, g: &Form, f: &Form) -> Form {
        let value = g.value + f.value;
        Form {
            over: f.stack,
            turns: g.turns + 2 * f.turns,
            h: g.h + f.h,
            area: g.area + f.area,
            value,
            mix: g.mix + f.mix,
            room: self.space(t, 2, base.value + value),
            ..*g
        }
    }

    /// Pairs of the next two items of a stack.
    fn pairs_in_stack(&mut self, t: &Task, base: &Cand, pos: &[u16], single: usize) {
        for k in 0..single {
            let g = self.room.forms[k];
            let s = g.stack as usize;
            let Some(q) = t.stacks[s].get(pos[s] as usize + 1) else { continue };
            for turn in 0..q.turns {
                let (w, h) = q.sides[turn];
                if w == g.w && g.h + h <= t.p.high {
                    let f = Form { turns: turn as u8, h, area: q.area, value: q.value, ..g };
                    let two = self.stacked(t, base, &g, &f);
                    self.room.forms.push(two);
                }
            }
        }
    }

    /// Pairs from two stacks, found by chains of the single forms of the same width.
    fn pairs(&mut self, t: &Task, base: &Cand, single: usize) {
        self.room.links.clear();
        self.room.heads.resize(t.p.max1 as usize + 1, 0);
        for k in 0..single {
            let f = self.room.forms[k];
            let mut l = self.room.heads[f.w as usize] as usize;
            for _ in 0..MOST_PAIRS {
                if l == 0 {
                    break;
                }
                let g = self.room.forms[l - 1];
                if g.stack != f.stack && f.h + g.h <= t.p.high {
                    let two = self.stacked(t, base, &g, &f);
                    self.room.forms.push(two);
                }
                l = self.room.links[l - 1] as usize;
            }
            self.room.links.push(self.room.heads[f.w as usize]);
            self.room.heads[f.w as usize] = k as u16 + 1;
        }
        for k in 0..single {
            let w = self.room.forms[k].w as usize;
            self.room.heads[w] = 0;
        }
    }

    // The children of a node.

    /// A child; dropped where it is of no use.
    fn put(&mut self, t: &Task, o: &Origin, f: &Form, s: &Scene, e: i32, lift: bool, bd: (i32, i32)) {
        let more = if f.over == NO { 1 } else { 2 };
        let items = o.base.node.items as usize + more;
        let area = o.base.area + f.area;
        let (waste, charge) = t.weigh(o.plate, s.a, s.c, e + f.w, bd, area, items == t.total);
        if 1024 * waste + charge >= f.room {
            return;
        }
        self.ticks += 4;
        let value = o.base.value + f.value;
        let node = o.node(f, s, e, lift, bd);
        let key = 1024 * waste + charge + (t.all_value - value);
        self.next[more - 1].push(Cand { node, key, area, value, waste, hash: o.base.hash + f.mix });
        if self.next[more - 1].len() > self.most {
            self.halve(more - 1);
        }
    }

    /// Keeps the better half of a list.
    fn halve(&mut self, k: usize) {
        let list = &mut self.next[k];
        list.sort_by_key(|c| c.key);
        self.cut[k] = list[self.most / 2].key;
        list.truncate(self.most / 2);
    }

    /// Whether the plate's cells are clear of its holes, the new one included, where bands and strips are moved.
    fn lawful(&mut self, w: &Work, o: &Origin, f: &Form, s: &Scene, e: i32, lift: bool, bd: (i32, i32)) -> bool {
        let mut path = std::mem::take(&mut self.room.path);
        path.clear();
        path.push(o.node(f, s, e, lift, bd));
        let mut kind = o.kind;
        let mut next = o.base.node;
        while kind != 0 {
            path.push(next);
            kind = next.kind;
            if kind != 0 {
                next = w.arena[next.parent as usize];
            }
        }
        let p = w.task.p;
        let holes = &p.holes[o.plate as usize];
        self.ticks += (path.len() * (1 + holes.len() / 4)) as u64;
        let mut out = true;
        settle(p, &path, &mut |n, q| out = out && clear(p, holes, n, q));
        self.room.path = path;
        out
    }

    /// Puts a cell at `e` where that is lawful; gives `b` and `d`.
    fn try_at(&mut self, w: &Work, o: &Origin, f: &Form, s: &Scene, e: i32, lift: bool) -> Option<(i32, i32)> {
        let t = w.task;
        let cell = Cell { e, w: f.w, h: f.h, two: f.over != NO, lift };
        let (b, d, tight) = t.p.fit(s, &cell, &mut self.ticks)?;
        let mut bd = (b, d);
        if tight && !self.lawful(w, o, f, s, e, lift, bd) {
            let (b, d, _) = t.p.fit(&Scene { lax_d: 0, lax_b: 0, ..*s }, &cell, &mut self.ticks)?;
            bd = (b, d);
        }
        self.put(t, o, f, s, e, lift, bd);
        Some(bd)
    }

    /// Puts a cell at `e`, where the least `b` and `d` are `least`, or where a hole hinders it further right and lifted; gives
    /// `b` and `d` of one of the places. With `more` that is done too where a hole makes `b` or `d` greater, and at all places.
    fn place(&mut self, w: &Work, o: &Origin, f: &Form, s: &Scene, e: i32, least: (i32, i32)) -> Option<(i32, i32)> {
        let t = w.task;
        let plain = self.try_at(w, o, f, s, e, false);
        let smooth = if t.g.more { plain == Some(least) } else { plain.is_some() };
        if smooth || s.holes.is_empty() {
            return plain;
        }
        self.ticks += s.holes.len() as u64 / 2;
        let mut tries = std::mem::take(&mut self.room.tries);
        t.p.rights(s, e, f.w, &mut tries);
        let mut out = plain;
        for &x in tries.iter() {
            let here = self.try_at(w, o, f, s, x, false);
            out = out.or(here);
            if here.is_some() && !t.g.more {
                break;
            }
            if t.g.more && f.over == NO {
                out = out.or(self.try_at(w, o, f, s, x, true));
            }
        }
        self.room.tries = tries;
        if f.over == NO {
            let lifted = self.try_at(w, o, f, s, e, true);
            out = if t.g.more { out.or(lifted) } else { lifted.or(out) };
        }
        out
    }

    /// The open band's cells and the bands, from the last on, and the holes of the strip.
    fn open(&mut self, w: &Work, n: &Node) {
        let room = &mut self.room;
        room.bands.clear();
        room.cells.clear();
        room.bands.push(Band { c: n.c as i32, d: n.d as i32, r: n.e as i32 + n.w as i32 });
        let mut m = *n;
        let mut open = true;
        for _ in 0..w.task.total {
            if open {
                let (e, w, h) = (m.e as i32, m.w as i32, m.h as i32);
                room.cells.push(Cell { e, w, h, two: m.over != NO, lift: m.turns >= 4 });
            }
            if m.kind <= 1 {
                break;
            }
            let q = w.arena[m.parent as usize];
            if m.kind == 2 {
                open = false;
                room.bands.push(Band { c: q.c as i32, d: q.d as i32, r: q.e as i32 + q.w as i32 });
            }
            m = q;
        }
        self.holes(w.task, n.plate, n.a as i32, n.a as i32 + w.task.p.max1);
    }

    /// The holes of a plate that reach right of `left` and begin left of `right`.
    fn holes(&mut self, t: &Task, plate: u16, left: i32, right: i32) {
        let all = &t.p.holes[plate as usize];
        self.room.here.clear();
        for q in all {
            if q.x0 >= right {
                break;
            }
            if q.x1 > left {
                self.room.here.push(*q);
            }
        }
        self.ticks += all.len() as u64 / 4;
    }

    /// New cells in the open band.
    fn cells(&mut self, work: &Work, at: u32, base: &Cand) {
        let t = work.task;
        let n = base.node;
        let wide = t.p.wide[n.plate as usize];
        let (a, b, c, d, r) = (n.a as i32, n.b as i32, n.c as i32, n.d as i32, n.e as i32 + n.w as i32);
        let most = wide.min(a + t.p.max1);
        let o = Origin { at, base, plate: n.plate, kind: 3 };
        let (bands, cells, here) = self.room.lend();
        let s = Scene { wide, a, b, c, d, holes: &here, bands: &bands[1..], cells: &cells, lax_d: n.lax_d as i32, lax_b: n.lax_b as i32, plate: n.plate };
        for k in 0..self.room.forms.len() {
            let f = self.room.forms[k];
            let least = (b.max(r + f.w), d.max(c + f.h));
            if least.0 > most || least.1 > t.p.high {
                continue;
            }
            if t.least_key(n.plate, a, c, r + f.w, least, base.area + f.area) >= f.room {
                self.room.hope = false;
                continue;
            }
            if let Some(bd) = self.place(work, &o, &f, &s, r, least) {
                self.room.any = true;
                self.room.forms[k].done = !t.g.loose && bd == (b, d);
            }
        }
        self.room.back(bands, cells, here);
    }

    /// New bands in the open strip.
    fn bands(&mut self, work: &Work, at: u32, base: &Cand) {
        let t = work.task;
        let n = base.node;
        let wide = t.p.wide[n.plate as usize];
        let (a, b, d) = (n.a as i32, n.b as i32, n.d as i32);
        let c0 = n.c as i32;
        let most = wide.min(a + t.p.max1);
        let o = Origin { at, base, plate: n.plate, kind: 2 };
        let (bands, cells, here) = self.room.lend();
        let lax_d = if lax_band(&cells, c0, d) { d } else { n.lax_d as i32 };
        let s = Scene { wide, a, b, c: d, d, holes: &here, bands: &bands, cells: &[], lax_d, lax_b: n.lax_b as i32, plate: n.plate };
        for k in 0..self.room.forms.len() {
            let f = self.room.forms[k];
            let least = (b.max(a + f.w), d + f.h.max(t.p.min2));
            if f.done || least.0 > most || least.1 > t.p.high {
                continue;
            }
            if t.least_key(n.plate, a, d, a + f.w, least, base.area + f.area) >= f.room {
                self.room.hope = false;
                continue;
            }
            let found = self.place(work, &o, &f, &s, a, least);
            if let Some(bd) = found {
                self.room.any = true;
                self.room.forms[k].done = !t.g.loose && bd.0 == b;
            }
            if t.g.more && found != Some(least) {
                let high = f.h.max(t.p.min2);
                for c in t.p.behind(&s, d, true) {
                    let over = Scene { c, d: c, lax_d: c, ..s };
                    if c + high <= t.p.high && self.place(work, &o, &f, &over, a, (b, c + high)).is_some() {
                        self.room.any = true;
                    }
                }
            }
        }
        self.room.back(bands, cells, here);
    }

    /// New strips behind `x` on a plate.
    fn strips(&mut self, work: &Work, at: u32, base: &Cand, plate: u16, x: i32, kind: u8) {
        let t = work.task;
        let wide = t.p.wide[plate as usize];
        let o = Origin { at, base, plate, kind };
        self.holes(t, plate, x, wide);
        let (bands, cells, here) = self.room.lend();
        let mut lax_b = 0;
        if kind == 1 {
            let fits = x - base.node.a as i32 + t.p.waste <= t.p.max1;
            lax_b = if fits && bands.iter().all(|q| q.r < x) { x } else { base.node.lax_b as i32 };
        }
        let s = Scene { wide, a: x, b: x, c: 0, d: 0, holes: &here, bands: &[], cells: &[], lax_d: 0, lax_b, plate };
        for k in 0..self.room.forms.len() {
            let f = self.room.forms[k];
            let least = (x + f.w.max(t.p.min1), f.h.max(t.p.min2));
            if f.done || least.0 > wide {
                continue;
            }
            if t.least_key(plate, x, 0, x + f.w, least, base.area + f.area) >= f.room {
                self.room.hope = false;
                continue;
            }
            let found = self.place(work, &o, &f, &s, x, least);
            if found.is_some() {
                self.room.any = true;
            }
            if t.g.more && found != Some(least) {
                let w = f.w.max(t.p.min1);
                for a in t.p.behind(&s, x, false) {
                    let right = Scene { a, b: a, lax_b: a, ..s };
                    if a + w <= wide && self.place(work, &o, &f, &right, a, (a + w, least.1)).is_some() {
                        self.room.any = true;
                    }
                }
            }
        }
        self.room.back(bands, cells, here);
    }
}

/// With a tolerance below this a front that may be stretched is not dominated by one that may not.
const LAX_EPS: i32 = 1;

/// Whether a band of these cells may have its top at any place above `d`.
fn lax_band(cells: &[Cell], c: i32, d: i32) -> bool {
    cells.iter().all(|x| !x.two && x.h < d - c)
}

impl Room {
    fn lend(&mut self) -> (Vec<Band>, Vec<Cell>, Vec<Hole>) {
        use std::mem::take;
        (take(&mut self.bands), take(&mut self.cells), take(&mut self.here))
    }

    fn back(&mut self, bands: Vec<Band>, cells: Vec<Cell>, here: Vec<Hole>) {
        self.bands = bands;
        self.cells = cells;
        self.here = here;
    }
}

impl Task<'_> {
    /// Waste behind the front of a cell that ends at `r`, and the charges for the open strip's free places.
    fn weigh(&self, plate: u16, a: i32, c: i32, r: i32, bd: (i32, i32), area: i64, last: bool) -> (i64, i64) {
        let (a, b, c, d, r) = (a as i64, bd.0 as i64, c as i64, bd.1 as i64, r as i64);
        let high = self.p.high as i64;
        let before = self.p.before[plate as usize];
        if last {
            let wide = self.p.wide[plate as usize] as i64;
            let b = if wide - b < self.p.waste as i64 { wide } else { b };
            return (high * (before + b) - area, 0);
        }
        let rate = if b - r < self.p.small as i64 { self.g.small } else { self.g.right };
        let charge = rate * (b - r) * (d - c) + self.g.above * (b - a) * (high - d);
        (high * (before + a) + (b - a) * c + (r - a) * (d - c) - area, charge)
    }

    /// No child with no less `b` and `d` has less waste and charge than this.
    fn least_key(&self, plate: u16, a: i32, c: i32, r: i32, bd: (i32, i32), area: i64) -> i64 {
        let (a, b, c, d, r) = (a as i64, bd.0 as i64, c as i64, bd.1 as i64, r as i64);
        let high = self.p.high as i64;
        let before = self.p.before[plate as usize];
        let free = (self.g.small * (b - r)).min(self.g.right * (b - r).max(self.p.small as i64));
        let charge = free * (d - c) + self.g.above * (b - a) * (high - d);
        1024 * (high * (before + a) + (b - a) * c + (r - a) * (d - c) - area) + charge
    }
}

/// A candidate's front, for those behind it in its chain to be compared with; `next` is the one before it there.
#[derive(Clone, Copy)]
struct Front {
    hash: u64,
    plate: u16,
    a: u16,
    b: u16,
    c: u16,
    d: u16,
    r: u16,
    lax: (bool, bool),
    next: u32,
}

impl Front {
    fn new(c: &Cand, next: u32) -> Front {
        let n = &c.node;
        Front { hash: c.hash, plate: n.plate, a: n.a, b: n.b, c: n.c, d: n.d, r: n.e + n.w, lax: (n.lax_d > 0, n.lax_b > 0), next }
    }

    /// Whether this holds the same items as `y` and is never worse by more than `eps`.
    fn dominates(&self, y: &Front, eps: i32) -> bool {
        if self.hash != y.hash || self.plate > y.plate {
            return false;
        }
        // With a tolerance below 0 a number is no more where it is equal or less by a lawful gap.
        let no_more = |p: u16, q: u16| if eps < 0 { p == q || p as i32 - eps <= q as i32 } else { p as i32 <= q as i32 + eps };
        if self.plate < y.plate {
            return true;
        }
        if eps < LAX_EPS && y.lax.1 && !self.lax.1 {
            return false;
        }
        if no_more(self.b, y.a) {
            return true;
        }
        if eps < LAX_EPS && y.lax.0 && !self.lax.0 {
            return false;
        }
        if !no_more(self.a, y.a) || !no_more(self.b, y.b) {
            return false;
        }
        no_more(self.d, y.c) || (no_more(self.c, y.c) && no_more(self.d, y.d) && no_more(self.r, y.r))
    }
}

/// A share of the sets of items: the candidates that hold one of them, from the best on.
struct Sieve {
    /// Each with its place in the order of the level.
    mine: Vec<(u32, Front)>,
    /// The places of those that none before them dominates.
    good: Vec<u32>,
    fronts: Vec<Front>,
    slots: Vec<u32>,
    ticks: u64,
}

impl Sieve {
    fn new() -> Sieve {
        Sieve { mine: Vec::new(), good: Vec::new(), fronts: Vec::new(), slots: vec![ROOT; SLOTS as usize], ticks: 0 }
    }

    /// Passes over the candidates that one before them dominates.
    fn sift(&mut self, eps: i32) {
        self.slots.fill(ROOT);
        self.fronts.clear();
        self.good.clear();
        let mine = std::mem::take(&mut self.mine);
        for &(place, front) in &mine {
            if self.admit(front, eps) {
                self.good.push(place);
            }
        }
        self.mine = mine;
    }

    /// Whether no front that was noted is as good as this one; then it is noted.
    fn admit(&mut self, mut front: Front, eps: i32) -> bool {
        let slot = (front.hash / LANES as u64 % SLOTS) as usize;
        front.next = self.slots[slot];
        let mut k = front.next;
        for _ in 0..MOST_CHAIN {
            if k == ROOT {
                break;
            }
            self.ticks += k as u64 % 2;
            let x = &self.fronts[k as usize];
            if x.dominates(&front, eps) {
                return false;
            }
            k = x.next;
        }
        self.slots[slot] = self.fronts.len() as u32;
        self.fronts.push(front);
        true
    }
}

/// Does the same to each element of a list, by so many threads.
fn each<T: Send>(list: &mut [T], threads: usize, f: &(impl Fn(usize, &mut T) + Sync)) {
    let share = list.len().div_ceil(threads.max(1)).max(1);
    if list.len() <= share {
        list.iter_mut().enumerate().for_each(|(k, x)| f(k, x));
        return;
    }
    thread::scope(|s| {
        for (j, part) in list.chunks_mut(share).enumerate() {
            s.spawn(move || part.iter_mut().enumerate().for_each(|(k, x)| f(j * share + k, x)));
        }
    });
}

struct Search<'p> {
    task: Task<'p>,
    threads: usize,
    ticks: u64,
    /// All nodes that were expanded and from which a candidate comes; parents are places here.
    arena: Vec<Node>,
    live: usize,
    /// Candidates by number of items modulo 3.
    held: [Vec<Cand>; 3],
    /// Places in the stacks for the nodes of three levels, and the first node of each.
    seats: [Vec<u16>; 3],
    firsts: [usize; 3],
    /// The nodes of this level.
    taken: Vec<Cand>,
    lanes: Vec<Lane>,
    sieves: Vec<Sieve>,
}

impl<'p> Search<'p> {
    fn new(inst: &Instance, p: &'p Sheet, g: Guide, best: i64, threads: usize) -> Search<'p> {
        let stacks = pieces(inst, &g);
        let all_value = stacks.iter().flatten().map(|q| q.value).sum();
        let task = Task { p, g, total: inst.items.len(), stacks, mixes: mixes(inst.stacks.len()), all_value, best };
        Search {
            task,
            threads,
            ticks: 0,
            arena: Vec::new(),
            live: 0,
            held: Default::default(),
            seats: Default::default(),
            firsts: [0; 3],
            taken: Vec::new(),
            lanes: (0..LANES).map(|_| Lane::default()).collect(),
            sieves: (0..LANES).map(|_| Sieve::new()).collect(),
        }
    }

    /// How many nodes of a level are expanded, so that the ticks that are left last to the end.
    fn width(&self, level: usize, cost: u64) -> usize {
        let left = self.task.total - level;
        let share = self.task.g.ticks.saturating_sub(self.ticks) / (cost * left as u64);
        share.min(self.task.g.width).max(1) as usize
    }

    /// Notes the places in the stacks after a candidate's cell.
    fn seat(&mut self, level: usize, c: &Cand) {
        let stacks = self.task.stacks.len();
        let mut mine = std::mem::take(&mut self.seats[level % 3]);
        let at = mine.len();
        if c.node.parent == ROOT {
            mine.resize(at + stacks, 0);
        } else {
            let parent = c.node.parent as usize;
            let up = self.arena[parent].items as usize % 3;
            let from = (parent - self.firsts[up]) * stacks;
            mine.extend_from_slice(&self.seats[up][from..from + stacks]);
        }
        mine[at + c.node.stack as usize] += 1;
        if c.node.over != NO {
            mine[at + c.node.over as usize] += 1;
        }
        self.seats[level % 3] = mine;
    }

    /// Takes the best candidates of a level, none of which is dominated by a better one.
    fn take(&mut self, level: usize, width: usize) {
        let list = std::mem::take(&mut self.held[level % 3]);
        let mut ranks: Vec<(i64, u32)> = list.iter().enumerate().map(|(k, c)| (c.key, k as u32)).collect();
        ranks.sort_unstable();
        ranks.truncate(2 * width + 8);
        self.sieves.iter_mut().for_each(|s| s.mine.clear());
        for (place, (_, k)) in ranks.iter().enumerate() {
            let c = &list[*k as usize];
            if c.waste < self.task.best {
                self.sieves[(c.hash % LANES as u64) as usize].mine.push((place as u32, Front::new(c, ROOT)));
            }
        }
        let eps = self.task.g.eps;
        each(&mut self.sieves, self.threads, &|_, s: &mut Sieve| s.sift(eps));
        let mut good = vec![false; ranks.len()];
        for s in &mut self.sieves {
            self.ticks += s.ticks;
            s.ticks = 0;
            s.good.iter().for_each(|&place| good[place as usize] = true);
        }
        self.taken.clear();
        self.seats[level % 3].clear();
        self.firsts[level % 3] = self.arena.len();
        for (place, (_, k)) in ranks.iter().enumerate() {
            if good[place] && self.taken.len() < width {
                let c = list[*k as usize];
                self.seat(level, &c);
                self.taken.push(c);
                self.arena.push(c.node);
            }
        }
        self.held[level % 3] = list;
        self.held[level % 3].clear();
    }

    /// Expands the nodes of a level, by the lanes from `from` to `to`.
    fn work(&mut self, level: usize, from: usize, to: usize, cut: [i64; 2], most: usize) {
        let w = Work {
            task: &self.task,
            arena: &self.arena,
            first: self.firsts[level % 3],
            taken: &self.taken,
            seats: &self.seats[level % 3],
        };
        each(&mut self.lanes[from..to], self.threads, &|k, lane: &mut Lane| {
            lane.cut = cut;
            lane.most = most;
            lane.work(&w, from + k);
        });
    }

    /// The key from which on children of the lanes that did not go ahead are of no use.
    fn cut(&self, k: usize, cap: usize) -> i64 {
        let mut keys: Vec<i64> = self.lanes[..AHEAD].iter().flat_map(|l| l.next[k].iter().map(|c| c.key)).collect();
        let rank = cap * AHEAD / LANES * 5 / 4 + 8;
        if keys.len() <= rank {
            return FAR_KEY;
        }
        keys.sort_unstable();
        keys[rank]
    }

    /// Expands the best nodes of a level; gives how many.
    fn level(&mut self, level: usize, width: usize) -> u64 {
        self.take(level, width);
        let cap = 2 * width + 8;
        let most = 4 * (cap / LANES) + 64;
        self.work(level, 0, AHEAD, [FAR_KEY; 2], most);
        let cut = [self.cut(0, cap), self.cut(1, cap)];
        self.work(level, AHEAD, LANES, cut, most);
        self.gather(level);
        self.taken.len() as u64
    }

    /// Brings the children of the lanes together.
    fn gather(&mut self, level: usize) {
        for lane in &mut self.lanes {
            self.ticks += lane.ticks;
            lane.ticks = 0;
            for k in 0..2 {
                self.held[(level + 1 + k) % 3].append(&mut lane.next[k]);
            }
        }
    }

    /// Drops the nodes of the arena from which no candidate comes.
    fn sweep(&mut self, level: usize) {
        if self.arena.len() < MANY_NODES.max(2 * self.live) {
            return;
        }
        let n = self.arena.len();
        let mut keep = vec![false; n];
        // The last two levels stay as they are, since their seats go by place.
        let first = self.firsts[level % 3].min(if level > 1 { self.firsts[(level - 1) % 3] } else { 0 });
        keep[first..].fill(true);
        for c in self.held.iter().flatten() {
            if c.node.parent != ROOT {
                keep[c.node.parent as usize] = true;
            }
        }
        for k in (0..n).rev() {
            if keep[k] && self.arena[k].parent != ROOT {
                keep[self.arena[k].parent as usize] = true;
            }
        }
        let mut new = vec![0u32; n];
        let mut count = 0;
        for k in 0..n {
            if keep[k] {
                new[k] = count as u32;
                let mut x = self.arena[k];
                if x.parent != ROOT {
                    x.parent = new[x.parent as usize];
                }
                self.arena[count] = x;
                count += 1;
            }
        }
        self.arena.truncate(count);
        self.live = count;
        for c in self.held.iter_mut().flatten() {
            if c.node.parent != ROOT {
                c.node.parent = new[c.node.parent as usize];
            }
        }
        for k in 0..3 {
            if self.firsts[k] >= first {
                self.firsts[k] = new[self.firsts[k].min(n - 1)] as usize;
            }
        }
    }

    /// One beam; gives the nodes of the best plan, the last first, or nothing.
    fn beam(&mut self) -> Vec<Node> {
        let mut cost = 40 + 2 * self.task.stacks.len() as u64;
        let pos = vec![0u16; self.task.stacks.len()];
        let w = Work { task: &self.task, arena: &[], first: 0, taken: &[], seats: &[] };
        self.lanes[0].cut = [FAR_KEY; 2];
        self.lanes[0].most = usize::MAX;
        self.lanes[0].expand(&w, ROOT, &Cand::default(), &pos);
        self.gather(0);
        for level in 1..self.task.total {
            let start = self.ticks;
            let width = self.width(level, cost);
            let taken = self.level(level, width);
            if taken > 0 {
                cost = (self.ticks - start) / taken + 1;
            }
            self.sweep(level);
        }
        self.path()
    }

    /// The nodes of the best candidate of the last level.
    fn path(&self) -> Vec<Node> {
        let mut out = Vec::new();
        let mut best = self.task.best;
        let mut end = None;
        for c in &self.held[self.task.total % 3] {
            if c.waste < best {
                best = c.waste;
                end = Some(c.node);
            }
        }
        for _ in 0..self.task.total {
            let Some(n) = end else { break };
            out.push(n);
            end = if n.parent == ROOT { None } else { Some(self.arena[n.parent as usize]) };
        }
        out
    }
}

/// A cell's place when all is settled: `a`, `b`, `c`, `d`, `e`.
struct Spot {
    a: i32,
    b: i32,
    c: i32,
    d: i32,
    e: i32,
}

/// The places of a path's cells, last node first; cuts that the last cell of a strip or band settles are carried back. Where too little is left
/// over the last band or behind the last strip, the last band and strip before it that may be greater take that up.
fn settle(p: &Sheet, path: &[Node], give: &mut dyn FnMut(&Node, Spot)) {
    let (mut b, mut d) = (0, 0);
    let (mut new_strip, mut new_band, mut new_plate) = (true, true, true);
    // What is added to tops from `lax_d` on and to right sides from `lax_b` on.
    let (mut up, mut right, mut lax_d, mut lax_b) = (0, 0, 0, 0);
    let lack = |least: i32, most: i32| if least < most && most - least < p.waste { most - least } else { 0 };
    for n in path {
        if new_plate {
            right = lack(n.b as i32, p.wide[n.plate as usize]);
            lax_b = n.lax_b as i32;
        }
        if new_strip {
            b = n.b as i32;
            up = lack(n.d as i32, p.high);
            lax_d = n.lax_d as i32;
        }
        if new_band {
            d = n.d as i32;
        }
        let (a, c) = (n.a as i32, n.c as i32);
        let aside = if a >= lax_b { right } else { 0 };
        let spot = Spot {
            a: a + aside,
            b: b + if b >= lax_b { right } else { 0 },
            c: c + if c >= lax_d { up } else { 0 },
            d: d + if d >= lax_d { up } else { 0 },
            e: n.e as i32 + aside,
        };
        give(n, spot);
        new_strip = n.kind <= 1;
        new_band = n.kind <= 2;
        new_plate = n.kind == 0;
    }
}

/// Whether a cell and its cuts are clear of the holes.
fn clear(p: &Sheet, holes: &[Hole], n: &Node, q: Spot) -> bool {
    let wide = p.wide[n.plate as usize];
    let (w, h, lift) = (n.w as i32, n.h as i32, n.turns >= 4);
    let y = if lift { q.d - h } else { q.c };
    let right = q.e + w;
    holes.iter().all(|o| {
        let x_in = |x: i32| o.x0 < x && x < o.x1;
        let y_in = |y: i32| o.y0 < y && y < o.y1;
        let along_x = |l: i32, r: i32| o.x0 < r && l < o.x1;
        let along_y = |l: i32, r: i32| o.y0 < r && l < o.y1;
        !(along_x(q.e, right) && along_y(y, y + h)
            || n.kind <= 1 && (q.a > 0 && x_in(q.a) || q.b < wide && x_in(q.b))
            || n.kind <= 2 && along_x(q.a, q.b) && (q.c > 0 && y_in(q.c) || q.d < p.high && y_in(q.d))
            || along_y(q.c, q.d) && (q.e > q.a && x_in(q.e) || right < q.b && x_in(right))
            || along_x(q.e, right) && (!lift && q.c + h < q.d && y_in(q.c + h) || lift && y_in(q.d - h)))
    })
}

/// The trace of a path, last node first.
fn trace_of_path(p: &Sheet, path: &[Node]) -> Trace {
    let mut steps: Vec<Step> = Vec::new();
    settle(p, path, &mut |n, q| {
        let step = Step {
            stack: n.stack as u32,
            turn: (n.turns % 2) as u32,
            kind: n.kind as u32,
            lift: (n.turns / 4) as u32,
            a: q.a as u32,
            b: q.b as u32,
            c: q.c as u32,
            d: q.d as u32,
            e: q.e as u32,
        };
        if n.over != NO {
            steps.push(Step { stack: n.over as u32, turn: (n.turns / 2 % 2) as u32, kind: 4, lift: 0, ..step });
        }
        steps.push(step);
    });
    steps.reverse();
    Trace { steps }
}

/// What the guides of the beams are, in turn: the share of the best plan's loss that is expected, in 1/1024; the tolerance
/// in mm; the charges; how much the rest of a stack counts; `more` and `loose`.
const GUIDES: [(u64, i32, i64, i64, i64, bool, bool); 6] = [
    (717, 20, 102, 10, 1024, false, false),
    (800, 5, 102, 10, 1024, false, false),
    (1075, 5, 102, 10, 1024, false, false),
    (500, 10, 102, 10, 1400, false, false),
    (717, 0, 102, 10, 1024, true, false),
    (717, 0, 40, 4, 1024, true, true),
];
/// With the first beam the effort comes to so many ticks, or to twice those of the first plan where that is more.
const FIRST_TICKS: u64 = 300_000_000;
/// A beam takes at most so many times the first plan's ticks, with which its levels come to about the greatest width. Both are
/// doubled as soon as each guide has had its turn.
const MOST_TIMES: u64 = 12;
const WIDEST: u64 = 32_768;
const MOST_DOUBLED: usize = 6;
const MOST_GROWN: usize = 20;

/// One beam that is to lose less than `best`; gives its trace and loss where it does, and what it took.
pub fn run(inst: &Instance, sheet: &Sheet, g: Guide, best: u64, threads: usize) -> (Option<(Trace, u64)>, u64) {
    let mut search = Search::new(inst, sheet, g, best as i64, threads);
    let trace = trace_of_path(sheet, &search.beam());
    if trace.steps.len() == inst.items.len() && meets(inst, &trace).is_ok() {
        let loss = trace_loss(inst, &trace);
        if loss < best {
            return (Some((trace, loss)), search.ticks);
        }
    }
    (None, search.ticks)
}

/// How often the limits are doubled for the beam with this number.
fn doubled(beam: usize) -> usize {
    (beam / GUIDES.len()).min(MOST_DOUBLED)
}

/// The ticks of the beam with this number, where the first plan takes `first`: twice as many as the last one has, as far as
/// the limit allows. They do not hang on the effort.
pub fn size(first: u64, beam: usize) -> u64 {
    let rest = FIRST_TICKS.saturating_sub(first);
    if beam == 0 && rest > 0 {
        return rest;
    }
    let start = rest.max(first);
    (start << beam.min(MOST_GROWN)).min((MOST_TIMES * first) << doubled(beam))
}

/// The guide of the beam with this number, where the best plan so far loses `loss`.
pub fn guide(inst: &Instance, beam: usize, loss: u64, ticks: u64) -> Guide {
    let (share, eps, right, above, even, more, loose) = GUIDES[beam % GUIDES.len()];
    let eps = match inst.items.len() {
        0..=30 => -(inst.params.waste as i32),
        31..=60 => 0,
        _ => eps,
    };
    let rho = (share * loss / (loss + inst.area)) as i64;
    Guide { rho, eps, right, small: 512, above, even, more, loose, ticks, width: WIDEST << doubled(beam) }
}
