//! Tails: keep the first K plates of a plan, plan the rest anew, keep the better.
use crate::base::{Defect, Instance};
use crate::effort::{run, Guide, Sheet};
use crate::model::{Step, Trace};
use crate::strong;
use crate::trace::{plates, trace_loss};

pub fn plate_of(t: &Trace) -> Vec<u32> {
    let mut p = 0;
    t.steps.iter().enumerate().map(|(k, s)| { if k > 0 && s.kind == 0 { p += 1; } p }).collect()
}
/// The instance behind the first `k` plates, the stacks that it keeps, and how many steps come before.
pub fn rest(inst: &Instance, t: &Trace, k: u32) -> (Instance, Vec<usize>, usize) {
    let on = plate_of(t);
    let cut = on.iter().position(|&p| p >= k).unwrap_or(on.len());
    let mut drawn = vec![0usize; inst.stacks.len()];
    for s in &t.steps[..cut] { drawn[s.stack as usize] += 1; }
    let mut items = vec![]; let mut kept = vec![]; let mut stacks: Vec<Vec<u32>> = vec![];
    for (n, s) in inst.stacks.iter().enumerate() {
        if drawn[n] < s.len() {
            kept.push(n);
            let mut list = vec![];
            for &i in &s[drawn[n]..] { list.push(items.len() as u32); items.push(inst.items[i as usize].clone()); }
            stacks.push(list);
        }
    }
    let defects = inst.defects.iter().filter(|d| d.plate >= k).map(|d| Defect { plate: d.plate - k, ..d.clone() }).collect();
    let mut params = inst.params.clone(); params.plates -= k;
    let area = items.iter().map(|i| i.length as u64 * i.width as u64).sum();
    let widths = inst.widths[k as usize..].to_vec();
    (Instance { params, items, stacks, area, defects, widths }, kept, cut)
}
pub fn join(t: &Trace, cut: usize, tail: &Trace, kept: &[usize]) -> Trace {
    let mut steps: Vec<Step> = t.steps[..cut].to_vec();
    for (n, s) in tail.steps.iter().enumerate() {
        let mut s = *s; s.stack = kept[s.stack as usize] as u32;
        if n == 0 { s.kind = 0; }
        steps.push(s);
    }
    Trace { steps }
}
pub struct State<'a> { pub inst: &'a Instance, pub best: Trace, pub loss: u64, pub spent: u64, pub limit: u64, pub log: bool, pub clock: std::time::Instant }
impl<'a> State<'a> {
    pub fn new(inst: &'a Instance, limit: u64, log: bool) -> State<'a> {
        let f = strong::effort(inst.items.len() as u64);
        let (found, _) = strong::first_with(inst, f, 1);
        let (best, loss) = found.unwrap();
        let s = State { inst, best, loss, spent: f, limit, log, clock: std::time::Instant::now() };
        s.tell("first");
        s
    }
    pub fn tell(&self, what: &str) { if self.log { println!("{what}: loss {} Mticks {} wall {:.0}", self.loss, self.spent / 1_000_000, self.clock.elapsed().as_secs_f64()); } }
    pub fn left(&self) -> u64 { self.limit.saturating_sub(self.spent) }
    pub fn whole(&mut self, number: usize, ticks: u64) {
        if ticks == 0 { return; }
        let sheet = Sheet::new(self.inst);
        let (found, took) = run(self.inst, &sheet, crate::effort::guide(self.inst, number, self.loss, ticks), self.loss, 1);
        self.spent += took;
        if let Some((t, l)) = found { self.best = t; self.loss = l; }
        self.tell(&format!("whole {number} {}", ticks / 1_000_000));
    }
    /// One beam on the tail behind the first `k` plates that is to lose less than the tail of the best plan.
    pub fn tail(&mut self, k: u32, number: usize, ticks: u64) {
        if k == 0 || k >= plates(&self.best) || ticks == 0 { return; }
        let (r, kept, cut) = rest(self.inst, &self.best, k);
        let frozen = self.inst.before(k) * self.inst.params.height as u64;
        let total = self.loss + self.inst.area;
        let lost = total - frozen - r.area;
        let sheet = Sheet::new(&r);
        let g: Guide = crate::effort::guide(&r, number, lost, ticks);
        let (found, took) = run(&r, &sheet, g, lost, 1);
        self.spent += took;
        let mut better = false;
        if let Some((t, _)) = found {
            let whole = join(&self.best, cut, &t, &kept);
            let l = trace_loss(self.inst, &whole);
            assert!(l < self.loss, "{l} {}", self.loss);
            self.best = whole; self.loss = l; better = true;
        }
        self.tell(&format!("  tail {k} of {} ({} items) {number} {}{}", plates(&self.best), r.items.len(), ticks / 1_000_000, if better { " *" } else { "" }));
    }

    /// Rounds of a beam over the whole and, from six plates on, of tails behind 1/4, 1/2, 3/4, 7/8 and 15/16 of the plates, one after the other, each of no more ticks than the beam over the
    /// whole, and no more together. The first round then has tails in its place, which have twice its ticks.
    pub fn rounds(&mut self) {
        let first = strong::effort(self.inst.items.len() as u64);
        for round in 0..1000usize {
            let many = plates(&self.best) >= 6;
            let mut ticks = crate::effort::size(first, round);
            if many { ticks = ticks.min(200_000_000 << round.clamp(1, 20)); }
            let mut until = self.spent + 2 * ticks;
            if round > 0 || !many {
                if self.spent + ticks > self.limit { return; }
                self.whole(round, ticks);
                until = self.spent + ticks;
            }
            if !many { continue; }
            for (number, sixteenths) in [4, 8, 12, 14, 15].into_iter().enumerate() {
                let k = plates(&self.best) * sixteenths / 16;
                let left = strong::effort(rest(self.inst, &self.best, k).0.items.len() as u64);
                let size = (left << round.min(20)).min((3 * left) << (round / 6).min(6));
                if size > ticks { continue; }
                if self.spent + size > until { break; }
                if self.spent + size > self.limit { return; }
                self.tail(k, number, size);
            }
        }
    }
    /// Beams over the whole alone, each with twice the ticks of the one before, as far as that is allowed.
    pub fn wholes(&mut self) {
        let first = strong::effort(self.inst.items.len() as u64);
        for number in 0..1000 {
            let ticks = crate::effort::size(first, number);
            if self.spent + ticks > self.limit { return; }
            self.whole(number, ticks);
        }
    }
}
