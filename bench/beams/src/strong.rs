use crate::base::Instance;
use crate::effort::{run, Guide, Sheet};
use crate::model::Trace;
pub fn effort(n: u64) -> u64 { if n <= 100 { 30_000_000 } else if n <= 200 { n * 300_000 } else { (n - 200) * 250_000 + 60_000_000 } }
pub fn first_with(inst: &Instance, f: u64, threads: usize) -> (Option<(Trace, u64)>, u64) {
    let sheet = Sheet::new(inst);
    let eps = if inst.items.len() <= 60 { 0 } else { 20 };
    let g = |rho, eps, ticks| Guide { rho, eps, right: 102, small: 512, above: 10, even: 1024, more: false, loose: false, ticks, width: 32_768 };
    let (one, t1) = run(inst, &sheet, g(102, 20, f / 16), 1 << 50, threads);
    let (rho, best) = match &one { Some((_, l)) => ((717 * l / (l + inst.area)) as i64, *l), None => (102, 1 << 50) };
    let (two, t2) = run(inst, &sheet, g(rho, eps, f - f / 16), best, threads);
    (two.or(one), t1 + t2)
}
pub fn first_plan(inst: &Instance) -> Option<Trace> { first_with(inst, effort(inst.items.len() as u64), 1).0.map(|x| x.0) }
