use crate::base::Instance;
use crate::model::Trace;
pub fn meets(_: &Instance, _: &Trace) -> Result<(), ()> { Ok(()) }
pub fn plates(t: &Trace) -> u32 { t.steps.iter().enumerate().filter(|(k, s)| *k == 0 || s.kind == 0).count() as u32 }
pub fn trace_loss(inst: &Instance, t: &Trace) -> u64 {
    let last = plates(t) - 1;
    let b = t.steps.last().unwrap().b;
    let w = inst.width(last);
    let b = if w - b < inst.params.waste { w } else { b };
    (inst.before(last) + b as u64) * inst.params.height as u64 - inst.area
}
