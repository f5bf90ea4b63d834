#[derive(Clone, Copy, Debug, Default, PartialEq)]
pub struct Step { pub stack: u32, pub turn: u32, pub kind: u32, pub lift: u32, pub a: u32, pub b: u32, pub c: u32, pub d: u32, pub e: u32 }
#[derive(Clone, Debug)]
pub struct Trace { pub steps: Vec<Step> }
