#[derive(Clone, Debug)]
pub struct Params { pub plates: u32, pub width: u32, pub height: u32, pub min1: u32, pub max1: u32, pub min2: u32, pub waste: u32 }
#[derive(Clone, Debug)]
pub struct Item { pub id: u32, pub length: u32, pub width: u32, pub stack: u32, pub sequence: u32 }
#[derive(Clone, Debug)]
pub struct Defect { pub plate: u32, pub x0: u32, pub y0: u32, pub x1: u32, pub y1: u32 }
#[derive(Clone, Debug)]
pub struct Instance { pub params: Params, pub items: Vec<Item>, pub stacks: Vec<Vec<u32>>, pub area: u64, pub defects: Vec<Defect>, pub widths: Vec<u32> }
impl Item { pub fn area(&self) -> u64 { self.length as u64 * self.width as u64 } }
impl Instance {
    pub fn new(params: Params, items: Vec<Item>, defects: Vec<Defect>) -> Instance {
        let mut names: Vec<u32> = vec![];
        let mut stacks: Vec<Vec<u32>> = vec![];
        for (k, i) in items.iter().enumerate() {
            let at = names.iter().position(|&n| n == i.stack).unwrap_or_else(|| { names.push(i.stack); stacks.push(vec![]); names.len() - 1 });
            stacks[at].push(k as u32);
        }
        for s in &mut stacks { s.sort_by_key(|&k| items[k as usize].sequence); }
        let area = items.iter().map(|i| i.length as u64 * i.width as u64).sum();
        let widths = vec![params.width; params.plates as usize];
        Instance { params, items, stacks, area, defects, widths }
    }
    pub fn defects_of(&self, n: u32) -> impl Iterator<Item = &Defect> { self.defects.iter().filter(move |d| d.plate == n) }
    pub fn width(&self, n: u32) -> u32 { self.widths[n as usize] }
    pub fn before(&self, n: u32) -> u64 { self.widths[..n as usize].iter().map(|&w| w as u64).sum() }
    pub fn usual() -> Params { Params { plates: 100, width: 6000, height: 3210, min1: 100, max1: 3500, min2: 100, waste: 20 } }
    pub fn drawn(start: u32, items: u32, defects: u32) -> Instance {
        let mut x = start as u64;
        let mut draw = |n: u64| { x = (1664525 * x + 1013904223) % (1 << 32); ((x / 65536) % n) as u32 };
        let stacks = 1 + items / 20;
        let list = (0..items).map(|k| { let length = 200 + draw(1300); let width = 150 + draw(850); let stack = draw(stacks as u64); Item { id: k, length, width, stack, sequence: k } }).collect();
        let ds = (0..defects).map(|_| { let plate = draw(10); let x0 = draw(5900); let y0 = draw(3100); let w = 5 + draw(20); let h = 5 + draw(20); Defect { plate, x0, y0, x1: x0 + w, y1: y0 + h } }).collect();
        Instance::new(Instance::usual(), list, ds)
    }
    pub fn read(batch: &str, defects: &str) -> Instance {
        let rows = |t: &str| t.lines().skip(1).filter(|l| !l.trim().is_empty()).map(|l| l.split(';').map(|f| f.trim().parse::<f64>().unwrap()).collect::<Vec<_>>()).collect::<Vec<_>>();
        let items = rows(batch).iter().map(|r| Item { id: r[0] as u32, length: r[1] as u32, width: r[2] as u32, stack: r[3] as u32, sequence: r[4] as u32 }).collect();
        let ds = rows(defects).iter().map(|r| Defect { plate: r[1] as u32, x0: r[2].floor() as u32, y0: r[3].floor() as u32, x1: (r[2] + r[4]).ceil() as u32, y1: (r[3] + r[5]).ceil() as u32 }).collect();
        Instance::new(Instance::usual(), items, ds)
    }
}
