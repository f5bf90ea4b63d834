//! Compares drafts on tiny plates with those that are found by trying every millimetre.
//!
//! `least_steps BOOK` takes all plates of 1 to 12 by 1 to 12 mm with all sets of up to two defects of one size, in each of the settings
//! below; `least_steps BOOK SEED COUNT` takes so many random cases. BOOK is the program that runs a book of traces. It gets each case with
//! the draft found here. The cases where it finds another one are printed with its report, and then the status is 1.
//!
//! Nothing of Glass is used: the rules of a trace are written here once more, from docs/PROBLEM.md alone, for steps in which the item
//! stands alone at the left end of a strip.
//!
//! Left out are the plates lower than the least band, since parameters are refused whose `min2Cut` is above their `heightPlates`. No other
//! rule on parameters can be broken by the sides of these plates.

use std::error::Error;
use std::io::{self, Write};
use std::ops::RangeInclusive as Range;
use std::process::{Command, ExitCode, Stdio};
use std::{env, thread};

/// The greatest side of a plate, in mm, as are all sizes.
const LARGEST: u32 = 12;

/// How many cases one run of BOOK gets: a text of about 1 MB.
const PIECE: usize = 4000;

/// The left and the right side, or the lower and the upper one.
type Span = (u32, u32);

/// The plate of a defect, and its sides along x and along y.
type Defect = (usize, Span, Span);

/// The stack of an item, its length and its width.
type Item = (u32, u32, u32);

/// The least waste, the least and the greatest strip, and the least band.
type Cuts = [u32; 4];

/// What decides between two places on one plate: b, a, c, d and the turn.
type Place = [u32; 5];

/// The kind of a step, its plate and its place there.
type Step = (u32, usize, Place);

/// The parameters, the items, how many plates there are, and the side of the defects, all squares.
struct Setting(Cuts, &'static [Item], usize, u32);

/// Other rules matter in each of them. A defect of 1 mm has no whole millimetre inside, so that no cut runs through it and only the item
/// must go around it; around those of the last setting cuts must go, too.
const SETTINGS: [Setting; 5] = [
    Setting([1, 1, 5, 1], &[(0, 5, 3)], 1, 1),
    Setting([3, 4, 6, 4], &[(0, 2, 4)], 1, 1),
    Setting([3, 3, 6, 4], &[(0, 2, 5), (0, 2, 3)], 1, 1),
    Setting([2, 4, 6, 3], &[(0, 3, 4), (1, 5, 1)], 2, 1),
    Setting([2, 2, 5, 3], &[(0, 3, 1), (0, 2, 4)], 1, 2),
];

/// The items are numbered from 0, and drafted in this order.
struct Case {
    cuts: Cuts,
    height: u32,
    widths: Vec<u32>,
    items: Vec<Item>,
    defects: Vec<Defect>,
}

/// All pairs of a number from each range, in ascending order.
fn pairs(firsts: Range<u32>, seconds: Range<u32>) -> impl Iterator<Item = (u32, u32)> {
    firsts.flat_map(move |first| seconds.clone().map(move |second| (first, second)))
}

impl Case {
    fn is_gap(&self, start: u32, end: u32) -> bool {
        let [waste, ..] = self.cuts;
        start == end || start + waste <= end
    }

    /// Whether the inside of no defect meets a rectangle, or a line, which is a rectangle with a side 0.
    fn is_clear(&self, plate: usize, x: Span, y: Span) -> bool {
        let apart = |one: Span, other: Span| one.1 <= other.0 || other.1 <= one.0;
        let mut defects = self.defects.iter().filter(|defect| defect.0 == plate);
        defects.all(|&(_, along, up)| apart(along, x) || apart(up, y))
    }

    /// TR4, and TR9 for the sides of the strip, which is the last one of its plate so far.
    fn takes_strip(&self, plate: usize, from: u32, (a, b): Span) -> bool {
        let [_, min1, max1, _] = self.cuts;
        let (width, upright) = (self.widths[plate], (0, self.height));
        self.is_gap(from, a)
            && (a + min1 <= b && b <= a + max1 && b <= width)
            && self.is_gap(b, width)
            && (a == 0 || self.is_clear(plate, (a, a), upright))
            && (b == width || self.is_clear(plate, (b, b), upright))
    }

    /// TR5, and TR9 for the sides of the band, which is the only one of its strip.
    fn takes_band(&self, plate: usize, strip: Span, (c, d): Span) -> bool {
        let [.., min2] = self.cuts;
        self.is_gap(0, c)
            && (c + min2 <= d && d <= self.height)
            && self.is_gap(d, self.height)
            && (c == 0 || self.is_clear(plate, strip, (c, c)))
            && (d == self.height || self.is_clear(plate, strip, (d, d)))
    }

    /// TR3, TR6, TR7, TR8, and TR9 for the right side of the cell and the line over the item. The cell is the only one of its band and
    /// begins at its left side, and the item lies at its bottom.
    fn takes_item(&self, plate: usize, (_, length, width): Item, place: Place) -> bool {
        let [waste, ..] = self.cuts;
        let [b, a, c, d, turn] = place;
        let (w, h) = [(length, width), (width, length)][turn as usize];
        let (right, top) = (a + w, c + h);
        (turn == 0 || w != h)
            && self.is_gap(right, b)
            && (top == d || top + waste <= d && waste <= w)
            && self.is_clear(plate, (a, right), (c, top))
            && (right == b || self.is_clear(plate, (right, right), (c, d)))
            && (top == d || self.is_clear(plate, (a, right), (top, top)))
    }

    /// The first place of an item in this strip. Every millimetre is tried for c and d. In a band that breaks a rule by its own sides
    /// nothing may stand, so no turn is tried there.
    fn place_in(&self, plate: usize, (a, b): Span, item: Item) -> Option<Place> {
        let bands = pairs(0..=self.height, 0..=self.height);
        let bands = bands.filter(|&band| self.takes_band(plate, (a, b), band));
        let mut places = bands.flat_map(|(c, d)| [0, 1].map(|turn| [b, a, c, d, turn]));
        places.find(|&place| self.takes_item(plate, item, place))
    }

    /// The first place of an item behind `from`, if there is such a plate (TR1). Every millimetre is tried for b and a. In a strip that
    /// breaks a rule by its own sides nothing may stand, so no c and d are tried there.
    fn place_on(&self, plate: usize, from: u32, item: Item) -> Option<Place> {
        let width = *self.widths.get(plate)?;
        let strips = pairs(0..=width, 0..=width).map(|(b, a)| (a, b));
        let mut strips = strips.filter(|&strip| self.takes_strip(plate, from, strip));
        strips.find_map(|strip| self.place_in(plate, strip, item))
    }

    /// The least step of an item: on the plate in use behind its last strip, or else on the next plate.
    ///
    /// The rules are asked of this step alone. The steps before it go on to meet them: all that changes for them is that the strip before
    /// may no longer be the last one of its plate.
    fn next_step(&self, last: Option<Step>, item: Item) -> Option<Step> {
        let step = |kind, plate, from| Some((kind, plate, self.place_on(plate, from, item)?));
        let behind = last.and_then(|(_, plate, [b, ..])| step(1, plate, b));
        behind.or_else(|| step(0, last.map_or(0, |(_, plate, _)| plate + 1), 0))
    }

    /// The steps of the draft in a book, or the number of the first item that has none.
    fn told_draft(&self) -> String {
        let (mut told, mut last) = (String::new(), None);
        for (number, &item) in self.items.iter().enumerate() {
            let Some(step) = self.next_step(last, item) else {
                return format!("none {number}\n");
            };
            let ((stack, ..), (kind, _, [b, a, c, d, turn])) = (item, step);
            told += &format!("step {stack} {turn} {kind} 0 {a} {b} {c} {d} {a}\n");
            last = Some(step);
        }
        told
    }

    /// The paragraph of a book that tells of the case and its draft.
    fn told(&self, name: usize) -> String {
        let [waste, min1, max1, min2] = self.cuts;
        let (plates, height) = (self.widths.len(), self.height);
        let mut told = format!("case tiny plates {name}\n");
        for (number, (stack, length, width)) in self.items.iter().enumerate() {
            told += &format!("item {number};{length};{width};{stack};{number}\n");
        }
        told += &format!("param nPlates;{plates}\nparam heightPlates;{height}\n");
        told += &format!("param min1Cut;{min1}\nparam max1Cut;{max1}\n");
        told += &format!("param min2Cut;{min2}\nparam minWaste;{waste}\n");
        for (plate, width) in self.widths.iter().enumerate() {
            told += &format!("plate {plate};{width}\n");
        }
        for (number, (plate, (left, right), (low, high))) in self.defects.iter().enumerate() {
            let (width, height) = (right - left, high - low);
            told += &format!("defect {number};{plate};{left};{low};{width};{height}\n");
        }
        told + "draft\n" + &self.told_draft() + "\n"
    }
}

/// All sets of up to two squares with this side on plates with these sides.
fn defects_of(side: u32, plates: usize, width: u32, height: u32) -> Vec<Vec<Defect>> {
    let mut squares: Vec<Defect> = Vec::new();
    let mut sets = vec![vec![]];
    for plate in 0..plates {
        for (right, high) in pairs(side..=width, side..=height) {
            let square = (plate, (right - side, right), (high - side, high));
            sets.extend(squares.iter().map(|&other| vec![other, square]));
            sets.push(vec![square]);
            squares.push(square);
        }
    }
    sets
}

fn cases_of(&Setting(cuts, items, plates, side): &Setting) -> impl Iterator<Item = Case> {
    let [.., min2] = cuts;
    pairs(1..=LARGEST, min2..=LARGEST).flat_map(move |(width, height)| {
        let sets = defects_of(side, plates, width, height).into_iter();
        sets.map(move |defects| Case {
            cuts,
            height,
            widths: vec![width; plates],
            items: items.to_vec(),
            defects,
        })
    })
}

/// Random numbers that follow from a seed.
struct Random(u64);

impl Random {
    fn draw(&mut self, least: u32, greatest: u32) -> u32 {
        let grown = self.0.wrapping_mul(6_364_136_223_846_793_005);
        self.0 = grown.wrapping_add(1);
        least + (self.0 >> 33) as u32 % (greatest - least + 1)
    }

    /// Two sides of a defect, which may reach beyond its plate.
    fn span(&mut self) -> Span {
        let start = self.draw(0, LARGEST - 1);
        (start, self.draw(start + 1, LARGEST))
    }

    /// One or two plates, up to three items in up to three stacks, and up to two defects.
    fn case(&mut self) -> Case {
        let (height, waste) = (self.draw(4, LARGEST), self.draw(1, 3));
        let (min1, min2) = (self.draw(waste, 5), self.draw(waste, height.min(5)));
        let cuts = [waste, min1, self.draw(min1, LARGEST), min2];
        let (plates, items, defects) = (self.draw(1, 2), self.draw(1, 3), self.draw(0, 2));
        let stack_size = self.draw(1, 3);
        let item = |number| (number / stack_size, self.draw(1, 9), self.draw(1, 9));
        let items = (0..items).map(item).collect();
        let defect = |_| (self.draw(0, plates - 1) as usize, self.span(), self.span());
        let defects = (0..defects).map(defect).collect();
        let widths = (0..plates).map(|_| self.draw(4, LARGEST)).collect();
        Case {
            cuts,
            height,
            widths,
            items,
            defects,
        }
    }
}

/// What the program prints of a book. It reads the whole book before it prints anything, so neither waits for the other.
fn report(program: &str, book: &str) -> io::Result<String> {
    let mut command = Command::new(program);
    command.stdin(Stdio::piped()).stdout(Stdio::piped());
    let mut child = command.spawn()?;
    if let Some(mut input) = child.stdin.take() {
        input.write_all(book.as_bytes())?;
    }
    String::from_utf8(child.wait_with_output()?.stdout).map_err(io::Error::other)
}

/// The cases that differ, and what the program reports; none where all are as they should be.
fn differences(program: &str, cases: &[(usize, Case)]) -> io::Result<Option<String>> {
    let told: Vec<String> = cases.iter().map(|(name, case)| case.told(*name)).collect();
    let report = report(program, &told.concat())?;
    if report == format!("{0} cases, {0} as they should be\n", told.len()) {
        return Ok(None);
    }
    let differs = |case: &&str| report.lines().any(|line| Some(line) == case.lines().next());
    let differing: String = told.iter().map(String::as_str).filter(differs).collect();
    Ok(Some(format!("{differing}The program reports:\n{report}\n")))
}

/// The differences in each piece. The pieces are searched side by side.
fn all_differences(program: &str, pieces: &[Vec<(usize, Case)>]) -> io::Result<Vec<String>> {
    thread::scope(|scope| {
        let search = |piece| scope.spawn(move || differences(program, piece));
        let searches: Vec<_> = pieces.iter().map(|piece| search(piece)).collect();
        let ends = searches.into_iter().map(|search| search.join());
        let found = ends.map(|end| end.expect("a search ends"));
        found.filter_map(io::Result::transpose).collect()
    })
}

/// Prints the cases that differ, or how many cases there are. Whether none differs.
fn compare(program: &str, cases: impl Iterator<Item = Case>) -> io::Result<bool> {
    let threads = thread::available_parallelism()?.get();
    let mut cases = cases.enumerate().peekable();
    let (mut count, mut good) = (0, true);
    while cases.peek().is_some() {
        let pieces = (0..threads).map(|_| cases.by_ref().take(PIECE).collect());
        let pieces: Vec<Vec<_>> = pieces.collect();
        count += pieces.iter().map(Vec::len).sum::<usize>();
        for differences in all_differences(program, &pieces)? {
            print!("{differences}");
            good = false;
        }
    }
    if good {
        println!("{count} cases, all as they should be");
    }
    Ok(good)
}

fn main() -> Result<ExitCode, Box<dyn Error>> {
    let words: Vec<String> = env::args().skip(1).collect();
    let good = match words.as_slice() {
        [program] => compare(program, SETTINGS.iter().flat_map(cases_of))?,
        [program, seed, count] => {
            let mut random = Random(seed.parse()?);
            compare(program, (0..count.parse()?).map(|_: u32| random.case()))?
        }
        _ => return Err("usage: least_steps BOOK [SEED COUNT]".into()),
    };
    Ok(ExitCode::from(u8::from(!good)))
}
