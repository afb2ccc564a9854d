//! Generated texts of terms: overlapping ones of few models around a day, and every way in which a line can be wrong.

use fickle::LARGEST_NUMBER;
use second::random::Random;

/// The largest number of a line, and how many there are: as many terms as can have signing numbers of their own.
const MOST: u32 = LARGEST_NUMBER;
const ALL: usize = MOST as usize + 1;

/// The days around a day.
pub struct Region {
    middle: u32,
}

impl Region {
    pub fn new(day: u32) -> Region {
        Region { middle: day.min(MOST) }
    }

    /// A day in it.
    pub fn near(&self, random: &mut Random) -> u32 {
        (self.middle + random.below(50) as u32).saturating_sub(15).min(MOST)
    }
}

/// A term as its numbers: model, first day, last day, cents, signing number.
type Term = [u32; 5];

/// How the terms of a text lie: models, prices and days few or any.
struct Manner {
    models: usize,
    prices: usize,
    span: usize,
}

impl Manner {
    fn new(random: &mut Random) -> Manner {
        Manner {
            models: random.pick(&[1, 1, 2, 3]),
            prices: random.pick(&[1, 2, 2, 4, ALL]),
            span: random.pick(&[1, 3, 8, 8, 20, 40, ALL]),
        }
    }

    fn term(&self, region: &Region, signing: u32, random: &mut Random) -> Term {
        let first = region.near(random);
        let last = (first + random.below(self.span) as u32).min(MOST);
        let model = 7 + random.below(self.models) as u32;
        [model, first, last, random.below(self.prices) as u32, signing]
    }
}

/// A text of terms. About a third has a line that is malformed or a term that is refused, at times both.
pub fn terms(region: &Region, random: &mut Random) -> Vec<u8> {
    let count = match random.below(10_000) {
        0 => ALL + random.below(2),
        1 => random.between(5_000, 20_000),
        2..=99 => random.between(30, 400),
        _ => random.below(12),
    };
    let mut terms = good_terms(count, region, random);
    if random.chance(20) {
        spoil_term(&mut terms, random);
    }
    let mut lines: Vec<Vec<u8>> = terms.iter().map(line).collect();
    if random.chance(20) {
        spoil_line(&mut lines, random);
    }
    let mut text = lines.concat();
    if random.chance(2) {
        text.pop();
    }
    text
}

/// So many terms, whose signing numbers differ and rise, fall or go up and down.
fn good_terms(count: usize, region: &Region, random: &mut Random) -> Vec<Term> {
    let manner = Manner::new(random);
    let (from, step) = match random.below(4) {
        0 => (0, 1),
        1 => (MOST, MOST),
        // Any odd step meets every signing number once.
        _ => (random.bits() as u32, random.bits() as u32 | 1),
    };
    let signing = |place: u32| from.wrapping_add(place.wrapping_mul(step)) & MOST;
    (0..count as u32).map(|place| manner.term(region, signing(place), random)).collect()
}

/// Makes a term one that is refused: its days fall, or an earlier one has its signing number.
fn spoil_term(terms: &mut [Term], random: &mut Random) {
    if terms.is_empty() {
        return;
    }
    let place = random.below(terms.len());
    let [_, first, last, ..] = terms[place];
    match random.below(4) {
        0 => terms[place][1] = (last + 1).min(MOST),
        1 => terms[place][1..3].copy_from_slice(&[last, first]),
        _ => terms[place][4] = terms[random.below(terms.len())][4],
    }
}

fn line(term: &Term) -> Vec<u8> {
    let [model, first, last, cents, signing] = term;
    format!("{model}\t{first}\t{last}\t{cents}\t{signing}\n").into_bytes()
}

/// Makes a line malformed, or leaves it as it is where a change of a byte happens to do no harm.
fn spoil_line(lines: &mut Vec<Vec<u8>>, random: &mut Random) {
    if lines.is_empty() {
        lines.push(b"\n".to_vec());
        return;
    }
    let place = random.below(lines.len());
    let line = &mut lines[place];
    let mut fields: Vec<Vec<u8>> =
        line[..line.len() - 1].split(|byte| *byte == b'\t').map(<[u8]>::to_vec).collect();
    let at = random.below(fields.len());
    match random.below(16) {
        0 => fields.truncate(at),
        1 => fields.push(b"1".to_vec()),
        2 => fields[at].clear(),
        3 => fields[at].insert(0, b'0'),
        4 => fields[at].insert(0, b'-'),
        5 => fields[at].insert(0, b' '),
        6 => fields[at].push(b'\r'),
        7 => fields[at] = b"65536".to_vec(),
        8 => fields[at] = b"99999".to_vec(),
        9 => fields[at] = b"100000".to_vec(),
        10 => fields[at] = b"4294967303".to_vec(),
        11 => fields.insert(0, b"C".to_vec()),
        12 => fields.insert(at, Vec::new()),
        13 => fields.push(Vec::new()),
        14 => fields = vec![Vec::new()],
        _ => {
            let (byte, any) = (random.below(line.len()), random.bits() as u8);
            line[byte] = random.pick(&[0, b'\n', b'\t', b' ', b'/', b':', b'9', 0xff, any]);
            return;
        }
    }
    *line = fields.join(&b'\t');
    line.push(b'\n');
}
