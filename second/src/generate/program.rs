//! Well-typed programs: headings first, right by construction, then bodies by type.

use super::body::Body;
use crate::headings::{headings, World};
use crate::random::Random;
use crate::rows::{letter, BOOL, OBJECT, PLAIN, ROOT, ROW_WIDTH, STATE};
use crate::tree::{parse, Program};

/// How large a program may become.
#[derive(Clone, Copy)]
pub struct Size {
    classes: (usize, usize),
    methods: usize,
    fields: usize,
    pub nodes: usize,
    pub nesting: usize,
    pub slots: usize,
}

const TINY: Size = Size { classes: (0, 3), methods: 1, fields: 16, nodes: 14, nesting: 8, slots: 12 };
const SMALL: Size = Size { classes: (2, 6), methods: 2, fields: 16, nodes: 24, nesting: 14, slots: 20 };
const MIDDLE: Size = Size { classes: (3, 9), methods: 3, fields: 16, nodes: 40, nesting: 24, slots: 32 };
const LARGE: Size = Size { classes: (8, 64), methods: 3, fields: 17, nodes: 60, nesting: 50, slots: 70 };

/// Of a hundred bodies of a program with near misses so many may have one; about five do.
const NEAR_MISSES: usize = 40;

/// A well-typed program; most keep within the translator's limits.
pub fn program(random: &mut Random) -> Vec<u32> {
    let size = any_size(random);
    of_size(size, 0, random)
}

/// A program that is well typed but for a few bodies, which keep expressions that their own rule refuses.
pub fn near_missed(random: &mut Random) -> Vec<u32> {
    let size = any_size(random);
    of_size(size, NEAR_MISSES, random)
}

/// A well-typed program that is short enough for the two programs, in most cases.
pub fn short_program(random: &mut Random) -> Vec<u32> {
    let size = random.pick(&[TINY, TINY, SMALL]);
    of_size(size, 0, random)
}

fn any_size(random: &mut Random) -> Size {
    match random.below(100) {
        0..=24 => TINY,
        25..=69 => SMALL,
        70..=93 => MIDDLE,
        _ => LARGE,
    }
}

/// A program of a size; of a hundred bodies so many may keep near misses.
fn of_size(size: Size, near_misses: usize, random: &mut Random) -> Vec<u32> {
    let plan = Plan::random(&size, random);
    let stubs = plan.rows(|_, heading, rows| stub(heading, rows));
    let tree = parse(&stubs).expect("planned rows have their form");
    let world = headings(&tree).expect("planned headings are right");
    let mut rows = plan.rows(|class, heading, rows| {
        let mut body = Body::new(&world, names_of(&tree), size, near_misses, random);
        rows.extend(body.method(class, heading));
    });
    rows.truncate(rows.len() - 2 * ROW_WIDTH);
    let larger = Size { nodes: size.nodes * 2, ..size };
    let mut body = Body::new(&world, names_of(&tree), larger, near_misses, random);
    rows.extend(body.start());
    rows
}

/// Class and name of each method, in the order of the world's list.
fn names_of(program: &Program) -> Vec<(u32, u32)> {
    let classes = (1..).zip(&program.classes);
    classes.flat_map(|(class, tree)| tree.methods.iter().map(move |method| (class, method.name))).collect()
}

/// A body that stands in for one still to come.
fn stub(heading: &Heading, rows: &mut Vec<u32>) {
    let literal = if heading.result == BOOL { letter::TRUE } else { letter::NULL };
    rows.extend([letter::BLOCK, 0, 1, 0, literal, 0, 0, 0]);
}

/// A method's heading: type numbers and the effect's classes.
#[derive(Clone)]
pub struct Heading {
    pub name: u32,
    pub result: u32,
    pub parameters: Vec<u32>,
    pub effect: Vec<u32>,
}

struct ClassPlan {
    kind: u32,
    superclass: u32,
    fields: Vec<(u32, u32)>,
    methods: Vec<Heading>,
}

/// The headings of a program; class c at index c - 1.
struct Plan {
    classes: Vec<ClassPlan>,
}

impl Plan {
    fn random(size: &Size, random: &mut Random) -> Plan {
        let mut plan = Plan { classes: Vec::new() };
        for _ in 0..random.between(size.classes.0, size.classes.1) {
            plan.add_class(random);
        }
        for class in 1..=plan.classes.len() as u32 {
            plan.add_fields(class, size, random);
            plan.add_methods(class, size, random);
        }
        plan
    }

    fn class(&self, class: u32) -> &ClassPlan {
        &self.classes[class as usize - 1]
    }

    /// Classes of some kinds, earlier ones only.
    fn of_kinds(&self, kinds: &[u32]) -> Vec<u32> {
        (1..=self.classes.len() as u32).filter(|class| kinds.contains(&self.class(*class).kind)).collect()
    }

    /// A class and its superclasses.
    fn line_up(&self, class: u32) -> Vec<u32> {
        let mut line = Vec::new();
        let mut at = class;
        while at != OBJECT {
            line.push(at);
            at = self.class(at).superclass;
        }
        line
    }

    /// State classes under a few roots, now and then a plain one.
    fn add_class(&mut self, random: &mut Random) {
        let changing = self.of_kinds(&[ROOT, STATE]);
        let (kind, above) = if !changing.is_empty() && random.chance(65) {
            (STATE, changing)
        } else {
            (if random.chance(65) { ROOT } else { PLAIN }, self.of_kinds(&[PLAIN]))
        };
        let superclass = if kind != STATE && (above.is_empty() || random.chance(50)) {
            OBJECT
        } else {
            random.pick(&above)
        };
        self.classes.push(ClassPlan { kind, superclass, fields: Vec::new(), methods: Vec::new() });
    }

    /// Any declared type; fields may not have state classes.
    fn any_type(&self, for_field: bool, random: &mut Random) -> u32 {
        match random.below(10) {
            0..=2 => BOOL,
            3 => OBJECT,
            _ => {
                let kinds: &[u32] = if for_field { &[PLAIN, ROOT] } else { &[PLAIN, ROOT, ROOT, STATE] };
                random.pick(&self.of_kinds(kinds))
            }
        }
    }

    fn add_fields(&mut self, class: u32, size: &Size, random: &mut Random) {
        let line = self.line_up(class);
        let inherited: Vec<u32> =
            line.iter().flat_map(|above| self.class(*above).fields.iter().map(|field| field.1)).collect();
        let wanted = if random.chance(4) { random.below(17) } else { random.pick(&[0, 1, 1, 2, 3]) };
        let mut names = inherited;
        for _ in 0..wanted {
            let name = match random.below(60) {
                0 => random.pick(&[252, 253, 254, 255]),
                1..=9 => random.below(40) as u32,
                _ => random.below(7) as u32,
            };
            if names.len() < size.fields && !names.contains(&name) {
                names.push(name);
                let of_type = self.any_type(true, random);
                self.classes[class as usize - 1].fields.push((of_type, name));
            }
        }
    }

    fn add_methods(&mut self, class: u32, size: &Size, random: &mut Random) {
        let line = self.line_up(class);
        let mut inherited: Vec<Heading> = Vec::new();
        for above in &line[1..] {
            for heading in &self.class(*above).methods {
                if !inherited.iter().any(|known| known.name == heading.name) {
                    inherited.push(heading.clone());
                }
            }
        }
        for mut heading in inherited.iter().cloned() {
            if random.chance(45) {
                heading.effect.retain(|_| random.chance(70));
                self.classes[class as usize - 1].methods.push(heading);
            }
        }
        for _ in 0..random.between(0, size.methods) {
            let name = random.below(9) as u32;
            let known = &self.class(class).methods;
            if !known.iter().chain(&inherited).any(|heading| heading.name == name) {
                let heading = self.any_heading(name, random);
                self.classes[class as usize - 1].methods.push(heading);
            }
        }
    }

    fn any_heading(&self, name: u32, random: &mut Random) -> Heading {
        let count = if random.chance(3) { random.below(9) } else { random.pick(&[0, 1, 1, 2, 3]) };
        let share = random.pick(&[0, 30, 60, 100]);
        Heading {
            name,
            result: self.any_type(false, random),
            parameters: (0..count).map(|_| self.any_type(false, random)).collect(),
            effect: self.of_kinds(&[ROOT]).into_iter().filter(|_| random.chance(share)).collect(),
        }
    }

    /// The rows, each body as `write` gives it; the start is a block of one literal.
    fn rows(&self, mut write: impl FnMut(u32, &Heading, &mut Vec<u32>)) -> Vec<u32> {
        let mut rows = Vec::new();
        for (number, class) in (1..).zip(&self.classes) {
            rows.extend([letter::CLASS, class.kind, class.superclass, 0]);
            for (of_type, name) in &class.fields {
                rows.extend([letter::FIELD, *of_type, *name, 0]);
            }
            for heading in &class.methods {
                rows.extend([letter::METHOD, heading.result, heading.name, 0]);
                rows.extend(
                    heading.parameters.iter().flat_map(|of_type| [letter::PARAMETER, *of_type, 0, 0]),
                );
                rows.extend(heading.effect.iter().flat_map(|root| [letter::EFFECT, *root, 0, 0]));
                write(number, heading, &mut rows);
            }
        }
        rows.extend([letter::START, 0, 0, 0, letter::BLOCK, 0, 1, 0, letter::TRUE, 0, 0, 0]);
        rows
    }
}

/// All classes of a world below a class, that class included; Object's are all.
pub fn below(world: &World, class: u32) -> Vec<u32> {
    (0..world.classes.len() as u32).filter(|lower| world.is_subclass(*lower, class)).collect()
}
