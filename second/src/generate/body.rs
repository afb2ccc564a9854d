//! Bodies of well-typed programs. An expression is written with its rule's outcome at hand; one that does not
//! come out right is taken back. The choice leans to changes of class, shared objects and calls.

use super::program::{below, Heading, Size};
use crate::headings::{effect_of, Effect, Type, World};
use crate::random::Random;
use crate::rows::{letter, BOOL, OBJECT};

mod members;

/// What an expression is to be.
#[derive(Clone, Copy)]
enum Want {
    Any,
    Bool,
    Class(u32),
}

impl Want {
    fn of(declared: Type) -> Want {
        match declared {
            Type::Bool => Want::Bool,
            Type::Class(class) => Want::Class(class),
            Type::Null => Want::Any,
        }
    }
}

/// A written expression: type, effect, and whether it is likely to be no null.
#[derive(Clone, Copy)]
struct Out {
    given: Type,
    effect: Effect,
    sure: bool,
}

/// A slot's current type and whether it is likely to hold no null.
#[derive(Clone, Copy)]
struct SlotState {
    current: Type,
    sure: bool,
}

/// A body being written.
pub struct Body<'a> {
    world: &'a World,
    methods: Vec<(u32, u32)>,
    size: Size,
    random: &'a mut Random,
    rows: Vec<u32>,
    slots: Vec<SlotState>,
    has_this: bool,
    allowed: Effect,
    /// Methods below this name are called freely, others rarely: so that most runs end.
    rank: u32,
    left: isize,
    /// Whether an expression that its own rule refuses may be kept.
    near_misses: bool,
}

impl<'a> Body<'a> {
    /// An empty body. Of a hundred bodies so many have near misses: an A, U, Q or J that its own rule refuses is kept
    /// in them; A and J, which are hardly ever refused as they are written here, are written with less care.
    pub fn new(
        world: &'a World,
        methods: Vec<(u32, u32)>,
        size: Size,
        near_misses: usize,
        random: &'a mut Random,
    ) -> Body<'a> {
        let near_misses = random.chance(near_misses);
        let left = random.between(size.nodes / 3, size.nodes) as isize;
        let (rows, slots, allowed, rank) = (Vec::new(), Vec::new(), !0, 256);
        Body { world, methods, size, random, rows, slots, has_this: true, allowed, rank, left, near_misses }
    }

    /// An expression, written whole, that its own rule refuses: kept where near misses are.
    fn near_miss(&self, out: Out) -> Option<Out> {
        self.near_misses.then_some(out)
    }

    /// The block of a method.
    pub fn method(&mut self, class: u32, heading: &Heading) -> Vec<u32> {
        self.allowed = heading.effect.iter().fold(0, |effect, root| effect | effect_of(*root));
        self.rank = heading.name;
        self.slots.push(SlotState { current: Type::Class(class), sure: true });
        for parameter in &heading.parameters {
            self.slots.push(SlotState { current: Type::of_number(*parameter), sure: true });
        }
        let result = Type::of_number(heading.result);
        loop {
            let before = self.mark();
            if let Some(out) = self.block(Want::of(result), self.size.nesting) {
                if self.world.fits(out.given, result) {
                    return std::mem::take(&mut self.rows);
                }
            }
            self.back(before);
        }
    }

    /// The start's block.
    pub fn start(&mut self) -> Vec<u32> {
        self.has_this = false;
        self.slots.push(SlotState { current: Type::Class(OBJECT), sure: false });
        loop {
            let before = self.mark();
            if self.block(Want::Any, self.size.nesting).is_some() {
                return std::mem::take(&mut self.rows);
            }
            self.back(before);
        }
    }

    fn mark(&self) -> (usize, Vec<SlotState>) {
        (self.rows.len(), self.slots.clone())
    }

    fn back(&mut self, mark: (usize, Vec<SlotState>)) {
        self.rows.truncate(mark.0);
        self.slots = mark.1;
    }

    fn row(&mut self, letter: u32, first: u32, second: u32) {
        self.rows.extend([letter, first, second, 0]);
    }

    fn suits(&self, given: Type, want: Want) -> bool {
        match want {
            Want::Any => true,
            Want::Bool => given == Type::Bool,
            Want::Class(class) => self.world.fits(given, Type::Class(class)),
        }
    }

    fn apply_to_slots(&mut self, effect: Effect) {
        for slot in &mut self.slots {
            slot.current = self.world.apply(effect, slot.current);
        }
    }

    /// The slots in scope that satisfy a test; slot 0 only where there is a `this`.
    fn slots_where(&self, test: impl Fn(&SlotState) -> bool) -> Vec<u32> {
        let first = if self.has_this { 0 } else { 1 };
        (first..self.slots.len()).filter(|slot| test(&self.slots[*slot])).map(|slot| slot as u32).collect()
    }

    fn choose_of<T: Copy>(&mut self, choices: &[T]) -> Option<T> {
        if choices.is_empty() {
            None
        } else {
            Some(self.random.pick(choices))
        }
    }

    /// An expression as wanted, at most so many levels deep.
    fn expression(&mut self, want: Want, levels: usize) -> Out {
        self.left -= 1;
        if levels > 1 && self.left > 0 {
            for _ in 0..5 {
                let before = self.mark();
                match self.compound(want, levels) {
                    Some(out) if self.suits(out.given, want) => return out,
                    _ => self.back(before),
                }
            }
        }
        self.atom(want)
    }

    /// An item of a block whose value nobody reads: most of them do something.
    fn statement(&mut self, levels: usize) -> Out {
        let before = self.mark();
        let written = match self.random.below(16) {
            0..=3 => self.call(Want::Any, levels),
            4..=6 => self.set(Want::Any, levels),
            7 | 8 => self.change(Want::Any),
            9..=11 => self.set_and_change(Want::Any, levels),
            12 => self.assign(Want::Any, levels),
            13 => self.choose(Want::Any, levels),
            _ => None,
        };
        written.unwrap_or_else(|| {
            self.back(before);
            self.expression(Want::Any, levels)
        })
    }

    /// One of the expressions with children.
    fn compound(&mut self, want: Want, levels: usize) -> Option<Out> {
        match self.random.below(27) {
            0 => Some(self.atom(want)),
            1 | 2 => self.block(want, levels),
            3 => self.choose(want, levels),
            4 | 5 => self.guarded(want, levels),
            6..=8 => self.assign(want, levels),
            9 | 10 => self.get(want, levels),
            11..=13 => self.set(want, levels),
            14..=18 => self.call(want, levels),
            19 | 20 => self.cast(want, levels),
            21 | 22 => self.change(want),
            _ => self.set_and_change(want, levels),
        }
    }

    /// A literal, a slot or a new object.
    fn atom(&mut self, want: Want) -> Out {
        let slots = self.slots_where(|slot| self.suits(slot.current, want));
        let chance = if matches!(want, Want::Bool) { 35 } else { 60 };
        if !slots.is_empty() && self.random.chance(chance) {
            let slot = self.random.pick(&slots);
            self.row(letter::SLOT, slot, 0);
            let SlotState { current, sure } = self.slots[slot as usize];
            return Out { given: current, effect: 0, sure };
        }
        match want {
            Want::Bool => self.literal(),
            Want::Any if self.random.chance(40) => self.literal(),
            _ if self.random.chance(12) => {
                self.row(letter::NULL, 0, 0);
                Out { given: Type::Null, effect: 0, sure: false }
            }
            Want::Any => self.new_object(OBJECT),
            Want::Class(class) => self.new_object(class),
        }
    }

    fn literal(&mut self) -> Out {
        let truth = self.random.pick(&[letter::TRUE, letter::TRUE, letter::FALSE]);
        self.row(truth, 0, 0);
        Out { given: Type::Bool, effect: 0, sure: true }
    }

    fn new_object(&mut self, class: u32) -> Out {
        let classes = below(self.world, class);
        let class = self.random.pick(&classes);
        self.row(letter::NEW, class, 0);
        Out { given: Type::Class(class), effect: 0, sure: true }
    }

    /// An object of a class, likely no null; with the slot it was read from, if any.
    fn object(&mut self, class: u32, levels: usize) -> (Out, Option<u32>) {
        let wanted = Type::Class(class);
        let sure = self.slots_where(|slot| slot.sure && self.world.fits(slot.current, wanted));
        let any = self.slots_where(|slot| self.world.fits(slot.current, wanted));
        let from = match self.random.below(20) {
            0..=16 => sure,
            17 => any,
            _ => Vec::new(),
        };
        if let Some(slot) = self.choose_of(&from) {
            self.row(letter::SLOT, slot, 0);
            let SlotState { current, sure } = self.slots[slot as usize];
            return (Out { given: current, effect: 0, sure }, Some(slot));
        }
        if self.random.chance(75) {
            (self.new_object(class), None)
        } else {
            (self.expression(Want::Class(class), levels), None)
        }
    }

    /// A value for a declared type, mostly no null.
    fn value(&mut self, declared: Type, levels: usize) -> Out {
        match declared {
            Type::Class(class) if self.random.chance(75) => self.object(class, levels).0,
            _ => self.expression(Want::of(declared), levels),
        }
    }

    /// A type for a local variable: mostly of classes that change.
    fn local_type(&mut self) -> u32 {
        let classes = self.world.classes.len() as u32;
        match self.random.below(10) {
            0 | 1 => BOOL,
            2 => OBJECT,
            _ => {
                let changing: Vec<u32> =
                    (1..classes).filter(|class| self.world.class(*class).root != 0).collect();
                let class = self.random.below(classes as usize) as u32;
                self.choose_of(&changing).unwrap_or(class)
            }
        }
    }

    /// B: locals, most of them given an object at once, then items.
    fn block(&mut self, want: Want, levels: usize) -> Option<Out> {
        let outside = self.slots.len();
        let room = self.size.slots.saturating_sub(outside);
        let v = self.random.pick(&[0, 1, 1, 2, 3]).min(room);
        let types: Vec<u32> = (0..v).map(|_| self.local_type()).collect();
        let at = self.rows.len();
        self.row(letter::BLOCK, v as u32, 0);
        for local in &types {
            self.row(letter::LOCAL, *local, 0);
            self.slots.push(SlotState { current: Type::of_number(*local), sure: false });
        }
        let (mut items, mut effect) = (0, 0);
        for slot in outside..outside + v {
            if self.left > 0 && levels > 3 && self.random.chance(85) {
                let out = self.assign_slot(slot as u32, levels - 1)?;
                effect |= out.effect;
                items += 1;
            }
        }
        let is_start = !self.has_this && outside == 1;
        let more = if is_start { self.random.between(1, 7) } else { self.random.pick(&[0, 1, 1, 2, 3, 4]) };
        for _ in 0..more {
            if self.left > 0 && levels > 2 {
                effect |= self.statement(levels - 1).effect;
                items += 1;
            }
        }
        let last = self.expression(want, levels - 1);
        self.rows[at + 2] = items + 1;
        self.slots.truncate(outside);
        Some(Out { effect: effect | last.effect, ..last })
    }

    /// A: a slot that suits, with a value that fits.
    fn assign(&mut self, want: Want, levels: usize) -> Option<Out> {
        let slots = self.slots_where(|slot| self.suits(slot.current, want));
        let slots: Vec<u32> = slots.into_iter().filter(|slot| *slot != 0).collect();
        let slot = self.choose_of(&slots)?;
        self.assign_slot(slot, levels)
    }

    fn assign_slot(&mut self, slot: u32, levels: usize) -> Option<Out> {
        self.row(letter::ASSIGN, slot, 0);
        let declared = self.slots[slot as usize].current;
        let changed = Some(slot).filter(|_| self.near_misses);
        let value = self.operand(changed, declared, levels - 1);
        let state = &mut self.slots[slot as usize];
        if !self.world.fits(value.given, state.current) {
            return self.near_miss(value);
        }
        state.sure = value.sure;
        Some(value)
    }

    /// J: both arms from the same slots, which join afterwards.
    fn choose(&mut self, want: Want, levels: usize) -> Option<Out> {
        self.row(letter::IF, 0, 0);
        let condition = self.expression(Want::Bool, levels - 1);
        self.arms(want, levels, condition.effect, None)
    }

    /// J on the null test of a slot that is set in it: the else arm may trust the slot.
    fn guarded(&mut self, want: Want, levels: usize) -> Option<Out> {
        if levels < 4 {
            return None;
        }
        let slots = self.slots_where(|slot| matches!(slot.current, Type::Class(_)));
        let slots: Vec<u32> = slots.into_iter().filter(|slot| *slot != 0).collect();
        let slot = self.choose_of(&slots)?;
        self.row(letter::IF, 0, 0);
        self.row(letter::IS_NULL, 0, 0);
        let value = self.assign_slot(slot, levels - 2)?;
        self.arms(want, levels, value.effect, Some(slot))
    }

    fn arms(&mut self, want: Want, levels: usize, effect: Effect, trusted: Option<u32>) -> Option<Out> {
        let want = match want {
            Want::Any if self.random.chance(50) => Want::Bool,
            Want::Any => Want::Class(OBJECT),
            _ => want,
        };
        let before = self.slots.clone();
        let then = self.expression(want, levels - 1);
        let after_then = std::mem::replace(&mut self.slots, before);
        if let Some(slot) = trusted {
            self.slots[slot as usize].sure = true;
        }
        let other = if self.near_misses && self.random.chance(3) { Want::Any } else { want };
        let other = self.expression(other, levels - 1);
        let both = Out { effect: effect | then.effect | other.effect, sure: then.sure && other.sure, ..then };
        let Some(given) = self.world.join(then.given, other.given) else {
            return self.near_miss(both);
        };
        for (slot, joined) in self.slots.iter_mut().zip(after_then) {
            slot.current = self.world.join(slot.current, joined.current)?;
            slot.sure &= joined.sure;
        }
        Some(Out { given, ..both })
    }
}
