//! The body pass: refusals 4 and 7 to 11, in the order in which expressions are finished
//! (document 01, "Bodies"; 002, Figures 7 and 8).

use crate::headings::{effect_of, Effect, Type, World};
use crate::rows::{number, refuse, Refusal, OBJECT};
use crate::tree::{Expr, Method, Named, Node, Program};

/// The class in which G, U and Q look their member up, by row.
pub type Lookups = Vec<u8>;

/// The body pass over all methods, then the start block.
pub fn bodies(program: &Program, world: &World, rows: usize) -> Result<Lookups, Refusal> {
    let mut typing = Typing { world, slots: Vec::new(), has_this: true, lookups: vec![0; rows] };
    for (index, class) in program.classes.iter().enumerate() {
        for method in &class.methods {
            typing.method(index as u32 + 1, method)?;
        }
    }
    typing.start(&program.start)?;
    Ok(typing.lookups)
}

/// A type and an effect; the slots' types afterwards are those of the pass.
#[derive(Clone, Copy)]
struct Typed {
    given: Type,
    effect: Effect,
}

type Answer = Result<Typed, Refusal>;

/// An answer without effect.
fn pure(given: Type) -> Answer {
    Ok(Typed { given, effect: 0 })
}

/// The slots in scope with their current types. Slot 0 always has a place, in the start block an empty one.
struct Typing<'a> {
    world: &'a World,
    slots: Vec<Type>,
    has_this: bool,
    lookups: Lookups,
}

impl Typing<'_> {
    /// A method: its body, then on the M line 9 where it does not fit the result and 10 where its effect
    /// exceeds the X lines.
    fn method(&mut self, class: u32, method: &Method) -> Result<(), Refusal> {
        self.has_this = true;
        self.slots.clear();
        self.slots.push(Type::Class(class));
        self.slots.extend(method.parameters.iter().map(|line| Type::of_number(line.number)));
        let body = self.expression(&method.body)?;
        if !self.world.fits(body.given, Type::of_number(method.result)) {
            return refuse(number::TYPE, method.line);
        }
        let declared = method.effects.iter().fold(0, |effect, line| effect | effect_of(line.number));
        if body.effect & !declared != 0 {
            return refuse(number::EFFECT, method.line);
        }
        Ok(())
    }

    /// The start block: any type, any effect, no `this`.
    fn start(&mut self, block: &Expr) -> Result<(), Refusal> {
        self.has_this = false;
        self.slots.clear();
        self.slots.push(Type::Class(OBJECT));
        self.expression(block).map(|_| ())
    }

    /// The rule of an expression's letter.
    fn expression(&mut self, expr: &Expr) -> Answer {
        match &expr.node {
            Node::Block { locals, items } => self.block(locals, items),
            Node::True | Node::False => pure(Type::Bool),
            Node::Null => pure(Type::Null),
            Node::Slot { slot } => pure(self.slot_type(*slot, expr.line)?),
            Node::IsNull { value } => self.is_null(expr.line, value),
            Node::Get { name, object } => self.get(expr.line, *name, object),
            Node::Cast { class, value } => self.cast(expr.line, *class, value),
            Node::New { class } => self.new_object(expr.line, *class),
            Node::Change { slot, class } => self.change(expr.line, *slot, *class),
            Node::Assign { slot, value } => self.assign(expr.line, *slot, value),
            Node::Set { name, object, value } => self.set(expr.line, *name, object, value),
            Node::Call { name, receiver, arguments } => self.call(expr.line, *name, receiver, arguments),
            Node::If { condition, then, other } => self.choose(expr.line, condition, then, other),
        }
    }

    /// The current type of a slot in scope, else 7.
    fn slot_type(&self, slot: u32, line: u32) -> Result<Type, Refusal> {
        match self.slots.get(slot as usize) {
            Some(current) if slot != 0 || self.has_this => Ok(*current),
            _ => refuse(number::SLOT, line),
        }
    }

    /// Applies an effect to all slots.
    fn apply_to_slots(&mut self, effect: Effect) {
        if effect != 0 {
            for slot in &mut self.slots {
                *slot = self.world.apply(effect, *slot);
            }
        }
    }

    /// Notes the class that the rule on a line looked at.
    fn note(&mut self, line: u32, class: u32) {
        self.lookups[line as usize - 1] = class as u8;
    }

    /// B: its locals come into scope, its items follow one another, its locals leave; the last item's type.
    fn block(&mut self, locals: &[Named], items: &[Expr]) -> Answer {
        let outside = self.slots.len();
        for local in locals {
            if !self.world.is_type(local.number) {
                return refuse(number::NAME, local.line);
            }
            self.slots.push(Type::of_number(local.number));
        }
        let mut typed = Typed { given: Type::Null, effect: 0 };
        for item in items {
            let next = self.expression(item)?;
            typed = Typed { given: next.given, effect: typed.effect | next.effect };
        }
        self.slots.truncate(outside);
        Ok(typed)
    }

    /// Z: a class or null gives bool.
    fn is_null(&mut self, line: u32, value: &Expr) -> Answer {
        let value = self.expression(value)?;
        match value.given {
            Type::Bool => refuse(number::TYPE, line),
            _ => Ok(Typed { given: Type::Bool, effect: value.effect }),
        }
    }

    /// G: the field's type.
    fn get(&mut self, line: u32, name: u32, object: &Expr) -> Answer {
        let object = self.expression(object)?;
        let Type::Class(class) = object.given else {
            return refuse(number::TYPE, line);
        };
        let Some((_, given)) = self.world.field(class, name) else {
            return refuse(number::MEMBER, line);
        };
        self.note(line, class);
        Ok(Typed { given, effect: object.effect })
    }

    /// K: a class or null gives the cast's class.
    fn cast(&mut self, line: u32, class: u32, value: &Expr) -> Answer {
        let value = self.expression(value)?;
        if !self.world.is_class(class) {
            return refuse(number::NAME, line);
        }
        match value.given {
            Type::Bool => refuse(number::TYPE, line),
            _ => Ok(Typed { given: Type::Class(class), effect: value.effect }),
        }
    }

    /// W: any declared class, and Object.
    fn new_object(&mut self, line: u32, class: u32) -> Answer {
        if !self.world.is_class(class) {
            return refuse(number::NAME, line);
        }
        pure(Type::Class(class))
    }

    /// R: the target is root or state and has the root of the slot's current type; that root is applied to
    /// all slots, then this slot has the target's class.
    fn change(&mut self, line: u32, slot: u32, class: u32) -> Answer {
        if !self.world.is_class(class) {
            return refuse(number::NAME, line);
        }
        let current = self.slot_type(slot, line)?;
        let root = self.world.class(class).root;
        let Type::Class(current) = current else {
            return refuse(number::CHANGE, line);
        };
        if root == 0 || self.world.class(current).root != root {
            return refuse(number::CHANGE, line);
        }
        let effect = effect_of(root);
        self.apply_to_slots(effect);
        self.slots[slot as usize] = Type::Class(class);
        Ok(Typed { given: Type::Class(class), effect })
    }

    /// A: the value fits the slot's current type, which stays; slot 0 is refused.
    fn assign(&mut self, line: u32, slot: u32, value: &Expr) -> Answer {
        let value = self.expression(value)?;
        if slot == 0 {
            return refuse(number::SLOT, line);
        }
        let current = self.slot_type(slot, line)?;
        if !self.world.fits(value.given, current) {
            return refuse(number::TYPE, line);
        }
        Ok(value)
    }

    /// U: the value's effect is applied to the object's type before the field is sought; the value fits the
    /// field; the value's type.
    fn set(&mut self, line: u32, name: u32, object: &Expr, value: &Expr) -> Answer {
        let object = self.expression(object)?;
        let value = self.expression(value)?;
        let Type::Class(class) = self.world.apply(value.effect, object.given) else {
            return refuse(number::TYPE, line);
        };
        let Some((_, wanted)) = self.world.field(class, name) else {
            return refuse(number::MEMBER, line);
        };
        if !self.world.fits(value.given, wanted) {
            return refuse(number::TYPE, line);
        }
        self.note(line, class);
        Ok(Typed { given: value.given, effect: object.effect | value.effect })
    }

    /// Q: receiver and each argument have the effects of later arguments applied before lookup and fit; the
    /// method's effect is then joined in and applied to all slots.
    fn call(&mut self, line: u32, name: u32, receiver: &Expr, arguments: &[Expr]) -> Answer {
        let receiver = self.expression(receiver)?;
        let mut typed = Vec::with_capacity(arguments.len());
        for argument in arguments {
            typed.push(self.expression(argument)?);
        }
        let mut later = 0;
        for argument in typed.iter_mut().rev() {
            argument.given = self.world.apply(later, argument.given);
            later |= argument.effect;
        }
        let Type::Class(class) = self.world.apply(later, receiver.given) else {
            return refuse(number::TYPE, line);
        };
        let world = self.world;
        let Some(method) = world.method(class, name) else {
            return refuse(number::MEMBER, line);
        };
        if method.parameters.len() != typed.len() {
            return refuse(number::MEMBER, line);
        }
        let all_fit = typed
            .iter()
            .zip(&method.parameters)
            .all(|(argument, wanted)| world.fits(argument.given, *wanted));
        if !all_fit {
            return refuse(number::TYPE, line);
        }
        self.note(line, class);
        self.apply_to_slots(method.effect);
        Ok(Typed { given: method.result, effect: receiver.effect | later | method.effect })
    }

    /// J: both arms start alike and are typed before the condition is tested; types and slots join.
    fn choose(&mut self, line: u32, condition: &Expr, then: &Expr, other: &Expr) -> Answer {
        let condition = self.expression(condition)?;
        let before = self.slots.clone();
        let then = self.expression(then)?;
        let after_then = std::mem::replace(&mut self.slots, before);
        let other = self.expression(other)?;
        if condition.given != Type::Bool {
            return refuse(number::TYPE, line);
        }
        let Some(given) = self.world.join(then.given, other.given) else {
            return refuse(number::TYPE, line);
        };
        for (slot, joined) in self.slots.iter_mut().zip(after_then) {
            *slot = self.world.join(*slot, joined).unwrap_or(*slot);
        }
        Ok(Typed { given, effect: condition.effect | then.effect | other.effect })
    }
}
