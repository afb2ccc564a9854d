//! Reads, writes, calls, casts and changes of class in generated bodies.

use super::{Body, Out, Want};
use crate::generate::program::below;
use crate::headings::{effect_of, Type};
use crate::rows::{letter, OBJECT};

impl Body<'_> {
    /// Classes with a field whose type suits, each with the field's name.
    fn fields_for(&self, want: Want) -> Vec<(u32, u32)> {
        let mut found = Vec::new();
        for class in 1..self.world.classes.len() as u32 {
            for (name, declared) in &self.world.class(class).fields {
                if self.suits(*declared, want) {
                    found.push((class, *name));
                }
            }
        }
        found
    }

    /// G.
    pub(super) fn get(&mut self, want: Want, levels: usize) -> Option<Out> {
        let fields = self.fields_for(want);
        let (class, name) = self.choose_of(&fields)?;
        self.row(letter::GET, name, 0);
        let (object, _) = self.object(class, levels - 1);
        let Type::Class(class) = object.given else { return None };
        let (_, given) = self.world.field(class, name)?;
        Some(Out { given, effect: object.effect, sure: given == Type::Bool })
    }

    /// Z, or K to a class that suits; the value is mostly of a class that can pass.
    pub(super) fn cast(&mut self, want: Want, levels: usize) -> Option<Out> {
        let Want::Class(upper) = want else {
            self.row(letter::IS_NULL, 0, 0);
            let value = self.expression(Want::Class(OBJECT), levels - 1);
            return Some(Out { given: Type::Bool, ..value });
        };
        let classes = below(self.world, upper);
        let class = self.random.pick(&classes);
        self.row(letter::CAST, class, 0);
        let near = self.random.chance(85);
        let value = self.expression(Want::Class(if near { class } else { OBJECT }), levels - 1);
        Some(Out { given: Type::Class(class), ..value })
    }

    /// R of a slot or of `this`, where the effect is allowed; about a fifth stays in its own class.
    pub(super) fn change(&mut self, want: Want) -> Option<Out> {
        let slots = self.slots_where(|slot| self.may_change(slot.current));
        let slot = self.choose_of(&slots)?;
        let Type::Class(current) = self.slots[slot as usize].current else { return None };
        let root = self.world.class(current).root;
        let own = self.random.chance(20);
        let targets: Vec<u32> = below(self.world, root)
            .into_iter()
            .filter(|class| self.suits(Type::Class(*class), want) && (!own || *class == current))
            .collect();
        let class = self.choose_of(&targets)?;
        Some(self.change_slot(slot, class))
    }

    /// A field of a slot's object set just before its class is changed.
    pub(super) fn set_and_change(&mut self, want: Want, levels: usize) -> Option<Out> {
        let slots = self.slots_where(|slot| slot.sure && self.may_change(slot.current));
        let slot = self.choose_of(&slots)?;
        let current = self.slots[slot as usize].current;
        let Type::Class(class) = current else { return None };
        if levels < 4 {
            return None;
        }
        let fields = self.world.class(class).fields.clone();
        let (name, declared) = self.choose_of(&fields)?;
        self.row(letter::BLOCK, 0, 2);
        self.row(letter::SET, name, 0);
        self.row(letter::SLOT, slot, 0);
        let value = self.value(declared, levels - 2);
        let Type::Class(class) = self.world.apply(value.effect, current) else { return None };
        self.world.field(class, name)?;
        let Type::Class(class) = self.slots[slot as usize].current else { return None };
        let targets: Vec<u32> = below(self.world, self.world.class(class).root)
            .into_iter()
            .filter(|class| self.suits(Type::Class(*class), want))
            .collect();
        let target = self.choose_of(&targets)?;
        let changed = self.change_slot(slot, target);
        Some(Out { effect: value.effect | changed.effect, ..changed })
    }

    fn may_change(&self, current: Type) -> bool {
        match current {
            Type::Class(class) => {
                let root = self.world.class(class).root;
                root != 0 && self.allowed & effect_of(root) != 0
            }
            _ => false,
        }
    }

    fn change_slot(&mut self, slot: u32, class: u32) -> Out {
        self.row(letter::CHANGE, slot, class);
        let effect = effect_of(self.world.class(class).root);
        self.apply_to_slots(effect);
        self.slots[slot as usize].current = Type::Class(class);
        Out { given: Type::Class(class), effect, sure: self.slots[slot as usize].sure }
    }

    /// A value in front of which a slot changes its class, where it may.
    fn value_after_change(&mut self, slot: u32, declared: Type, levels: usize) -> Out {
        let current = self.slots[slot as usize].current;
        let Type::Class(class) = current else { return self.value(declared, levels) };
        if levels < 3 || !self.may_change(current) {
            return self.value(declared, levels);
        }
        let targets = below(self.world, self.world.class(class).root);
        let target = self.random.pick(&targets);
        self.row(letter::BLOCK, 0, 2);
        let changed = self.change_slot(slot, target);
        let value = self.value(declared, levels - 1);
        Out { effect: changed.effect | value.effect, ..value }
    }

    /// A value for an object that may be changed meanwhile.
    pub(super) fn operand(&mut self, slot: Option<u32>, declared: Type, levels: usize) -> Out {
        match slot {
            Some(slot) if self.random.chance(25) => self.value_after_change(slot, declared, levels),
            _ => self.value(declared, levels),
        }
    }

    /// U.
    pub(super) fn set(&mut self, want: Want, levels: usize) -> Option<Out> {
        let fields = self.fields_for(want);
        let (class, name) = self.choose_of(&fields)?;
        let (_, declared) = self.world.field(class, name)?;
        self.row(letter::SET, name, 0);
        let (object, slot) = self.object(class, levels - 1);
        let value = self.operand(slot, declared, levels - 1);
        let out = Out { effect: object.effect | value.effect, ..value };
        match self.world.apply(value.effect, object.given) {
            Type::Class(class) if self.takes(class, name, value.given) => Some(out),
            _ => self.near_miss(out),
        }
    }

    /// Whether a class has a field of a name, and a value of a type fits it.
    fn takes(&self, class: u32, name: u32, given: Type) -> bool {
        self.world.field(class, name).is_some_and(|(_, declared)| self.world.fits(given, declared))
    }

    /// Q.
    pub(super) fn call(&mut self, want: Want, levels: usize) -> Option<Out> {
        let (world, again) = (self.world, self.random.chance(4));
        let methods: Vec<(u32, u32)> = (self.methods.iter().zip(&world.methods))
            .filter(|((_, name), method)| {
                (*name < self.rank || again)
                    && method.effect & !self.allowed == 0
                    && self.suits(method.result, want)
            })
            .map(|(method, _)| *method)
            .collect();
        let (class, name) = self.choose_of(&methods)?;
        let parameters = world.method(class, name)?.parameters.clone();
        self.row(letter::CALL, name, parameters.len() as u32);
        let (receiver, slot) = self.object(class, levels - 1);
        let arguments: Vec<Out> =
            parameters.iter().map(|declared| self.operand(slot, *declared, levels - 1)).collect();
        let mut out = Out { given: world.method(class, name)?.result, effect: receiver.effect, sure: false };
        let mut later = 0;
        let mut all_fit = true;
        for (argument, declared) in arguments.iter().zip(&parameters).rev() {
            all_fit &= world.fits(world.apply(later, argument.given), *declared);
            later |= argument.effect;
        }
        out.effect |= later;
        let found = match world.apply(later, receiver.given) {
            Type::Class(class) => world.method(class, name),
            _ => None,
        };
        let Some(method) = found.filter(|method| all_fit && method.parameters == parameters) else {
            return self.near_miss(out);
        };
        if method.effect & !self.allowed != 0 {
            return None;
        }
        self.apply_to_slots(method.effect);
        let effect = out.effect | method.effect;
        Some(Out { given: method.result, effect, sure: method.result == Type::Bool })
    }
}
