//! The heading pass: refusals 2 (fields), 4, 5 and 6 in line order. It answers what the headings mean:
//! subclasses, roots, fields and methods of every class.

use crate::rows::{number, refuse, Refusal, BOOL, CHECKED, OBJECT, PLAIN, ROOT, STATE};
use crate::tree::{Class, Expr, Field, Method, Named, Program};

/// The type of an expression: bool, a class (0 for Object) or null. A declared type is never null.
#[derive(Clone, Copy, Debug, PartialEq, Eq)]
pub enum Type {
    Bool,
    Class(u32),
    Null,
}

impl Type {
    /// The type that a type number stands for.
    pub fn of_number(type_number: u32) -> Type {
        if type_number == BOOL {
            Type::Bool
        } else {
            Type::Class(type_number)
        }
    }
}

/// A set of root classes: class c at bit c - 1.
pub type Effect = u64;

/// The effect of one class.
pub fn effect_of(class: u32) -> Effect {
    1 << (class - 1)
}

/// How many names there are.
const NAMES: usize = CHECKED.name as usize + 1;

/// What a class means to its users.
#[derive(Clone, Debug)]
pub struct ClassInfo {
    pub kind: u32,
    pub superclass: u32,
    /// The root of a root or state class, else 0.
    pub root: u32,
    /// The class itself and its superclasses, class c at bit c - 1; Object is not in it.
    above: u64,
    /// Its fields, the superclass's first: name and type.
    pub fields: Vec<(u32, Type)>,
    /// For each name the field's place from 1, or 0.
    field_places: [u8; NAMES],
    /// For each name the method's place in the list of methods from 1, or 0.
    method_places: [u16; NAMES],
}

/// What a method means to its callers.
#[derive(Clone, Debug)]
pub struct MethodInfo {
    pub class: u32,
    /// Its place among the methods of its class.
    pub index: usize,
    pub result: Type,
    pub parameters: Vec<Type>,
    pub effect: Effect,
}

/// What the headings of a program mean.
#[derive(Debug)]
pub struct World {
    /// By class number; Object at 0.
    pub classes: Vec<ClassInfo>,
    pub methods: Vec<MethodInfo>,
}

impl World {
    /// Whether a number is a declared class or Object.
    pub fn is_class(&self, class: u32) -> bool {
        (class as usize) < self.classes.len()
    }

    /// Whether a type number is bool, Object or a declared class.
    pub fn is_type(&self, type_number: u32) -> bool {
        type_number == BOOL || self.is_class(type_number)
    }

    pub fn class(&self, class: u32) -> &ClassInfo {
        &self.classes[class as usize]
    }

    /// Whether `lower` is `upper` or stands below it.
    pub fn is_subclass(&self, lower: u32, upper: u32) -> bool {
        upper == OBJECT || self.class(lower).above & effect_of(upper) != 0
    }

    /// Whether a value of a type fits a declared type.
    pub fn fits(&self, given: Type, wanted: Type) -> bool {
        match (given, wanted) {
            (Type::Bool, Type::Bool) => true,
            (Type::Null, Type::Class(_)) => true,
            (Type::Class(lower), Type::Class(upper)) => self.is_subclass(lower, upper),
            _ => false,
        }
    }

    /// A state class whose root is in the effect becomes that root.
    pub fn apply(&self, effect: Effect, given: Type) -> Type {
        match given {
            Type::Class(class) => {
                let root = self.class(class).root;
                if root != 0 && effect & effect_of(root) != 0 {
                    Type::Class(root)
                } else {
                    given
                }
            }
            _ => given,
        }
    }

    /// The nearest common superclass.
    pub fn common_superclass(&self, one: u32, other: u32) -> u32 {
        let mut class = one;
        while !self.is_subclass(other, class) {
            class = self.class(class).superclass;
        }
        class
    }

    /// Bool joins only bool; null with a class is the class; classes meet at the nearest common superclass.
    pub fn join(&self, one: Type, other: Type) -> Option<Type> {
        match (one, other) {
            (Type::Class(one), Type::Class(other)) => Some(Type::Class(self.common_superclass(one, other))),
            (Type::Bool, Type::Bool) => Some(Type::Bool),
            (Type::Bool, _) | (_, Type::Bool) => None,
            (Type::Null, other) => Some(other),
            (one, Type::Null) => Some(one),
        }
    }

    /// The place (from 0) and the type of a class's field.
    pub fn field(&self, class: u32, name: u32) -> Option<(usize, Type)> {
        let info = self.class(class);
        let place = (info.field_places[name as usize] as usize).checked_sub(1)?;
        Some((place, info.fields[place].1))
    }

    /// The method that a call of a name on an object of a class finds.
    pub fn method(&self, class: u32, name: u32) -> Option<&MethodInfo> {
        let place = (self.class(class).method_places[name as usize] as usize).checked_sub(1)?;
        Some(&self.methods[place])
    }

    /// The body of a method.
    pub fn body<'a>(&self, program: &'a Program, method: &MethodInfo) -> &'a Expr {
        &program.classes[method.class as usize - 1].methods[method.index].body
    }
}

/// The heading pass.
pub fn headings(program: &Program) -> Result<World, Refusal> {
    let mut pass = Headings { program, world: World { classes: Vec::new(), methods: Vec::new() } };
    pass.world.classes.push(object_info());
    for class in &program.classes {
        pass.class(class)?;
    }
    Ok(pass.world)
}

/// Object: a plain class without members.
fn object_info() -> ClassInfo {
    ClassInfo {
        kind: PLAIN,
        superclass: OBJECT,
        root: 0,
        above: 0,
        fields: Vec::new(),
        field_places: [0; NAMES],
        method_places: [0; NAMES],
    }
}

/// The program and what is known of the classes read so far.
struct Headings<'a> {
    program: &'a Program,
    world: World,
}

impl Headings<'_> {
    /// Whether a number is a class declared anywhere in the program, or Object.
    fn is_class(&self, class: u32) -> bool {
        class as usize <= self.program.classes.len()
    }

    fn is_type(&self, type_number: u32) -> bool {
        type_number == BOOL || self.is_class(type_number)
    }

    /// The kind that a declared class's C line gives; Object is plain.
    fn kind_of(&self, class: u32) -> u32 {
        if class == OBJECT {
            PLAIN
        } else {
            self.program.classes[class as usize - 1].kind
        }
    }

    /// A class: its C line, its fields, its methods.
    fn class(&mut self, class: &Class) -> Result<(), Refusal> {
        let own_number = self.world.classes.len() as u32;
        let mut info = self.superclass(class, own_number)?;
        for field in &class.fields {
            self.field(&mut info, field)?;
        }
        let inherited = info.method_places;
        for (index, method) in class.methods.iter().enumerate() {
            self.method(&mut info, &inherited, own_number, index, method)?;
        }
        self.world.classes.push(info);
        Ok(())
    }

    /// The C line: a superclass is Object or an earlier class, else 4; its kind must suit, else 5.
    /// Answers what the class inherits.
    fn superclass(&self, class: &Class, own_number: u32) -> Result<ClassInfo, Refusal> {
        if class.superclass >= own_number {
            return refuse(number::NAME, class.line);
        }
        let above_kind = self.kind_of(class.superclass);
        let suits = match class.kind {
            PLAIN | ROOT => above_kind == PLAIN,
            STATE => above_kind == ROOT || above_kind == STATE,
            _ => false,
        };
        if !suits {
            return refuse(number::KIND, class.line);
        }
        let mut info = self.world.class(class.superclass).clone();
        info.kind = class.kind;
        info.superclass = class.superclass;
        info.above |= effect_of(own_number);
        if class.kind == ROOT {
            info.root = own_number;
        }
        Ok(info)
    }

    /// An F line: 2 past the limit of fields, 4 for its type or a name given twice, 5 for a state class.
    fn field(&self, info: &mut ClassInfo, field: &Field) -> Result<(), Refusal> {
        if info.fields.len() == CHECKED.fields {
            return refuse(number::LIMIT, field.line);
        }
        if !self.is_type(field.type_number) || info.field_places[field.name as usize] != 0 {
            return refuse(number::NAME, field.line);
        }
        if field.type_number != BOOL && self.kind_of(field.type_number) == STATE {
            return refuse(number::KIND, field.line);
        }
        info.fields.push((field.name, Type::of_number(field.type_number)));
        info.field_places[field.name as usize] = info.fields.len() as u8;
        Ok(())
    }

    /// An M line with its P and X lines: 4 for its type or a name given twice in the class, 6 against the
    /// method that it overrides, then the P and X lines.
    fn method(
        &mut self,
        info: &mut ClassInfo,
        inherited: &[u16; NAMES],
        class: u32,
        index: usize,
        method: &Method,
    ) -> Result<(), Refusal> {
        let name = method.name as usize;
        if !self.is_type(method.result) || info.method_places[name] != inherited[name] {
            return refuse(number::NAME, method.line);
        }
        if let Some(place) = (inherited[name] as usize).checked_sub(1) {
            if !overrides(method, &self.world.methods[place]) {
                return refuse(number::OVERRIDE, method.line);
            }
        }
        for parameter in &method.parameters {
            if !self.is_type(parameter.number) {
                return refuse(number::NAME, parameter.line);
            }
        }
        let effect = self.effect(&method.effects)?;
        let parameters = method.parameters.iter().map(|line| Type::of_number(line.number)).collect();
        self.world.methods.push(MethodInfo {
            class,
            index,
            result: Type::of_number(method.result),
            parameters,
            effect,
        });
        info.method_places[name] = self.world.methods.len() as u16;
        Ok(())
    }

    /// The X lines: each a declared class (4), a root and above the one before it (5).
    fn effect(&self, lines: &[Named]) -> Result<Effect, Refusal> {
        let mut effect = 0;
        let mut before = 0;
        for line in lines {
            if !self.is_class(line.number) {
                return refuse(number::NAME, line.line);
            }
            if self.kind_of(line.number) != ROOT || line.number <= before {
                return refuse(number::KIND, line.line);
            }
            before = line.number;
            effect |= effect_of(line.number);
        }
        Ok(effect)
    }
}

/// Whether a method's heading equals the overridden one's and its effect lies within that one's.
fn overrides(method: &Method, overridden: &MethodInfo) -> bool {
    let same_parameters = method.parameters.len() == overridden.parameters.len()
        && method
            .parameters
            .iter()
            .zip(&overridden.parameters)
            .all(|(line, parameter)| Type::of_number(line.number) == *parameter);
    Type::of_number(method.result) == overridden.result
        && same_parameters
        && method.effects.iter().all(|line| is_within(line.number, overridden.effect))
}

/// Whether the number on an X line is in an effect.
fn is_within(class: u32, effect: Effect) -> bool {
    (1..=CHECKED.classes as u32).contains(&class) && effect & effect_of(class) != 0
}
