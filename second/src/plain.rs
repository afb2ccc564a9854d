//! The translator: an accepted program as a plain one (document 01, "The plain program").

use crate::check::{accept, Accepted};
use crate::headings::Type;
use crate::rows::{letter, number, refuse, Refusal, BOOL, ID, IMP, PLAIN, ROW_WIDTH};
use crate::tree::{Class, Expr, Method, Named, Node};

mod limits;
use limits::{over_limit, reserved};

/// Class Identity of a plain program, which is also what declared class types become.
pub const IDENTITY: u32 = 1;
/// Class FickleObject of a plain program, which is also what Object becomes.
pub const FICKLE_OBJECT: u32 = 2;
/// Classes that every plain program has before its own.
const ADDED_CLASSES: u32 = 2;

/// Translates a program into lent rows. Answers the count of rows written.
/// The check first, then the translator's limits in line order, then 12, then 13.
pub fn translate_rows(rows: &[u32], plain: &mut [u32]) -> Result<usize, Refusal> {
    let translated = translation(rows)?;
    if translated.len() > plain.len() {
        return refuse(number::ROOM, 0);
    }
    plain[..translated.len()].copy_from_slice(&translated);
    Ok(translated.len() / ROW_WIDTH)
}

/// The rows of the translation.
pub fn translation(rows: &[u32]) -> Result<Vec<u32>, Refusal> {
    let accepted = accept(rows)?;
    if let Some(line) = over_limit(&accepted, rows.len() / ROW_WIDTH) {
        return refuse(number::LIMIT, line);
    }
    if let Some(line) = reserved(&accepted.program) {
        return refuse(number::RESERVED, line);
    }
    let mut plain = Plain { accepted: &accepted, rows: Vec::new(), slots: Vec::new(), scope: 0 };
    plain.program();
    Ok(plain.rows)
}

/// The type number that a declared type becomes: bool stays, a class becomes Identity.
fn plain_type(declared: Type) -> u32 {
    match declared {
        Type::Bool => BOOL,
        _ => IDENTITY,
    }
}

/// The class that a class becomes as superclass, cast or W; Object becomes FickleObject.
fn plain_class(class: u32) -> u32 {
    class + ADDED_CLASSES
}

/// The rows written so far and, for the body at hand, the plain slot of each source slot in scope and the
/// count of plain slots in scope.
struct Plain<'a> {
    accepted: &'a Accepted,
    rows: Vec<u32>,
    slots: Vec<u32>,
    scope: u32,
}

impl Plain<'_> {
    fn row(&mut self, letter: u32, first: u32, second: u32) {
        self.rows.extend_from_slice(&[letter, first, second, 0]);
    }

    /// Identity, FickleObject, the classes, the start.
    fn program(&mut self) {
        self.row(letter::CLASS, PLAIN, 0);
        self.row(letter::FIELD, FICKLE_OBJECT, IMP);
        self.row(letter::CLASS, PLAIN, 0);
        self.row(letter::FIELD, IDENTITY, ID);
        let accepted = self.accepted;
        for class in &accepted.program.classes {
            self.class(class);
        }
        self.row(letter::START, 0, 0);
        self.body(&accepted.program.start, 0);
    }

    /// A class becomes plain; its declared types change.
    fn class(&mut self, class: &Class) {
        self.row(letter::CLASS, PLAIN, plain_class(class.superclass));
        for field in &class.fields {
            self.row(letter::FIELD, plain_type(Type::of_number(field.type_number)), field.name);
        }
        for method in &class.methods {
            self.method(method);
        }
    }

    /// A method without its X lines.
    fn method(&mut self, method: &Method) {
        self.row(letter::METHOD, plain_type(Type::of_number(method.result)), method.name);
        for parameter in &method.parameters {
            self.row(letter::PARAMETER, plain_type(Type::of_number(parameter.number)), 0);
        }
        self.body(&method.body, method.parameters.len() as u32);
    }

    /// An outer block: slot 0 and the parameters keep their numbers.
    fn body(&mut self, block: &Expr, parameters: u32) {
        self.slots = (0..=parameters).collect();
        self.scope = parameters + 1;
        self.expression(block);
    }

    /// The translation of an expression by its letter.
    fn expression(&mut self, expr: &Expr) {
        match &expr.node {
            Node::Block { locals, items } => self.block(locals, items),
            Node::True => self.row(letter::TRUE, 0, 0),
            Node::False => self.row(letter::FALSE, 0, 0),
            Node::Null => self.row(letter::NULL, 0, 0),
            Node::Slot { slot: 0 } => self.this(),
            Node::Slot { slot } => self.row(letter::SLOT, self.slots[*slot as usize], 0),
            Node::IsNull { value } => {
                self.row(letter::IS_NULL, 0, 0);
                self.expression(value);
            }
            Node::Get { name, object } => self.get(expr.line, *name, object),
            Node::Cast { class, value } => self.cast(*class, value),
            Node::New { class } => self.new_object(*class),
            Node::Change { slot, class } => self.change(*slot, *class),
            Node::Assign { slot, value } => {
                self.row(letter::ASSIGN, self.slots[*slot as usize], 0);
                self.expression(value);
            }
            Node::Set { name, object, value } => self.set(expr.line, *name, object, value),
            Node::Call { name, receiver, arguments } => self.call(expr.line, *name, receiver, arguments),
            Node::If { condition, then, other } => {
                self.row(letter::IF, 0, 0);
                self.expression(condition);
                self.expression(then);
                self.expression(other);
            }
        }
    }

    /// B: node for node, its locals' types changed.
    fn block(&mut self, locals: &[Named], items: &[Expr]) {
        self.row(letter::BLOCK, locals.len() as u32, items.len() as u32);
        let outside = (self.slots.len(), self.scope);
        for local in locals {
            self.row(letter::LOCAL, plain_type(Type::of_number(local.number)), 0);
            self.slots.push(self.scope);
            self.scope += 1;
        }
        for item in items {
            self.expression(item);
        }
        self.slots.truncate(outside.0);
        self.scope = outside.1;
    }

    /// Opens a block of temporaries of the given type numbers and so many items. Answers the first slot.
    fn open(&mut self, temporaries: &[u32], items: usize) -> u32 {
        self.row(letter::BLOCK, temporaries.len() as u32, items as u32);
        for temporary in temporaries {
            self.row(letter::LOCAL, *temporary, 0);
        }
        let first = self.scope;
        self.scope += temporaries.len() as u32;
        first
    }

    /// Closes a block of so many temporaries.
    fn close(&mut self, temporaries: usize) {
        self.scope -= temporaries as u32;
    }

    /// `this`: its `id`.
    fn this(&mut self) {
        self.row(letter::GET, ID, 0);
        self.row(letter::SLOT, 0, 0);
    }

    /// The class that the check looked at on a line.
    fn looked_at(&self, line: u32) -> u32 {
        u32::from(self.accepted.lookups[line as usize - 1])
    }

    /// The cast of an Identity's `imp` to a class; the Identity's expression follows.
    fn implementor(&mut self, class: u32) {
        self.row(letter::CAST, plain_class(class), 0);
        self.row(letter::GET, IMP, 0);
    }

    /// G: read from the cast of the child's `imp` to the child's class.
    fn get(&mut self, line: u32, name: u32, object: &Expr) {
        self.row(letter::GET, name, 0);
        self.implementor(self.looked_at(line));
        self.expression(object);
    }

    /// K: if null(t = child) then null, else `id` of the cast of t's `imp`.
    fn cast(&mut self, class: u32, value: &Expr) {
        let t = self.open(&[IDENTITY], 1);
        self.row(letter::IF, 0, 0);
        self.row(letter::IS_NULL, 0, 0);
        self.row(letter::ASSIGN, t, 0);
        self.expression(value);
        self.row(letter::NULL, 0, 0);
        self.row(letter::GET, ID, 0);
        self.implementor(class);
        self.row(letter::SLOT, t, 0);
        self.close(1);
    }

    /// W: i = new, o = new, o's `id` = i, i's `imp` = o, i.
    fn new_object(&mut self, class: u32) {
        let i = self.open(&[IDENTITY, plain_class(class)], 5);
        let o = i + 1;
        self.row(letter::ASSIGN, i, 0);
        self.row(letter::NEW, IDENTITY, 0);
        self.row(letter::ASSIGN, o, 0);
        self.row(letter::NEW, plain_class(class), 0);
        self.set_slot_field(o, ID, i);
        self.set_slot_field(i, IMP, o);
        self.row(letter::SLOT, i, 0);
        self.close(2);
    }

    /// A field of one slot's object set to another slot's value.
    fn set_slot_field(&mut self, object: u32, name: u32, value: u32) {
        self.row(letter::SET, name, 0);
        self.row(letter::SLOT, object, 0);
        self.row(letter::SLOT, value, 0);
    }

    /// What U and Q begin with: i = object, then a temporary for each value. Answers i's slot.
    fn operands(&mut self, object: &Expr, types: &[Type], values: &[&Expr]) -> u32 {
        let mut temporaries = vec![IDENTITY];
        temporaries.extend(types.iter().map(|declared| plain_type(*declared)));
        let i = self.open(&temporaries, values.len() + 2);
        self.row(letter::ASSIGN, i, 0);
        self.expression(object);
        for (temporary, value) in (i + 1..).zip(values) {
            self.row(letter::ASSIGN, temporary, 0);
            self.expression(value);
        }
        i
    }

    /// What U and Q act on: the cast of i's `imp` to the class used for lookup.
    fn operated(&mut self, class: u32, i: u32) {
        self.implementor(class);
        self.row(letter::SLOT, i, 0);
    }

    /// U: the object and the value first, then the write.
    fn set(&mut self, line: u32, name: u32, object: &Expr, value: &Expr) {
        let class = self.looked_at(line);
        let declared = self.accepted.world.field(class, name).expect("a checked field").1;
        let i = self.operands(object, &[declared], &[value]);
        self.row(letter::SET, name, 0);
        self.operated(class, i);
        self.row(letter::SLOT, i + 1, 0);
        self.close(2);
    }

    /// Q: the receiver and the arguments first, then the call.
    fn call(&mut self, line: u32, name: u32, receiver: &Expr, arguments: &[Expr]) {
        let class = self.looked_at(line);
        let accepted = self.accepted;
        let method = accepted.world.method(class, name).expect("a checked method");
        let values: Vec<&Expr> = arguments.iter().collect();
        let i = self.operands(receiver, &method.parameters, &values);
        self.row(letter::CALL, name, values.len() as u32);
        self.operated(class, i);
        for temporary in (i + 1..).take(values.len()) {
            self.row(letter::SLOT, temporary, 0);
        }
        self.close(1 + values.len());
    }

    /// R of a slot: if null(i = slot) then null, else the renewal; then i.
    /// R of `this`: i = `this`'s `id`, the renewal, then i.
    fn change(&mut self, slot: u32, class: u32) {
        let root = self.accepted.world.class(class).root;
        let temporaries = [IDENTITY, plain_class(class), plain_class(root)];
        let i = self.open(&temporaries, if slot == 0 { 3 } else { 2 });
        if slot == 0 {
            self.row(letter::ASSIGN, i, 0);
            self.this();
        } else {
            self.row(letter::IF, 0, 0);
            self.row(letter::IS_NULL, 0, 0);
            self.row(letter::ASSIGN, i, 0);
            self.row(letter::SLOT, self.slots[slot as usize], 0);
            self.row(letter::NULL, 0, 0);
        }
        self.renewal(i, class, root);
        self.row(letter::SLOT, i, 0);
        self.close(3);
    }

    /// R's inner block: o = new, p = cast of i's `imp` to the root, o's `id` = i, i's `imp` = o, each root
    /// field copied from p to o in order, i.
    fn renewal(&mut self, i: u32, class: u32, root: u32) {
        let (o, p) = (i + 1, i + 2);
        let copied = &self.accepted.world.class(root).fields;
        self.row(letter::BLOCK, 0, 5 + copied.len() as u32);
        self.row(letter::ASSIGN, o, 0);
        self.row(letter::NEW, plain_class(class), 0);
        self.row(letter::ASSIGN, p, 0);
        self.implementor(root);
        self.row(letter::SLOT, i, 0);
        self.set_slot_field(o, ID, i);
        self.set_slot_field(i, IMP, o);
        for (name, _) in copied {
            self.row(letter::SET, *name, 0);
            self.row(letter::SLOT, o, 0);
            self.row(letter::GET, *name, 0);
            self.row(letter::SLOT, p, 0);
        }
        self.row(letter::SLOT, i, 0);
    }
}
