//! The evaluator: a run of an accepted program with fuel and a lent store
//! (document 01, "Evaluation"; 002, Figures 3 to 6).

use crate::check::{accept, Accepted};
use crate::headings::Type;
use crate::rows::{
    number, refuse, whole_rows, Refusal, CALLS_MOST, CHECKED, FUEL_MOST, OBJECTS_MOST, OBJECT_WIDTH,
};
use crate::tree::{Expr, Named, Node};

/// Exception of a null object.
pub const NULL_OBJECT: u32 = 1;
/// Exception of a cast to a wrong class.
pub const WRONG_CLASS: u32 = 2;
/// The stored number of the j-th object is j more than this.
const OBJECT_BASE: u32 = 2;

/// A value; objects are numbered from 1 in the order in which they were made.
#[derive(Clone, Copy, Debug, PartialEq, Eq)]
pub enum Value {
    Null,
    False,
    True,
    Object(u32),
}

impl Value {
    /// The value that a stored number stands for.
    pub fn of_number(stored: u32) -> Value {
        match stored {
            0 => Value::Null,
            1 => Value::False,
            2 => Value::True,
            3.. => Value::Object(stored - OBJECT_BASE),
        }
    }

    /// The number under which a value is stored.
    pub fn number(self) -> u32 {
        match self {
            Value::Null => 0,
            Value::False => 1,
            Value::True => 2,
            Value::Object(object) => OBJECT_BASE + object,
        }
    }

    /// False or null, by the type.
    fn first_of(declared: Type) -> Value {
        match declared {
            Type::Bool => Value::False,
            _ => Value::Null,
        }
    }

    fn of_bool(truth: bool) -> Value {
        if truth {
            Value::True
        } else {
            Value::False
        }
    }
}

/// How a run ended: a value, exception 1 or 2, or stop 14, 15 or 16.
#[derive(Clone, Copy, Debug, PartialEq, Eq)]
pub enum Outcome {
    Value(Value),
    Exception(u32),
    Stop(u32),
}

/// The answer of a run: the outcome, nodes entered, objects made and changes of class.
#[derive(Clone, Copy, Debug, PartialEq, Eq)]
pub struct Run {
    pub outcome: Outcome,
    pub steps: u64,
    pub objects: u32,
    pub changes: u64,
}

/// Runs a program: the fuel limit, the check, then the evaluation.
pub fn run_rows(rows: &[u32], fuel: u64, store: &mut [u32]) -> Result<Run, Refusal> {
    whole_rows(rows)?;
    if fuel > FUEL_MOST {
        return refuse(number::LIMIT, 0);
    }
    let accepted = accept(rows)?;
    Ok(run(&accepted, fuel, store))
}

/// Runs an accepted program.
pub fn run(accepted: &Accepted, fuel: u64, store: &mut [u32]) -> Run {
    let capacity = (store.len() / OBJECT_WIDTH).min(OBJECTS_MOST);
    let mut machine = Machine {
        accepted,
        store,
        capacity,
        fuel,
        slots: vec![Value::Null],
        base: 0,
        calls: 0,
        objects: 0,
        changes: 0,
    };
    let outcome = match machine.expression(&accepted.program.start) {
        Ok(value) => Outcome::Value(value),
        Err(End::Exception(exception)) => Outcome::Exception(exception),
        Err(End::Stop(stop)) => Outcome::Stop(stop),
    };
    Run { outcome, steps: fuel - machine.fuel, objects: machine.objects, changes: machine.changes }
}

/// Runs something on a stack that is large enough for the deepest evaluation.
pub fn on_large_stack<T: Send>(work: impl FnOnce() -> T + Send) -> T {
    const STACK: usize = 256 << 20;
    std::thread::scope(|scope| {
        let worker = std::thread::Builder::new().stack_size(STACK).spawn_scoped(scope, work);
        worker.expect("a thread").join().unwrap_or_else(|panic| std::panic::resume_unwind(panic))
    })
}

/// What ends a run before its value.
enum End {
    Exception(u32),
    Stop(u32),
}

type Answer = Result<Value, End>;

/// The state of a run. The slots of all active calls stand on one stack; the current call's begin at `base`.
struct Machine<'a> {
    accepted: &'a Accepted,
    store: &'a mut [u32],
    capacity: usize,
    fuel: u64,
    slots: Vec<Value>,
    base: usize,
    calls: usize,
    objects: u32,
    changes: u64,
}

impl<'a> Machine<'a> {
    /// Enters a node, which costs one fuel, and evaluates it by its letter.
    fn expression(&mut self, expr: &'a Expr) -> Answer {
        if self.fuel == 0 {
            return Err(End::Stop(number::SPENT));
        }
        self.fuel -= 1;
        match &expr.node {
            Node::Block { locals, items } => self.block(locals, items),
            Node::True => Ok(Value::True),
            Node::False => Ok(Value::False),
            Node::Null => Ok(Value::Null),
            Node::Slot { slot } => Ok(self.slots[self.base + *slot as usize]),
            Node::IsNull { value } => Ok(Value::of_bool(self.expression(value)? == Value::Null)),
            Node::Get { name, object } => self.get(*name, object),
            Node::Cast { class, value } => self.cast(*class, value),
            Node::New { class } => self.new_object(*class),
            Node::Change { slot, class } => Ok(self.change(*slot, *class)),
            Node::Assign { slot, value } => {
                let value = self.expression(value)?;
                self.slots[self.base + *slot as usize] = value;
                Ok(value)
            }
            Node::Set { name, object, value } => self.set(*name, object, value),
            Node::Call { name, receiver, arguments } => self.call(*name, receiver, arguments),
            Node::If { condition, then, other } => match self.expression(condition)? {
                Value::True => self.expression(then),
                _ => self.expression(other),
            },
        }
    }

    /// B: its locals hold their first values, its items follow one another, its locals go.
    fn block(&mut self, locals: &'a [Named], items: &'a [Expr]) -> Answer {
        let outside = self.slots.len();
        self.slots.extend(locals.iter().map(|local| Value::first_of(Type::of_number(local.number))));
        let mut last = Value::Null;
        for item in items {
            last = self.expression(item)?;
        }
        self.slots.truncate(outside);
        Ok(last)
    }

    /// The object's 18 numbers.
    fn object(&mut self, object: u32) -> &mut [u32] {
        let at = (object as usize - 1) * OBJECT_WIDTH;
        &mut self.store[at..at + OBJECT_WIDTH]
    }

    /// The place of a field in an object's numbers.
    fn field_place(&mut self, object: u32, name: u32) -> usize {
        let class = self.object(object)[0];
        1 + self.accepted.world.field(class, name).expect("a checked field").0
    }

    /// G: exception 1 on null, else the field.
    fn get(&mut self, name: u32, object: &'a Expr) -> Answer {
        let Value::Object(object) = self.expression(object)? else {
            return Err(End::Exception(NULL_OBJECT));
        };
        let place = self.field_place(object, name);
        Ok(Value::of_number(self.object(object)[place]))
    }

    /// K: null passes; an object of another class than the cast's or one below it is exception 2.
    fn cast(&mut self, class: u32, value: &'a Expr) -> Answer {
        let value = self.expression(value)?;
        if let Value::Object(object) = value {
            let own = self.object(object)[0];
            if !self.accepted.world.is_subclass(own, class) {
                return Err(End::Exception(WRONG_CLASS));
            }
        }
        Ok(value)
    }

    /// W: stop 16 with the capacity used, else a new object with first values.
    fn new_object(&mut self, class: u32) -> Answer {
        if self.objects as usize == self.capacity {
            return Err(End::Stop(number::FULL));
        }
        self.objects += 1;
        self.become_class(self.objects, class, 0);
        Ok(Value::Object(self.objects))
    }

    /// R: null stays null; the object keeps its first fields, those of the root, and has the class's others
    /// with their first values.
    fn change(&mut self, slot: u32, class: u32) -> Value {
        let value = self.slots[self.base + slot as usize];
        if let Value::Object(object) = value {
            let world = &self.accepted.world;
            let kept = world.class(world.class(class).root).fields.len();
            self.become_class(object, class, kept);
            self.changes += 1;
        }
        value
    }

    /// Gives an object a class: the first fields are kept, the others get first values, unused ones are 0.
    fn become_class(&mut self, object: u32, class: u32, kept: usize) {
        let fields = &self.accepted.world.class(class).fields;
        let numbers = self.object(object);
        numbers[0] = class;
        for (place, number) in numbers[1..].iter_mut().enumerate().skip(kept) {
            *number = fields.get(place).map_or(0, |(_, declared)| Value::first_of(*declared).number());
        }
    }

    /// U: object and value first, then exception 1 on null, else the write.
    fn set(&mut self, name: u32, object: &'a Expr, value: &'a Expr) -> Answer {
        let object = self.expression(object)?;
        let value = self.expression(value)?;
        let Value::Object(object) = object else {
            return Err(End::Exception(NULL_OBJECT));
        };
        let place = self.field_place(object, name);
        self.object(object)[place] = value.number();
        Ok(value)
    }

    /// Q: receiver and arguments first, then exception 1 on null, then stop 15 with 64 calls active.
    fn call(&mut self, name: u32, receiver: &'a Expr, arguments: &'a [Expr]) -> Answer {
        let receiver = self.expression(receiver)?;
        let mut values = [Value::Null; CHECKED.parameters];
        for (value, argument) in values.iter_mut().zip(arguments) {
            *value = self.expression(argument)?;
        }
        let Value::Object(object) = receiver else {
            return Err(End::Exception(NULL_OBJECT));
        };
        if self.calls == CALLS_MOST {
            return Err(End::Stop(number::DEEP));
        }
        let outside = (self.slots.len(), self.base);
        self.slots.push(receiver);
        self.slots.extend_from_slice(&values[..arguments.len()]);
        self.base = outside.0;
        self.calls += 1;
        let class = self.object(object)[0];
        let accepted = self.accepted;
        let method = accepted.world.method(class, name).expect("a checked method");
        let result = self.expression(accepted.world.body(&accepted.program, method))?;
        self.calls -= 1;
        self.base = outside.1;
        self.slots.truncate(outside.0);
        Ok(result)
    }
}
