//! The promise on translated programs, tried on one program: the translation is accepted, and source and plain
//! run end alike with matching objects (document 01, "The plain program").

use crate::check::accept;
use crate::machine::{run, Outcome, Run, Value};
use crate::plain::{translation, IDENTITY};
use crate::random::Random;
use crate::rows::{number, FUEL_MOST, OBJECTS_MOST, OBJECT_WIDTH, TRANSLATED};

/// The most plain steps for one source step.
pub const STEPS_FOR_ONE: u64 = 84;

/// What a trial was about, where nothing disagreed.
#[derive(Clone, Copy, Debug, PartialEq, Eq)]
pub enum Agreement {
    /// The program is refused by the check or the translator, so that nothing is promised.
    Refused,
    /// The source run was cut by fuel or room.
    Cut,
    /// The source run ended.
    Ended(Run),
}

/// Tries a program, the source on the given fuel and a store of so many objects. An error says what disagrees.
pub fn agree(rows: &[u32], fuel: u64, capacity: usize, random: &mut Random) -> Result<Agreement, String> {
    let Ok(plain_rows) = translation(rows) else {
        return Ok(Agreement::Refused);
    };
    let source = accept(rows).map_err(|refusal| format!("translated, yet refused: {refusal:?}"))?;
    let plain = accept(&plain_rows).map_err(|refusal| format!("the translation is refused: {refusal:?}"))?;
    let pair = Pair {
        source: &|fuel, store| run(&source, fuel, store),
        plain: &|fuel, store| run(&plain, fuel, store),
    };
    let agreement = pair.forth(fuel, capacity, random)?;
    pair.back(random.below(fuel as usize + 1) as u64, random.below(2 * capacity + 1), random)?;
    pair.back(fuel, 3 * capacity, random)?;
    Ok(agreement)
}

type Runner<'a> = &'a dyn Fn(u64, &mut [u32]) -> Run;

/// A program and its translation.
struct Pair<'a> {
    source: Runner<'a>,
    plain: Runner<'a>,
}

impl Pair<'_> {
    /// A source run that ends: its translation ends alike, on 84 times the fuel and a store for 2n + r objects,
    /// makes just these and changes none, and every object matches; on a larger store too.
    fn forth(&self, fuel: u64, capacity: usize, random: &mut Random) -> Result<Agreement, String> {
        let mut source_store = garbage(capacity, random);
        let source = kept_garbage(self.source, fuel, &mut source_store)?;
        if !has_ended(&source) {
            return Ok(Agreement::Cut);
        }
        let needed = 2 * source.objects as usize + source.changes as usize;
        let plain_fuel = STEPS_FOR_ONE * fuel;
        if needed > OBJECTS_MOST || plain_fuel > FUEL_MOST {
            return Ok(Agreement::Cut);
        }
        for room in [needed, needed + 1 + random.below(20)] {
            let mut plain_store = garbage(room, random);
            let plain = kept_garbage(self.plain, plain_fuel, &mut plain_store)?;
            if plain.objects as usize != needed || plain.changes != 0 {
                return Err(format!("counts: source {source:?}, plain {plain:?}"));
            }
            if plain.steps < source.steps || plain.steps > STEPS_FOR_ONE * source.steps {
                return Err(format!("steps: source {source:?}, plain {plain:?}"));
            }
            ends_match(&source, &source_store, &plain, &plain_store)?;
        }
        Ok(Agreement::Ended(source))
    }

    /// A plain run that ends: the source ends alike, on the same fuel and a store for as many objects as the
    /// plain run made.
    fn back(&self, fuel: u64, capacity: usize, random: &mut Random) -> Result<(), String> {
        let mut plain_store = garbage(capacity, random);
        let plain = kept_garbage(self.plain, fuel, &mut plain_store)?;
        if !has_ended(&plain) {
            return Ok(());
        }
        let mut source_store = garbage(plain.objects as usize, random);
        let source = kept_garbage(self.source, fuel, &mut source_store)?;
        ends_match(&source, &source_store, &plain, &plain_store)
    }
}

/// Whether a run ended in a value, an exception or too deep.
fn has_ended(run: &Run) -> bool {
    !matches!(run.outcome, Outcome::Stop(number::SPENT | number::FULL))
}

/// A store for so many objects, and a few numbers more, holding anything.
fn garbage(objects: usize, random: &mut Random) -> Vec<u32> {
    let length = objects * OBJECT_WIDTH + random.below(OBJECT_WIDTH);
    let wild = random.chance(50);
    (0..length).map(|_| if wild { random.bits() as u32 } else { random.below(8) as u32 }).collect()
}

/// Runs, and sees that what holds no made object is as it was.
fn kept_garbage(runner: Runner, fuel: u64, store: &mut [u32]) -> Result<Run, String> {
    let before = store.to_vec();
    let run = runner(fuel, store);
    let made = run.objects as usize * OBJECT_WIDTH;
    if store[made..] != before[made..] {
        return Err(format!("numbers past the made objects were changed: {run:?}"));
    }
    if run.steps > fuel {
        return Err(format!("more steps than fuel: {run:?}"));
    }
    Ok(run)
}

/// The number at a place of an object in a store; objects count from 1.
fn at(store: &[u32], object: u32, place: usize) -> u32 {
    store[(object as usize - 1) * OBJECT_WIDTH + place]
}

/// Two ended runs end alike, and each source object matches the Identity made in its place.
fn ends_match(source: &Run, source_store: &[u32], plain: &Run, plain_store: &[u32]) -> Result<(), String> {
    let identities: Vec<u32> =
        (1..=plain.objects).filter(|object| at(plain_store, *object, 0) == IDENTITY).collect();
    let alike = match (source.outcome, plain.outcome) {
        (Outcome::Value(value), Outcome::Value(other)) => corresponds(value, other, &identities),
        (Outcome::Exception(exception), Outcome::Exception(other)) => exception == other,
        (Outcome::Stop(number::DEEP), Outcome::Stop(number::DEEP)) => true,
        _ => false,
    };
    if !alike {
        return Err(format!("ends: source {source:?}, plain {plain:?}"));
    }
    if identities.len() != source.objects as usize {
        return Err(format!("{} Identities: source {source:?}, plain {plain:?}", identities.len()));
    }
    for (object, identity) in (1..=source.objects).zip(&identities) {
        if !object_matches(object, source_store, *identity, plain_store, plain.objects, &identities) {
            return Err(format!("object {object}: source {source:?}, plain {plain:?}"));
        }
    }
    Ok(())
}

/// Both null, the same truth value, or object j and the j-th Identity made.
fn corresponds(value: Value, plain: Value, identities: &[u32]) -> bool {
    match (value, plain) {
        (Value::Object(object), Value::Object(other)) => identities.get(object as usize - 1) == Some(&other),
        _ => value == plain,
    }
}

/// The Identity's implementor has the object's class, that Identity as `id`, and fields that correspond.
fn object_matches(
    object: u32,
    source: &[u32],
    identity: u32,
    plain: &[u32],
    made: u32,
    identities: &[u32],
) -> bool {
    let Value::Object(implementor) = Value::of_number(at(plain, identity, 1)) else {
        return false;
    };
    implementor <= made
        && at(plain, implementor, 0) == at(source, object, 0) + 2
        && Value::of_number(at(plain, implementor, 1)) == Value::Object(identity)
        && (1..=TRANSLATED.fields).all(|place| {
            let value = Value::of_number(at(source, object, place));
            corresponds(value, Value::of_number(at(plain, implementor, place + 1)), identities)
        })
}
