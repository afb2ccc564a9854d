//! `sigvolar price`: what a model's labels cost on a day, by price terms.

use crate::arguments::{Argument, Arguments};
use crate::lines::{told, No};
use crate::output::print;
use crate::terms::{model, Terms, When, WHEN};
use crate::{Status, Trouble};
use std::ffi::{OsStr, OsString};

/// What is asked for.
struct Asked<'a> {
    terms: &'a OsStr,
    model: u32,
    when: When,
    why: bool,
}

pub fn command(rest: &[OsString]) -> Result<Status, Trouble> {
    let asked = asked(rest)?;
    let terms = Terms::read(asked.terms)?;
    told(priced(&terms, &asked))
}

fn asked(rest: &[OsString]) -> Result<Asked<'_>, Trouble> {
    let mut arguments = Arguments::new("price", rest);
    let (mut given, mut why) = (Vec::new(), false);
    while let Some(argument) = arguments.next() {
        match argument {
            Argument::File(file) => given.push(file),
            Argument::Option(option, None) if option == "--why" => why = true,
            Argument::Option(option, _) => return Err(arguments.no_such_option(&option)),
        }
    }
    let [terms, of, when] = given[..] else {
        return Err(arguments.trouble("the terms' file, a model and a date are needed"));
    };
    let model = model(&arguments, of)?;
    let typed = when.to_string_lossy();
    let when = When::of(&typed).ok_or_else(|| arguments.trouble(&format!("{WHEN}, not '{typed}'")))?;
    Ok(Asked { terms, model, when, why })
}

/// Prints the cents, or that there is no price; and why, if that is asked for.
fn priced(terms: &Terms, asked: &Asked) -> Result<Status, No> {
    let price = terms.price(asked.model, asked.when);
    let price = price.map_err(|refusal| terms.refused(refusal, &asked.when.to_string()))?;
    let (mut text, why) = match price {
        Some(price) => (price.cents.to_string(), terms.why(price)),
        None => {
            let (name, model, when) = (terms.name(), asked.model, asked.when.in_full());
            ("none".to_string(), format!("{name}: no term of model {model} holds on {when}"))
        }
    };
    text.push('\n');
    if asked.why {
        text += &format!("{why}\n");
    }
    Ok(print(&text)?)
}
