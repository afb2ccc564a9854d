//! What the runs of a fleet cost: the cents on their lines, or the labels printed times the model's price on a date.

use super::runs::Taken;
use super::{Cents, Fleet, Run};
use crate::input::refused;
use crate::lines::{wrong, No};
use crate::terms::{Terms, When};
use fickle::{Labels, LARGEST_NUMBER};
use std::collections::HashMap;

/// The largest cost that a report can be given. It is past the largest sum, so a run of this or a larger cost is 17.
const COST_MOST: u64 = u32::MAX as u64;

/// The prices that costs are made from. Each is asked for once.
pub struct Costs {
    terms: Option<Terms>,
    known: HashMap<(u32, When), u32>,
}

impl Costs {
    /// Takes good terms. Refuses a fleet with a line that needs terms where there are none, or has a model that no term
    /// can name.
    pub fn new(terms: Option<Terms>, fleet: &Fleet) -> Result<Costs, No> {
        if let Some(terms) = &terms {
            terms.check()?;
        }
        let dated = fleet.runs.iter().filter(|run| matches!(run.cents, Cents::On(_)));
        for run in dated {
            if terms.is_none() {
                let what = "the cents are a date, and no prices are given; give their file by --prices";
                return Err(wrong(&fleet.name, run.line, what));
            }
            if run.model > LARGEST_NUMBER {
                let what = format!(
                    "model {} has no price on any date, since terms name models up to {LARGEST_NUMBER}; put the cents on the line",
                    run.model
                );
                return Err(wrong(&fleet.name, run.line, &what));
            }
        }
        Ok(Costs { terms, known: HashMap::new() })
    }

    /// The cents of a run. One that cannot be counted is refused by the service, whatever it costs.
    pub fn of_run(&mut self, fleet: &Fleet, run: &Run, taken: &Taken) -> Result<u32, No> {
        match run.cents {
            Cents::Given(cents) => Ok(cents),
            Cents::On(_) => taken.labels(run).map_or(Ok(0), |labels| self.of(fleet, run, labels)),
        }
    }

    /// The cents of a run with these labels. Spoiled labels used ribbon too, so every printed one costs.
    pub fn of(&mut self, fleet: &Fleet, run: &Run, labels: Labels) -> Result<u32, No> {
        match run.cents {
            Cents::Given(cents) => Ok(cents),
            Cents::On(when) => {
                let price = self.price(fleet, run, when)?;
                Ok((u64::from(labels.printed) * u64::from(price)).min(COST_MOST) as u32)
            }
        }
    }

    /// The price of a run's model on a date.
    fn price(&mut self, fleet: &Fleet, run: &Run, when: When) -> Result<u32, No> {
        let model = run.model;
        if let Some(known) = self.known.get(&(model, when)) {
            return Ok(*known);
        }
        let Some(terms) = &self.terms else {
            return Err(wrong(&fleet.name, run.line, "no prices are given"));
        };
        match terms.price(model, when) {
            Ok(Some(price)) => {
                self.known.insert((model, when), price.cents);
                Ok(price.cents)
            }
            Ok(None) => {
                let what = format!(
                    "model {model} has no price on {}; add a term that holds then to {}, or put the cents on the line",
                    when.in_full(),
                    terms.name()
                );
                Err(wrong(&fleet.name, run.line, &what))
            }
            Err(refusal) => {
                Err(wrong(&fleet.name, run.line, &format!("{when} is {}", refused(refusal.reason))))
            }
        }
    }
}
