//! Cases of the translator.

use crate::cases::Case;
use crate::check::program;
use crate::text::junk;
use second::generate::extreme;
use second::plain::translation;
use second::random::Random;
use second::rows::TRANSLATED;

/// Generated rows, translated.
pub fn translating(random: &mut Random) -> Vec<Case> {
    let rows = program(random);
    vec![into_junk(rows, random)]
}

/// Rows, to be translated into a buffer about as long as needed.
fn into_junk(rows: Vec<u32>, random: &mut Random) -> Case {
    let about = translation(&rows).map_or(0, |plain| plain.len());
    let plain = junk(random, about, |bits| bits as u32);
    Case::Translate { rows, plain }
}

/// Each limit of the translator on both sides.
pub fn limits() -> Vec<Case> {
    let mut random = Random::new(7);
    let mut programs = Vec::new();
    for past in 0..3 {
        let near = |limit: usize| limit - 1 + past;
        programs.push(extreme::parameters(near(TRANSLATED.parameters)));
        programs.push(extreme::classes(near(TRANSLATED.classes), &mut random));
        programs.push(extreme::names(252 + past as u32));
        programs.push(extreme::rows(near(TRANSLATED.rows)));
        programs.push(extreme::widest_change(near(TRANSLATED.fields)));
        for _ in 0..20 {
            programs.push(extreme::nesting(near(TRANSLATED.nesting), &mut random));
            programs.push(extreme::slots(near(TRANSLATED.slots), &mut random));
            programs.push(extreme::fields(near(TRANSLATED.fields), &mut random));
        }
    }
    programs.into_iter().map(|rows| into_junk(rows, &mut random)).collect()
}
