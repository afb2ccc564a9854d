//! Names of models: a file with a model, a tab and its name on each line.

use crate::lines::{lines, number, read, wrong, No};
use std::collections::HashMap;
use std::ffi::OsStr;
use std::path::Path;

/// The names that are known.
#[derive(Default)]
pub struct Names(HashMap<u32, (String, usize)>);

impl Names {
    pub fn read(file: &OsStr) -> Result<Names, No> {
        let (name, text) = (file.to_string_lossy(), read(Path::new(file))?);
        let mut names = Names::default();
        for line in lines(&name, &text)? {
            names.add(line.text, line.number).map_err(|what| wrong(&name, line.number, &what))?;
        }
        Ok(names)
    }

    /// Adds a line, or says what is wrong with it.
    fn add(&mut self, text: &str, line: usize) -> Result<(), String> {
        let parts = text.split_once('\t').map(|(model, name)| (number(model), name.trim()));
        let Some((Some(model), name)) = parts.filter(|(_, name)| !name.is_empty()) else {
            return Err("the line is not a model's number, one tab and its name".to_string());
        };
        if name.chars().any(char::is_control) {
            return Err(format!(
                "the name of model {model} has a tab or another control character; leave it out"
            ));
        }
        match self.0.insert(model, (name.to_string(), line)) {
            Some((_, before)) => Err(format!("model {model} has a name already, on line {before}")),
            None => Ok(()),
        }
    }

    /// What a model is called: by its name, or by its number where it has none.
    pub fn of(&self, model: u32) -> String {
        self.0.get(&model).map_or_else(|| model.to_string(), |(name, _)| name.clone())
    }
}
