//! A call as a line of text, and what it does to a store.

use crate::answer::Answer;
use crate::operations::{self, Operation};
use crate::store::Store;
use std::fmt;
use std::str::FromStr;

pub enum Call {
    New { fields: u32, relation_places: u32, set_places: u32 },
    Operation(&'static Operation, Vec<u32>),
    Policy(Vec<u8>),
}

impl Call {
    /// Makes the call. An accepted `new` begins another store, a refused one keeps this.
    pub fn make(&self, store: &mut Store) -> Answer {
        match self {
            Call::New { fields, relation_places, set_places } => {
                match Store::new(*fields, *relation_places, *set_places) {
                    Ok(opened) => {
                        *store = opened;
                        Answer::Opened
                    }
                    Err(refusal) => Answer::Refused(refusal),
                }
            }
            Call::Operation(operation, arguments) => store.call(operation, arguments),
            Call::Policy(text) => store.policy(text),
        }
    }
}

/// A name and decimal numbers, one space before each number; or `policy`, a space and the text.
impl FromStr for Call {
    type Err = String;

    fn from_str(line: &str) -> Result<Call, String> {
        let (name, numbers) = line.split_once(' ').map_or((line, None), |(a, b)| (a, Some(b)));
        if name == "policy" {
            return Ok(Call::Policy(numbers.unwrap_or("").into()));
        }
        let mut arguments = Vec::new();
        for word in numbers.iter().flat_map(|numbers| numbers.split(' ')) {
            arguments.push(word.parse().map_err(|_| format!("no number: {word}"))?);
        }
        if name == "new" {
            let [fields, relation_places, set_places] = arguments[..] else {
                return Err("new takes 3 numbers".into());
            };
            return Ok(Call::New { fields, relation_places, set_places });
        }
        let operation = operations::find(name).ok_or(format!("no operation: {name}"))?;
        let count = operation.sorts.len();
        if arguments.len() != count {
            return Err(format!("{name} takes {count} numbers"));
        }
        Ok(Call::Operation(operation, arguments))
    }
}

impl fmt::Display for Call {
    fn fmt(&self, f: &mut fmt::Formatter<'_>) -> fmt::Result {
        match self {
            Call::New { fields, relation_places, set_places } => {
                write!(f, "new {fields} {relation_places} {set_places}")
            }
            Call::Operation(operation, arguments) => {
                write!(f, "{}", operation.name)?;
                arguments.iter().try_for_each(|argument| write!(f, " {argument}"))
            }
            Call::Policy(text) => write!(f, "policy {}", String::from_utf8_lossy(text)),
        }
    }
}
