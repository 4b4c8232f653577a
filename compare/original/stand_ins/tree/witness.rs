// Stands in for the maps of witnesses and arguments. What can't be seen: the types that parameters and witnesses declare.

use std::collections::HashMap;
use std::sync::Arc;

use crate::value::Value;
use crate::TemplateProgramWitness;

#[derive(Clone, Debug, Default, PartialEq, Eq)]
pub struct Parameters;

#[derive(Clone, Debug, Default, PartialEq, Eq)]
pub struct WitnessTypes;

/// The value of each parameter, by the record that is one: every other constant of a book.
#[derive(Clone, Debug)]
pub struct Arguments {
    values: Arc<HashMap<u16, Value>>,
}

impl Arguments {
    pub fn new(values: HashMap<u16, Value>) -> Arguments {
        let values = Arc::new(values);
        Arguments { values }
    }
}

pub trait WitnessNameToValueMap {
    fn get(&self, name: &TemplateProgramWitness) -> Option<&Value>;
}

impl WitnessNameToValueMap for Arguments {
    fn get(&self, name: &TemplateProgramWitness) -> Option<&Value> {
        self.values.get(&name.number())
    }
}
