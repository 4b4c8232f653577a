// Stands in for a witness's name: the book's number. What can't be seen: where a name comes from.

#[derive(Clone, Debug, PartialEq, Eq, Hash)]
pub struct TemplateProgramWitness(u16);

impl TemplateProgramWitness {
    pub fn new(number: u16) -> TemplateProgramWitness {
        TemplateProgramWitness(number)
    }

    pub fn number(&self) -> u16 {
        self.0
    }
}
