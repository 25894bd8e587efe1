//! The parts of a file that have a form each, and what they make together.

use silverpoise::{CommandTable, Form, FormError, Names, Node};

use crate::source::{Fault, Spot};
use crate::written::{Field, OptionName, What, Written};

/// What the sections of a whole text make.
pub fn written(sections: Vec<Section>) -> Result<Written, Fault> {
    let (mut headings, mut forms, mut fields) = (Vec::new(), Vec::new(), Vec::new());
    for section in sections {
        forms.push(section.form()?);
        headings.extend(section.heading);
        fields.push(section.fields);
    }
    let what = match headings.is_empty() {
        true => What::Form(forms.remove(0)),
        false => What::Commands(table(&headings, forms)?),
    };
    Ok(Written { what, fields })
}

fn table(headings: &[Heading], forms: Vec<Form>) -> Result<CommandTable, Fault> {
    let entries = headings.iter().map(|heading| crate_names(&heading.names)).zip(forms);
    let spot = |error: &FormError| error.command().map_or(START, |number| headings[number].spot);
    CommandTable::of(entries).map_err(|error| Fault::new(spot(&error), error.reason()))
}

/// Where a text begins.
pub const START: Spot = Spot { line: 1, column: 1 };

/// A form's part of the text: the whole, or what stands under a heading.
#[derive(Default)]
pub struct Section {
    pub heading: Option<Heading>,
    pub fields: Vec<Field>,
    /// the node of each field
    pub roots: Vec<Node>,
    /// where each node was written, in the order of the form's nodes: children first, the first side of a choice first
    pub nodes: Vec<Spot>,
    /// how many name records there are, and how many bytes they have together
    pub names: usize,
    pub area: usize,
}

/// `[NAMES]`, which opens a command.
pub struct Heading {
    pub spot: Spot,
    pub names: Vec<OptionName>,
}

impl Section {
    /// Where it begins.
    fn spot(&self) -> Spot {
        self.heading.as_ref().map_or(START, |heading| heading.spot)
    }

    fn form(&self) -> Result<Form, Fault> {
        if self.fields.is_empty() {
            let what = if self.heading.is_some() { "command" } else { "form" };
            return Err(Fault::new(self.spot(), format!("the {what} has no field")));
        }
        Form::of(self.roots.iter().cloned()).map_err(|error| self.refused(&error))
    }

    /// What the form check refused, at the node that is at fault.
    fn refused(&self, error: &FormError) -> Fault {
        let node = error.place().filter(|_| error.number() >= 3);
        let spot = node.and_then(|node| self.nodes.get(node)).copied().unwrap_or(self.spot());
        // the text is shown with the reason, so the node need not be named
        Fault::new(spot, error.reason())
    }
}

pub fn crate_names(names: &[OptionName]) -> Names {
    names.iter().fold(Names::default(), |all, name| match name {
        OptionName::Short(letter) => all.short(*letter),
        OptionName::Long(name) => all.long(name),
    })
}
