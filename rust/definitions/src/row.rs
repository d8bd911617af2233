//! A row of the comparison: what it is about, what it meets, and its theorems by computation.

use crate::met::{Met, LINE};

/// The rules, and the definitions of the common head that the prover computes with.
const UNFOLDED: &str =
    "rules words_of leaves call left process numbers late_begin op answer moved \
     bits said_of said pairs_of pair queue_of queue foretold";

pub struct Row {
    /// In plain words.
    pub about: String,
    pub met: Vec<Met>,
    pub statements: Vec<Statement>,
}

/// A statement `name_N` of row N. In its text `#` stands for the row's number.
pub struct Statement {
    name: String,
    /// The type of a value, or what a theorem says.
    says: String,
    /// Definitions that the prover computes with.
    unfolded: String,
    is: Is,
}

enum Is {
    /// A value that the row's theorems compute with.
    Value(String),
    /// A theorem by computation.
    Theorem,
}

impl Statement {
    pub fn value(name: &str, of: &str, value: String) -> Statement {
        Statement {
            name: name.to_string(),
            says: of.to_string(),
            unfolded: String::new(),
            is: Is::Value(value),
        }
    }

    /// Both sides compute to the same, by the rules and the common head.
    pub fn equal(name: impl Into<String>, left: &str, right: &str) -> Statement {
        Statement {
            name: name.into(),
            says: format!("{left} ≡ {right}"),
            unfolded: UNFOLDED.to_string(),
            is: Is::Theorem,
        }
    }

    /// The theorem with these definitions too.
    pub fn with(self, also: &str) -> Statement {
        let unfolded = self.unfolded + also;
        Statement { unfolded, ..self }
    }

    /// The theorem with these definitions and no others.
    pub fn by(self, only: &str) -> Statement {
        let unfolded = only.to_string();
        Statement { unfolded, ..self }
    }

    fn text(&self, own_values: &str) -> String {
        let Statement {
            name,
            says,
            unfolded,
            is,
        } = self;
        match is {
            Is::Value(value) => format!("\nunfoldable {name}_# : {says}\n{name}_# = {value}\n"),
            Is::Theorem => {
                let unfolded = format!("{unfolded}{own_values}");
                format!("\n{name}_# : {says}\nunfolding {unfolded}\n{name}_# = refl\n")
            }
        }
    }
}

impl Row {
    /// The row as text of the rows' file.
    pub fn text(&self, number: usize) -> String {
        let met: Vec<String> = self.met.iter().map(Met::to_string).collect();
        let mut text = format!("\n-- {}", self.about);
        if !met.is_empty() {
            text += &format!("\n{LINE}{}", met.join(", "));
        }
        let is_value = |statement: &&Statement| matches!(statement.is, Is::Value(_));
        let values = self.statements.iter().filter(is_value);
        let values: String = values.map(|value| format!(" {}_#", value.name)).collect();
        for statement in &self.statements {
            text += &statement.text(&values);
        }
        text.replace('#', &number.to_string())
    }
}
