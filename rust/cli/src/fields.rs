//! The fields of each sort of record: where they stand, and what they mean.

use crate::json::Json;

/// A number in a record, low byte first.
pub struct Field {
    pub name: &'static str,
    /// The first byte, from 0, and how many there are.
    pub at: usize,
    pub bytes: usize,
    /// What a number that is a code stands for; empty for a plain number.
    pub codes: &'static [(u32, &'static str)],
    pub meaning: &'static str,
}

const fn plain(name: &'static str, at: usize, bytes: usize, meaning: &'static str) -> Field {
    Field {
        name,
        at,
        bytes,
        codes: &[],
        meaning,
    }
}

const fn kind(codes: &'static [(u32, &'static str)]) -> Field {
    Field {
        name: "kind",
        at: 1,
        bytes: 1,
        codes,
        meaning: "",
    }
}

const PROCESS: Field = plain("process", 0, 1, "from 0");

/// A sort of record.
pub struct Sort {
    pub name: &'static str,
    pub bytes: usize,
    pub fields: &'static [Field],
}

pub const STEP: Sort = Sort {
    name: "step record",
    bytes: otq::Step::BYTES,
    fields: &[
        PROCESS,
        kind(&[(0, "step"), (1, "begin put"), (2, "begin take")]),
        plain("zero", 2, 2, "both bytes are 0"),
        plain("value", 4, 4, "of a begin put; else 0"),
    ],
};

pub const ANSWER: Sort = Sort {
    name: "answer record",
    bytes: otq::Answer::BYTES,
    fields: &[
        PROCESS,
        kind(&[(1, "put done"), (2, "value"), (3, "none")]),
        plain("own steps", 2, 1, "of the operation, from A to Q"),
        plain("helps", 3, 1, "heads of children moved inside refreshes"),
        plain("value", 4, 4, "that a take got; else 0"),
        plain(
            "serial",
            8,
            4,
            "the operation's number in its process, from 1",
        ),
        plain(
            "root block",
            12,
            4,
            "in which the operation took effect, from 1",
        ),
    ],
};

pub const ORDER: Sort = Sort {
    name: "order record",
    bytes: otq::Order::BYTES,
    fields: &[
        PROCESS,
        kind(&[(1, "put"), (2, "take")]),
        plain(
            "serial",
            2,
            2,
            "the operation's number in its process, from 1",
        ),
        plain(
            "root block",
            4,
            4,
            "in which the operation took effect, from 1",
        ),
    ],
};

pub const BAND: Sort = Sort {
    name: "band of a price sheet",
    bytes: dictionary::price::Band::BYTES,
    fields: &[
        plain(
            "last",
            0,
            4,
            "the number of its last delivery; deliveries count from 1",
        ),
        plain("price", 4, 4, "in cents for a hundred deliveries"),
    ],
};

impl Field {
    pub fn number(&self, record: &[u8]) -> u32 {
        let bytes = &record[self.at..self.at + self.bytes];
        bytes
            .iter()
            .rev()
            .fold(0, |all, &byte| all << 8 | u32::from(byte))
    }

    /// What the number stands for, if it is a known code.
    fn code(&self, record: &[u8]) -> Option<&'static str> {
        let number = self.number(record);
        let code = self.codes.iter().find(|(code, _)| *code == number);
        code.map(|(_, word)| *word)
    }

    /// The number, and what it stands for.
    pub fn shown(&self, record: &[u8]) -> String {
        match self.code(record) {
            Some(word) => format!("{} {word}", self.number(record)),
            None => self.number(record).to_string(),
        }
    }

    fn json(&self, record: &[u8]) -> Json {
        match self.code(record) {
            Some(word) => Json::text(word),
            None => Json::Number(self.number(record).into()),
        }
    }

    /// Its bytes in words, such as `2 to 3`.
    pub fn place(&self) -> String {
        match self.bytes {
            1 => self.at.to_string(),
            bytes => format!("{} to {}", self.at, self.at + bytes - 1),
        }
    }
}

impl Sort {
    /// A record as an object: a code as its word, every other number as it is.
    pub fn json(&self, record: &[u8]) -> Json {
        let members = self.fields.iter();
        let members = members.map(|field| (field.name.replace(' ', "_"), field.json(record)));
        Json::Object(members.collect())
    }
}

#[cfg(test)]
mod tests {
    use super::{Sort, ANSWER, BAND, ORDER, STEP};
    use dictionary::price::Band;
    use otq::{Act, Answer, Kind, Order, Outcome, Step};

    fn numbers(sort: &Sort, record: &[u8]) -> Vec<u32> {
        sort.fields
            .iter()
            .map(|field| field.number(record))
            .collect()
    }

    #[test]
    fn fields_fill_each_record() {
        for sort in [STEP, ANSWER, ORDER, BAND] {
            let mut next = 0;
            for field in sort.fields {
                assert_eq!(field.at, next, "{} of a {}", field.name, sort.name);
                next += field.bytes;
            }
            assert_eq!(next, sort.bytes, "{}", sort.name);
        }
    }

    /// The tables here say what the types of the library's crate do.
    #[test]
    fn fields_are_those_of_the_types() {
        let step = <[u8; 8]>::from(Step {
            process: 3,
            act: Act::Put(0x0102_0304),
        });
        assert_eq!(numbers(&STEP, &step), [3, 1, 0, 0x0102_0304]);
        let answer = <[u8; 16]>::from(Answer {
            process: 3,
            outcome: Outcome::Value(9),
            steps: 121,
            helps: 5,
            serial: 300,
            root_block: 4000,
        });
        assert_eq!(numbers(&ANSWER, &answer), [3, 2, 121, 5, 9, 300, 4000]);
        let order = <[u8; 8]>::from(Order {
            process: 3,
            kind: Kind::Take,
            serial: 300,
            root_block: 4000,
        });
        assert_eq!(numbers(&ORDER, &order), [3, 2, 300, 4000]);
        let band = <[u8; 8]>::from(Band {
            last: 0x0102_0304,
            price: 2500,
        });
        assert_eq!(numbers(&BAND, &band), [0x0102_0304, 2500]);
    }
}
