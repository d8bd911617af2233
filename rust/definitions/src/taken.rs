//! A list that Run takes whole, with what the reference says of demand 3's terms on it, as a row.

use crate::decimal::{bytes, words};
use crate::met::Met;
use crate::row::{Row, Statement};
use crate::terms;
use reference::account::{
    block_of, precedes, response, root_operations, stands_in, times, Account,
};
use reference::demand3::{step_limit, Name};
use reference::records::{Outcome, ANSWER_RECORD_BYTES};
use reference::run::run;
use reference::tree::{Shape, Tree, ROOT};

/// Bytes of a list whose events are computed from it too: each event plays the list anew.
const SHORT: usize = 8 * 108;

/// Operations that one theorem is about.
const FEW: usize = 4;

/// What the plain queue holds at first when it is fed an order of the row's own.
const HELD: [u32; 2] = [41, 42];

pub struct Taken {
    shape: Shape,
    records: Vec<u8>,
    account: Account,
    table: Vec<u32>,
    tree: Tree,
    log: Vec<u8>,
    /// The operations asked for.
    names: Vec<Name>,
    root: Vec<Name>,
    /// An order that is not the root's: every operation that was begun, the last first.
    other: Vec<Name>,
}

impl Taken {
    pub fn new(p: u32, l: u32, records: Vec<u8>) -> Taken {
        let shape = Shape::new(p, l).expect("a proper shape");
        let account = Account::of(shape, &records).expect("a list that Run takes whole");
        let mut table = vec![9; shape.words_needed()];
        let mut log = vec![0; ANSWER_RECORD_BYTES * (p * l) as usize];
        let result = run(p, l, &records, &mut table, &mut log);
        log.truncate(ANSWER_RECORD_BYTES * result.answers as usize);
        let tree = Tree::from_words(shape, &table);
        let mut other = account.opening();
        other.reverse();
        Taken {
            names: asked(p, &account),
            root: root_operations(&tree),
            shape,
            records,
            account,
            table,
            tree,
            log,
            other,
        }
    }

    pub fn row(&self, about: impl Into<String>) -> Row {
        Row {
            about: about.into(),
            met: self.met(),
            statements: self.values().into_iter().chain(self.theorems()).collect(),
        }
    }

    /// What the theorems compute with.
    fn values(&self) -> Vec<Statement> {
        let answers = terms::answers(&self.log);
        let events = terms::events(&self.account.events());
        vec![
            Statement::value("events", "List Event", events),
            Statement::value("table", "List ℕ", words(&self.table)),
            Statement::value("log", "List AnswerRecord", answers),
            Statement::value("asked", "List OpId", terms::names(&self.names)),
            Statement::value("order", "List OpId", terms::names(&self.root)),
            Statement::value("other", "List OpId", terms::names(&self.other)),
        ]
    }

    fn theorems(&self) -> Vec<Statement> {
        let shape = terms::shape(self.shape);
        let history = (self.records.len() <= SHORT).then(|| {
            let records = bytes(&self.records);
            let left = format!("history {shape} (numbered (step_records {records}))");
            Statement::equal("history", &left, "events_#")
        });
        let root = format!("root_operations {shape} table_#");
        let said = format!("said_of {shape} events_# table_# log_#");
        let pairs = "pairs_of events_# order_# other_# asked_#";
        let held = terms::numbers(HELD);
        let queue = format!("queue_of {shape} events_# table_# ({held}) other_# asked_#");
        let ends = [
            Statement::equal("root", &root, "order_#"),
            Statement::equal("queue", &queue, &self.queue()),
        ];
        let said = self.of_each("said", &said, Taken::said);
        let pairs = self.of_each("pairs", pairs, Taken::pairs);
        let more = said.chain(pairs).chain(ends);
        history.into_iter().chain(more).collect()
    }

    /// What a definition says of each operation, a few of them in a theorem: of more the prover's steps for one
    /// declaration would run out.
    fn of_each<'a>(
        &'a self,
        name: &'a str,
        definition: &'a str,
        of: fn(&Taken, Name) -> String,
    ) -> impl Iterator<Item = Statement> + 'a {
        self.names
            .chunks(FEW)
            .enumerate()
            .map(move |(part, names)| {
                let left = format!("map ({definition}) ({})", terms::names(names));
                let right = terms::list(names.iter().map(|&x| of(self, x)));
                Statement::equal(format!("{name}_{part}"), &left, &right)
            })
    }

    fn said(&self, x: Name) -> String {
        let blocks = 0..=self.tree.last_present(ROOT) + 1;
        let standing = blocks.map(|b| stands_in(&self.tree, x, b));
        format!(
            "said {} {} {} {} ({}) {} {} ({}) ({}) ({})",
            self.account.is_opened(x),
            self.account.is_finished(x),
            self.account.own_steps(x),
            self.account.own_helps(x),
            terms::operation(self.account.does(x)),
            times(x, &self.root),
            block_of(&self.tree, x).unwrap_or(0),
            terms::numbers(standing),
            self.queue_record(x),
            terms::reply(response(&self.log, x)),
        )
    }

    fn queue_record(&self, x: Name) -> String {
        format!(
            "answer {} {} {} {} {} ({})",
            x.process,
            x.serial,
            self.account.own_steps(x),
            self.account.own_helps(x),
            block_of(&self.tree, x).unwrap_or(0),
            terms::reply(self.account.queue_answer(x, &[], &self.root)),
        )
    }

    fn pairs(&self, x: Name) -> String {
        format!(
            "pair {} {} {}",
            terms::bits(&self.names, |y| self.account.finished_before(x, y)),
            terms::bits(&self.names, |y| precedes(x, y, &self.root)),
            terms::bits(&self.names, |y| precedes(x, y, &self.other)),
        )
    }

    fn queue(&self) -> String {
        let answer = |&x: &Name| terms::reply(self.account.queue_answer(x, &HELD, &self.other));
        format!(
            "queue {} ({}) ({}) ({}) ({})",
            step_limit(self.shape),
            terms::names(&self.account.finishing()),
            terms::numbers(self.account.queue_after(&[], &self.root)),
            terms::list(self.names.iter().map(answer)),
            terms::numbers(self.account.queue_after(&HELD, &self.other)),
        )
    }

    fn met(&self) -> Vec<Met> {
        let mut met = vec![Met::new("limit", format!("p={}", self.shape.p()))];
        for &x in &self.names {
            met.push(Met::new("operation", self.state(x)));
            met.push(Met::count("own helps", self.account.own_helps(x)));
            let answer = response(&self.log, x).map(|outcome| match outcome {
                Outcome::PutDone => "done",
                Outcome::Value(_) => "value",
                Outcome::Nothing => "none",
            });
            met.extend(answer.map(|answer| Met::new("answer", answer)));
        }
        met
    }

    /// How far an operation has come.
    fn state(&self, x: Name) -> &'static str {
        if self.account.is_finished(x) {
            "finished"
        } else if times(x, &self.root) > 0 {
            "placed"
        } else if self.account.is_opened(x) {
            "begun"
        } else {
            "unopened"
        }
    }
}

/// Of each process the operations that it began, and one more.
fn asked(p: u32, account: &Account) -> Vec<Name> {
    let mut names = Vec::new();
    for process in 0..p {
        let all = (1..).map(|serial| Name { process, serial });
        let begun = all.take_while(|&x| account.is_opened(x)).count() as u32;
        names.extend((1..=begun + 1).map(|serial| Name { process, serial }));
    }
    names
}
