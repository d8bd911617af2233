//! A list of steps with its p and L, and the calls of the proved libraries on it.

use crate::arguments::Given;
use crate::commands::{L, P};
use crate::failure::Failure;
use crate::files::{self, Holds, Name, Source};
use crate::notation::{Exercise, Heading, Mistake, Record};
use crate::tool::{tell, Tool};
use crate::words::count;
use dictionary::{Delivery, TERM_BYTES};
use otq::{Answer, Forecast, Played, Refusal, Run, Step, Verdict};

/// A list: a text exercise, or binary records with p and L of the command line.
pub struct List {
    pub name: Name,
    pub is_text: bool,
    /// p, L and the buffers lent are in its heading.
    exercise: Exercise,
}

impl List {
    /// Reads the list that a command is given as its first file.
    pub fn read(tool: &mut Tool, given: &Given) -> Result<List, Failure> {
        let name = Name::new(&given.files[0]);
        tool.reading(&name);
        let source = Source::open(&name)?;
        let said = Heading {
            processes: given.number(&P)?,
            operations: given.number(&L)?,
            ..Heading::default()
        };
        let is_text = source.holds != Holds::Records;
        let exercise = match is_text {
            true => read_text(&name, source, said)?,
            false => read_records(source, said, given.has("--whole"))?,
        };
        tool.progress.say(format!("playing {name}"));
        Ok(List {
            name,
            is_text,
            exercise,
        })
    }

    /// The list of a text.
    #[cfg(test)]
    pub fn of_text(text: &str) -> List {
        List {
            name: Name::Input,
            is_text: true,
            exercise: Exercise::read(text.as_bytes()).expect("a proper text"),
        }
    }

    pub fn p(&self) -> u32 {
        self.exercise.heading.p()
    }

    pub fn l(&self) -> u32 {
        self.exercise.heading.l()
    }

    pub fn heading(&self) -> Heading {
        self.exercise.heading
    }

    pub fn bytes(&self) -> &[u8] {
        &self.exercise.records
    }

    /// What is told of a text that was taken for records.
    pub fn spoilt_text(&self) -> Option<String> {
        let records = (!self.is_text).then_some(self.bytes());
        records.and_then(files::spoilt_text)
    }

    /// The whole records.
    pub fn records(&self) -> &[Record] {
        self.bytes().as_chunks().0
    }

    /// The process of the record with this number, from 1.
    pub fn process_of(&self, number: u32) -> u8 {
        let [process, ..] = self.records()[number as usize - 1];
        process
    }

    /// The line of a text that says a record, from 0.
    pub fn line_of(&self, record: usize) -> Option<usize> {
        self.exercise.line_of(record)
    }

    /// The line of a text's heading with this first word.
    pub fn heading_line(&self, word: &str) -> Option<usize> {
        self.exercise.heading_line(word)
    }

    /// Run, with the buffers that the heading lends.
    pub fn run(&self) -> Result<Played, Failure> {
        let played = self.run_with(self.heading(), self.bytes());
        self.all_seen(played.run.refusal.is_some())?;
        Ok(played)
    }

    /// The records that are taken where every answer has room, which the other calls take too.
    pub fn taken(&self) -> usize {
        otq::play(self.p(), self.l(), self.bytes()).run.taken as usize
    }

    /// The answers of the rules, all of them.
    pub fn answers(&self) -> Vec<u8> {
        otq::play(self.p(), self.l(), self.bytes()).answers
    }

    /// Run on a beginning of the list.
    pub fn run_first(&self, records: usize) -> Played {
        self.run_with(self.heading(), &self.bytes()[..Step::BYTES * records])
    }

    fn run_with(&self, heading: Heading, records: &[u8]) -> Played {
        let mut table = vec![0; heading.table_words()];
        let mut answers = vec![0; heading.answer_bytes()];
        let (p, l) = (heading.p(), heading.l());
        let run = otq::run(p, l, records, &mut table, &mut answers);
        answers.truncate(Answer::BYTES * run.answers as usize);
        Played {
            run,
            answers,
            table,
        }
    }

    /// Whether a process is inside an operation after the first records, all of which are taken: it
    /// is if it can step.
    pub fn is_inside(&self, process: u8, records: usize) -> bool {
        let step = [process, 0, 0, 0, 0, 0, 0, 0];
        let then_step = [&self.bytes()[..Step::BYTES * records], &step].concat();
        let refusal = otq::play(self.p(), self.l(), &then_step).run.refusal;
        refusal != Some(Refusal::StepWhileIdle)
    }

    /// Whether the library takes the whole list with this p and this L.
    pub fn is_taken_with(&self, p: u32, l: u32) -> bool {
        !self.exercise.longer && otq::play(p, l, self.bytes()).run.refusal.is_none()
    }

    /// The record, from 0, that ended the operation with this answer: Run with room for the answers
    /// before it is refused there.
    pub fn record_that_ended(&self, answer: usize) -> Option<usize> {
        let heading = Heading {
            answers: Some((Answer::BYTES * answer) as u32),
            ..self.heading()
        };
        let Run { refusal, taken, .. } = self.run_with(heading, self.bytes()).run;
        (refusal == Some(Refusal::AnswersFull)).then_some(taken as usize)
    }

    /// List the order: the order records.
    pub fn order(&self) -> Result<Result<Vec<u8>, Refusal>, Failure> {
        let (p, l) = (self.p(), self.l());
        let mut table = vec![0; self.heading().table_words()];
        let mut output = vec![0; otq::most_order_bytes(p, l).unwrap_or(0)];
        let listed = otq::list_order(p, l, self.bytes(), &mut table, &mut output);
        self.all_seen(listed.is_err())?;
        Ok(listed.map(|length| {
            output.truncate(length as usize);
            output
        }))
    }

    /// Check a log.
    pub fn check(&self, log: &[u8]) -> Result<Verdict, Failure> {
        let mut table = vec![0; self.heading().table_words()];
        let verdict = otq::check_log(self.p(), self.l(), self.bytes(), log, &mut table);
        self.all_seen(matches!(verdict, Verdict::Refused(_)))?;
        Ok(verdict)
    }

    /// Forecast, of a list of begins.
    pub fn forecast(&self) -> Result<Result<Forecast, Refusal>, Failure> {
        let told = otq::forecast(self.p(), self.l(), self.bytes());
        self.all_seen(told.is_err())?;
        Ok(told)
    }

    /// The records before the first that a forecast turns down.
    pub fn begins_taken(&self) -> usize {
        self.taken_by(|first| otq::forecast(self.p(), self.l(), first).is_ok())
    }

    /// Whether a forecast takes the whole list with this p and this L.
    pub fn is_forecast_with(&self, p: u32, l: u32) -> bool {
        !self.exercise.longer && otq::forecast(p, l, self.bytes()).is_ok()
    }

    /// Deliver, with this process licensed: the bytes of the terms.
    pub fn deliver(&self, licensed: u32) -> Result<Result<Vec<u8>, dictionary::Refusal>, Failure> {
        let (p, l) = (self.p(), self.l());
        let mut table = vec![0; self.heading().table_words()];
        let mut output = vec![0; dictionary::most_output_bytes(p, l).unwrap_or(0)];
        let Delivery { refusal, count } =
            dictionary::deliver(p, l, licensed, self.bytes(), &mut table, &mut output);
        self.all_seen(refusal.is_some())?;
        output.truncate(TERM_BYTES * count as usize);
        Ok(refusal.map_or(Ok(output), Err))
    }

    /// The records before the first that the desk turns down.
    pub fn deliveries_taken(&self, licensed: u32) -> usize {
        self.taken_by(|first| dictionary::terms(self.p(), self.l(), licensed, first).is_ok())
    }

    /// Whether the desk takes the whole list with this p, this L and this licensed process.
    pub fn is_delivered_with(&self, p: u32, l: u32, licensed: u32) -> bool {
        !self.exercise.longer && dictionary::terms(p, l, licensed, self.bytes()).is_ok()
    }

    /// The records before the first that a call turns down. A beginning of the list is taken just if
    /// it ends before that record, so that halving finds it.
    fn taken_by(&self, takes: impl Fn(&[u8]) -> bool) -> usize {
        let (mut taken, mut most) = (0, self.records().len());
        while taken < most {
            let tried = taken + (most - taken).div_ceil(2);
            match takes(&self.bytes()[..Step::BYTES * tried]) {
                true => taken = tried,
                false => most = tried - 1,
            }
        }
        taken
    }

    /// Of a longer text than is kept, only a refusal among the records that are kept counts.
    fn all_seen(&self, refused: bool) -> Result<(), Failure> {
        match !refused && self.exercise.longer {
            true => Err(Failure::of(
                &self.name,
                "it has more records than are played",
            )),
            false => Ok(()),
        }
    }
}

/// A text, whose heading gives p and L; the command line may say them where the heading does not.
fn read_text(name: &Name, source: Source, said: Heading) -> Result<Exercise, Failure> {
    let mut exercise = read_exercise(name, source)?;
    let heading = &mut exercise.heading;
    agree(
        name,
        "processes",
        &mut heading.processes,
        "-p",
        said.processes,
    )?;
    agree(
        name,
        "operations",
        &mut heading.operations,
        "-L",
        said.operations,
    )?;
    Ok(exercise)
}

fn agree(
    name: &Name,
    line: &str,
    heading: &mut Option<u32>,
    option: &str,
    said: Option<u32>,
) -> Result<(), Failure> {
    match (*heading, said) {
        (Some(has), Some(said)) if has != said => {
            let message = format!("its heading says `{line} {has}`, and not {option} {said}");
            Err(Failure::of(name, message))
        }
        _ => {
            *heading = heading.or(said);
            Ok(())
        }
    }
}

fn read_exercise(name: &Name, source: Source) -> Result<Exercise, Failure> {
    Exercise::read(source.text()).map_err(|mistake| text_mistake(name, mistake))
}

/// A mistake in a text is told by file and line, as compilers do.
pub fn text_mistake(name: &Name, mistake: Mistake) -> Failure {
    match mistake {
        Mistake::Line { .. } => Failure {
            message: format!("{name}:{mistake}"),
            ..Failure::mistake("")
        },
        Mistake::Read(error) => Failure::of(name, error),
    }
}

/// Binary records, which do not say p and L.
fn read_records(source: Source, said: Heading, whole: bool) -> Result<Exercise, Failure> {
    let name = source.name.clone();
    if said.processes.is_none() || said.operations.is_none() {
        let message = "it holds binary records, which do not say p and L: give -p P and -L L";
        let spoilt = source.spoilt_text();
        return Err(Failure::of(name, spoilt.as_deref().unwrap_or(message)));
    }
    let mut records = source.bytes()?;
    if whole {
        leave_out_torn(&name, &mut records, Step::BYTES);
    }
    Ok(Exercise::of_records(said, records))
}

/// Leaves out the bytes after the last whole record, and says so.
pub fn leave_out_torn(name: &Name, bytes: &mut Vec<u8>, size: usize) {
    let torn = bytes.len() % size;
    let at = bytes.len() - torn;
    bytes.truncate(at);
    if torn > 0 {
        let left_out = count(torn, "byte");
        tell(&format!(
            "otq: {name}: left out the last {left_out}, from byte {at} on"
        ));
    }
}
