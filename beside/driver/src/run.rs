//! A run of a tape: each command on a copy, which is put back where the command is refused.
use crate::answer::Answer;
use crate::calls::perform;
use crate::operands::{length, Command};
use crate::refusal::Refusal;
use ark_ff::Fp;
use ark_relations::r1cs::{Call, ConstraintSystem, ConstraintSystemRef};
use std::cell::RefCell;
use std::panic::{self, AssertUnwindSafe};
use std::rc::Rc;

/// How much a system and a book take.
#[derive(Clone, Copy)]
pub struct Rooms {
    pub inputs: usize,
    pub witnesses: usize,
    pub terms: usize,
    pub rows: usize,
    pub places: usize,
}

/// What a call answers, or none where it panics, which prints nothing.
fn quietly<T>(call: impl FnOnce() -> T) -> Option<T> {
    let hook = panic::take_hook();
    panic::set_hook(Box::new(|_| ()));
    let outcome = panic::catch_unwind(AssertUnwindSafe(call));
    panic::set_hook(hook);
    outcome.ok()
}

pub struct Run<const P: u32> {
    pub system: Rc<RefCell<ConstraintSystem<Fp<P>>>>,
    pub book: Vec<Answer<Fp<P>>>,
    /// The refusals, each with its command's number.
    pub refusals: Vec<(usize, Refusal)>,
    rooms: Rooms,
}

impl<const P: u32> Run<P> {
    pub fn new(keeps_values: bool, rooms: Rooms) -> Self {
        Run {
            system: Rc::new(RefCell::new(ConstraintSystem::new(keeps_values))),
            book: Vec::new(),
            refusals: Vec::new(),
            rooms,
        }
    }

    /// Runs a tape to its end, or to a command that is unknown or cut off.
    pub fn tape(&mut self, tape: &[u8]) {
        let mut rest = tape;
        for number in 0.. {
            let Some(opcode) = rest.first() else {
                return;
            };
            let Some(length) = length(*opcode).filter(|length| *length <= rest.len()) else {
                self.refusals.push((number, Refusal::UNKNOWN));
                return;
            };
            let (bytes, after) = rest.split_at(length);
            if let Err(refusal) = self.command(bytes) {
                self.refusals.push((number, refusal));
            }
            rest = after;
        }
    }

    fn command(&mut self, bytes: &[u8]) -> Result<(), Refusal> {
        let command = Command::new(bytes, &self.book)?;
        if !command.has_good_lengths() {
            return Err(Refusal::LENGTH);
        }
        if self.book.len() + command.answers() > self.rooms.places {
            return Err(Refusal::BOOK_FULL);
        }
        self.system.borrow_mut().calls.clear();
        self.system.borrow_mut().value_missed = false;
        let before = self.system.borrow().clone();
        let outcome = self.attempt(command, &before);
        match outcome {
            Ok(answers) => {
                self.book.extend(answers);
                Ok(())
            }
            Err(refusal) => {
                *self.system.borrow_mut() = before;
                Err(refusal)
            }
        }
    }

    /// The answers of a command, with what it adds to the system. A refusal, an error and a panic leave what they will.
    fn attempt(
        &self,
        command: Command<Fp<P>>,
        before: &ConstraintSystem<Fp<P>>,
    ) -> Result<Vec<Answer<Fp<P>>>, Refusal> {
        let system = ConstraintSystemRef::CS(self.system.clone());
        let outcome = quietly(|| perform(system, command));
        let after = self.system.borrow();
        self.find_room(before, &after.calls)?;
        match outcome {
            Some(Ok(answers)) => Ok(answers),
            Some(Err(error)) => Err(Refusal::of_error(error, after.value_missed)),
            None => Err(Refusal::Panic),
        }
    }

    /// Whether there is room for some calls, made one after the other; if not, the refusal of the first that finds none.
    fn find_room(&self, before: &ConstraintSystem<Fp<P>>, calls: &[Call]) -> Result<(), Refusal> {
        let mut inputs = before.inputs.len();
        let mut witnesses = before.witnesses.len();
        let mut terms = before.terms();
        let mut rows = before.rows.len();
        for call in calls {
            match call {
                Call::Input => inputs += 1,
                Call::Witness => witnesses += 1,
                Call::Combination(more) => terms += more,
                Call::Row(more) => {
                    terms += more;
                    rows += 1;
                }
            }
            if inputs > self.rooms.inputs || witnesses > self.rooms.witnesses {
                return Err(Refusal::VARIABLES_FULL);
            }
            if terms > self.rooms.terms {
                return Err(Refusal::TERMS_FULL);
            }
            if rows > self.rooms.rows {
                return Err(Refusal::ROWS_FULL);
            }
        }
        Ok(())
    }
}
