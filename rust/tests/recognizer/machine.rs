//! The backtracking machine, as a recursion over its frames.
use super::{Outcome, Question, Recognizer, Rule};

/// What a run ends with.
#[derive(Clone, Copy, Debug, PartialEq, Eq)]
pub enum Ending {
    Outcome(Outcome),
    Spent,
    NoFrame,
}

/// An ending with the moves made.
#[derive(Clone, Copy, Debug, PartialEq, Eq)]
pub struct Ran {
    pub ending: Ending,
    pub moves: u32,
}

/// The flag, true for s, and the position.
type Popped = (bool, u32);

struct Machine<'a> {
    recognizer: Recognizer<'a>,
    room: usize,
    budget: u32,
    moves: u32,
}

impl Machine<'_> {
    /// One move: "spent if moves equal the budget".
    fn step(&mut self) -> Result<(), Ending> {
        if self.moves == self.budget {
            return Err(Ending::Spent);
        }
        self.moves += 1;
        Ok(())
    }

    /// A move that pushes onto so many frames: spent, "then no frame if a push lacks room".
    fn push(&mut self, frames: usize) -> Result<(), Ending> {
        if self.moves < self.budget && frames >= self.room {
            return Err(Ending::NoFrame);
        }
        self.step()
    }

    /// From a frame at stage 0, the top one of so many, to where it is popped.
    fn frame(&mut self, variable: u32, start: u32, frames: usize) -> Result<Popped, Ending> {
        let pair = entryreader::Pair {
            variable,
            position: start,
        };
        match self.recognizer.leaf(pair) {
            Some(Outcome::Success(end)) => self.step().map(|()| (true, end)),
            Some(Outcome::Failure) => self.step().map(|()| (false, start)),
            Some(missing) => Err(Ending::Outcome(missing)),
            None => self.calls(variable, start, frames),
        }
    }

    /// The three stages of a kind 4 frame.
    fn calls(&mut self, variable: u32, start: u32, frames: usize) -> Result<Popped, Ending> {
        let Some(Rule::Calls(b, c, d)) = self.recognizer.sheet.rules.get(&variable) else {
            unreachable!("only kind 4 is no leaf");
        };
        self.push(frames)?;
        let (succeeded, position) = self.frame(*b, start, frames + 1)?;
        self.push(frames)?;
        let (flag, position) = if succeeded {
            self.frame(*c, position, frames + 1)?
        } else {
            self.frame(*d, start, frames + 1)?
        };
        self.step()?;
        Ok((flag, if flag { position } else { start }))
    }
}

/// What the machine is to say, lent so many numbers for its frames, or the number of its refusal.
pub fn run(question: Question, frames: usize, budget: u32) -> Result<Ran, u32> {
    let sheet = question.admit()?;
    let mut machine = Machine {
        recognizer: Recognizer::new(&sheet, question.entry),
        room: frames / 3,
        budget,
        moves: 0,
    };
    let asked = question.asked;
    let ending = if machine.room == 0 {
        Ending::NoFrame
    } else {
        match machine.frame(asked.variable, asked.position, 1) {
            Ok((true, position)) => Ending::Outcome(Outcome::Success(position)),
            Ok((false, _)) => Ending::Outcome(Outcome::Failure),
            Err(ending) => ending,
        }
    };
    Ok(Ran {
        ending,
        moves: machine.moves,
    })
}
