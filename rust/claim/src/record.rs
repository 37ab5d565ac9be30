//! The uncut run, kept frame by frame, so that a list can be compared with it after any number of commands.

use reference::uncut::{Frame, Uncut};

pub struct Record {
    uncut: Uncut,
    /// The frame after as many commands as its index says.
    frames: Vec<Frame>,
}

impl Record {
    pub fn new(plan: &[u8], readings: &[i32]) -> Record {
        let uncut = Uncut::new(plan, readings).expect("the plan is accepted");
        Record {
            frames: vec![uncut.frame.clone()],
            uncut,
        }
    }

    /// The frame after so many commands; where the uncut run stays, the frame it stays at.
    pub fn at(&mut self, commands: usize) -> &Frame {
        while self.frames.len() <= commands && self.uncut.execute() {
            self.frames.push(self.uncut.frame.clone());
        }
        &self.frames[commands.min(self.frames.len() - 1)]
    }

    /// After how many commands it stops, if that is within the limit.
    pub fn stop_within(&mut self, limit: usize) -> Option<usize> {
        let is_stopped = self.at(limit).stop.is_some();
        is_stopped.then_some(self.frames.len() - 1)
    }

    /// How many readings it takes between two numbers of commands.
    pub fn taken(&mut self, from: usize, to: usize) -> usize {
        let before = self.at(from).readings;
        (self.at(to).readings - before) as usize
    }

    /// The outputs it gives between two numbers of commands.
    pub fn given(&mut self, from: usize, to: usize) -> &[i32] {
        let before = self.at(from).outputs as usize;
        let after = self.at(to).outputs as usize;
        &self.uncut.given[before..after]
    }

    /// All the outputs that it gives, where it is known to stop.
    pub fn all_given(&self) -> &[i32] {
        &self.uncut.given
    }
}
