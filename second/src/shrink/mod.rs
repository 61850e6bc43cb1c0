//! A difference made small: what is asked is made smaller, one change after another, as long
//! as the answers still differ.

mod question;
mod steps;

pub use question::Question;
use steps::{Step, STEPS};

/// What is tried, and what came of it so far.
struct Shrinking<F> {
    smallest: Question,
    /// Whether the answers differ on it.
    differs: F,
    /// How much may still be asked.
    left: usize,
}

/// The smallest question that is found on which the answers still differ; no single change
/// of those that are tried makes it smaller, unless there is more to ask than `most` (in
/// records, over all tries). The answers differ on the question that is given.
pub fn shrink(question: Question, most: usize, differs: impl FnMut(&Question) -> bool) -> Question {
    let mut shrinking = Shrinking {
        smallest: question,
        differs,
        left: most,
    };
    // One step may make another possible, so all are taken again until none is.
    while STEPS.map(|step| shrinking.take(step)).contains(&true) {}
    shrinking.smallest
}

impl<F: FnMut(&Question) -> bool> Shrinking<F> {
    /// Tries all changes of one kind, each on what the ones before left. Tells whether one
    /// was made.
    fn take(&mut self, step: Step) -> bool {
        let mut passed_over = 0;
        let mut smaller = false;
        while let Some(changed) = self.next(step, &mut passed_over) {
            self.smallest = changed;
            smaller = true;
            // What stands at this place of the list now has not been tried.
            passed_over -= 1;
        }
        smaller
    }

    /// The next change on which the answers still differ.
    fn next(&mut self, step: Step, passed_over: &mut usize) -> Option<Question> {
        let before = self.smallest.clone();
        let mut changes = step(&before).skip(*passed_over);
        // A table of 4,096 records has thousands of changes, each a copy of it. They are not
        // made where none can be asked.
        while self.left > 0 {
            let changed = changes.next()?;
            *passed_over += 1;
            if self.still_differs(&changed) {
                return Some(changed);
            }
        }
        None
    }

    fn still_differs(&mut self, changed: &Question) -> bool {
        let cost = changed.cost();
        if cost > self.left {
            self.left = 0;
            return false;
        }
        self.left -= cost;
        (self.differs)(changed)
    }
}
