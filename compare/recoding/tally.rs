//! What was asked, and how much of it differs.

const MOST_PRINTED: usize = 5;

#[derive(Default)]
pub struct Tally {
    pub asked: usize,
    pub differing: usize,
}

impl Tally {
    pub fn add(&mut self, more: &Tally) {
        self.asked += more.asked;
        self.differing += more.differing;
    }

    /// Counts a comparison, and prints what `said` returns if it differs.
    pub fn count(&mut self, agrees: bool, said: impl FnOnce() -> String) {
        self.asked += 1;
        if !agrees {
            self.differing += 1;
            if self.differing <= MOST_PRINTED {
                println!("{}", said());
            }
        }
    }
}
