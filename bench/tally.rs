//! How often each answer came.

/// By the answer's number.
pub struct Tally([usize; 16]);

impl Tally {
    pub fn new() -> Self {
        Tally([0; 16])
    }

    pub fn count(&mut self, answer: u32) {
        self.0[answer as usize] += 1;
    }

    pub fn print(&self, what: &str) {
        let seen = self.0.iter().enumerate().filter(|(_, &often)| often > 0);
        let seen: Vec<_> = seen
            .map(|(answer, often)| format!("{answer}: {often}"))
            .collect();
        println!("{what} agree; answers {}", seen.join(", "));
    }
}
