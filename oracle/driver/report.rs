//! What was compared, and what differed.
/// Differences printed before the rest are only counted.
const SHOWN: usize = 10;

#[derive(Default)]
pub struct Report {
    /// In the order in which they were first asked for.
    counts: Vec<(&'static str, u64)>,
    pub differences: usize,
}

impl Report {
    /// Counts something seen, if it was.
    pub fn see(&mut self, what: &'static str, seen: bool) {
        self.add(what, seen as usize);
    }

    /// Counts something seen so many times.
    pub fn add(&mut self, what: &'static str, times: usize) {
        match self.counts.iter_mut().find(|(name, _)| *name == what) {
            Some((_, count)) => *count += times as u64,
            None => self.counts.push((what, times as u64)),
        }
    }

    pub fn differ(&mut self, what: String) {
        self.differences += 1;
        if self.differences <= SHOWN {
            println!("DIFFERENCE {what}");
        }
    }

    /// Writes what was seen under a heading.
    pub fn print(&self, heading: &str) {
        println!("{heading}");
        for (what, count) in &self.counts {
            println!("{count:10} {what}");
        }
        println!("{:10} differences", self.differences);
    }
}
