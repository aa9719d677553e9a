//! The differences of a run: counted, and the first of them printed.

pub struct Differences {
    count: u64,
    /// how many are printed
    shown: u64,
}

impl Differences {
    /// None so far. Where `quiet` is set none will be printed.
    pub fn new(quiet: bool) -> Differences {
        Differences { count: 0, shown: if quiet { 0 } else { 10 } }
    }

    /// Counts one.
    pub fn add(&mut self, text: impl FnOnce() -> String) {
        self.count += 1;
        if self.count <= self.shown {
            println!("DIFFERENCE {}", text());
        }
    }

    /// Counts a failure of the program itself.
    pub fn broke(&mut self, how: &str) {
        if self.shown > 0 {
            println!("the program under test {how}");
        }
        self.count += 1;
    }

    pub fn count(&self) -> u64 {
        self.count
    }
}
