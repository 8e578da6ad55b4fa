//! Counts of cases, and the first difference of each group.

use std::fmt::Debug;

/// The cases of one group.
pub struct Group {
    name: &'static str,
    cases: u64,
    differ: u64,
    tallies: Vec<(&'static str, u64)>,
}

impl Group {
    fn new(name: &'static str) -> Self {
        Self {
            name,
            cases: 0,
            differ: 0,
            tallies: Vec::new(),
        }
    }

    /// One case: both answers, and its input if they differ. Numbers are shown in decimal.
    pub fn check<T: PartialEq + Debug>(&mut self, answers: (T, T), input: impl FnOnce() -> String) {
        self.cases += 1;
        if answers.0 != answers.1 {
            let (old, new) = answers;
            self.differs(&input(), format!("{old:?}"), format!("{new:?}"));
        }
    }

    /// The same for bytes, which are shown in hexadecimal.
    pub fn check_hex<T: PartialEq + Debug>(
        &mut self,
        answers: (T, T),
        input: impl FnOnce() -> String,
    ) {
        self.cases += 1;
        if answers.0 != answers.1 {
            let (old, new) = answers;
            self.differs(&input(), format!("{old:02X?}"), format!("{new:02X?}"));
        }
    }

    /// The same for answers that are compared already, each in words.
    pub fn check_text(&mut self, same: bool, words: impl FnOnce() -> (String, String, String)) {
        self.cases += 1;
        if !same {
            let (input, old, new) = words();
            self.differs(&input, old, new);
        }
    }

    /// Counts a difference, and shows the first of the group.
    #[cold]
    fn differs(&mut self, input: &str, old: String, new: String) {
        self.differ += 1;
        if self.differ == 1 {
            println!("DIFFERENCE in {}: {input}", self.name);
            println!("    old: {old}");
            println!("    new: {new}");
        }
    }

    /// Adds to a number that stands behind the count of cases.
    pub fn tally(&mut self, what: &'static str, n: u64) {
        match self.tallies.iter_mut().find(|t| t.0 == what) {
            Some(t) => t.1 += n,
            None => self.tallies.push((what, n)),
        }
    }

    fn print(&self) {
        let (name, cases) = (self.name, self.cases);
        let differ = match self.differ {
            0 => String::new(),
            n => format!("  {n} DIFFER"),
        };
        let tallies: Vec<String> = self
            .tallies
            .iter()
            .map(|(w, n)| format!("{n} {w}"))
            .collect();
        let line = format!("{name:<46} {cases:>12}{differ}  {}", tallies.join(", "));
        println!("{}", line.trim_end());
    }
}

/// All groups, in their order.
#[derive(Default)]
pub struct Report {
    groups: Vec<Group>,
    /// True when a group is not to be printed as it ends.
    pub quiet: bool,
}

impl Report {
    /// Runs a group; a name that was there goes on counting.
    pub fn group(&mut self, name: &'static str, run: impl FnOnce(&mut Group)) {
        let found = self.groups.iter().position(|g| g.name == name);
        let at = found.unwrap_or_else(|| {
            self.groups.push(Group::new(name));
            self.groups.len() - 1
        });
        run(&mut self.groups[at]);
        if !self.quiet {
            self.groups[at].print();
        }
    }

    /// All cases so far.
    pub fn cases(&self) -> u64 {
        self.groups.iter().map(|g| g.cases).sum()
    }

    /// All differences so far.
    pub fn differ(&self) -> u64 {
        self.groups.iter().map(|g| g.differ).sum()
    }

    /// Prints every group.
    pub fn print_all(&self) {
        for group in &self.groups {
            group.print();
        }
    }

    /// Prints the total; true when nothing differs.
    pub fn total(&self) -> bool {
        let differ = match self.differ() {
            0 => "no differences".to_string(),
            n => format!("{n} DIFFER"),
        };
        println!("{:<46} {:>12}  {differ}", "total", self.cases());
        self.differ() == 0
    }
}
