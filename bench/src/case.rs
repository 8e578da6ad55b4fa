//! One operation of one side, run many times.

/// An operation with its inputs.
pub struct Case {
    /// Its name on the command line.
    pub name: &'static str,
    run: Box<dyn FnMut(usize) -> u64>,
}

impl Case {
    /// A case whose operation takes the number of its turn, and gives a number that tells its answer.
    pub fn new(name: &'static str, mut operation: impl FnMut(usize) -> u64 + 'static) -> Self {
        Self {
            name,
            run: Box::new(move |count| {
                let mut sum = 0_u64;
                for turn in 0..count {
                    sum = sum.wrapping_add(operation(turn));
                }
                sum
            }),
        }
    }

    /// Runs the operation `count` times and gives the sum of the answers' numbers.
    pub fn run(&mut self, count: usize) -> u64 {
        (self.run)(count)
    }
}
