//! What a run is held to: all sides of a measure gave the same. No time is among it.

use std::process::ExitCode;

#[derive(Default)]
pub struct Agreed {
    passed: usize,
    failed: usize,
}

impl Agreed {
    /// A side that gave something else is named; its measures are of something else too.
    pub fn see(&mut self, same: bool, what: &str) {
        if same {
            self.passed += 1;
        } else {
            self.failed += 1;
            println!("DIFFERS: {what}");
        }
    }

    /// Ends with the line of counts that the gate reads.
    pub fn finish(self) -> ExitCode {
        let Agreed { passed, failed } = self;
        println!("\nBytes and answers of all sides, compared before they were timed:\n");
        println!("{passed} passed, {failed} failed");
        ExitCode::from(u8::from(failed > 0 || passed == 0))
    }
}
