//! Counting tests: a line for each, and the totals last. Inputs that were drawn in one way are one test.

use std::process::ExitCode;

#[derive(Default)]
pub struct Score {
    passed: usize,
    failed: usize,
}

impl Score {
    pub fn pass(&mut self, what: &str) {
        self.passed += 1;
        println!("passed: {what}");
    }

    pub fn fail(&mut self, what: &str) {
        self.failed += 1;
        println!("FAILED: {what}");
    }

    /// A test of its own, and why it failed if it did.
    pub fn one(&mut self, name: &str, failure: Option<String>) {
        match failure {
            None => self.pass(name),
            Some(failure) => self.fail(&format!("{name}: {failure}")),
        }
    }

    /// One test over all inputs of a kind: it fails where any of them does, or where there are none.
    pub fn all(&mut self, kind: &str, failures: &[Option<String>]) {
        let tried = failures.len();
        let failed = failures.iter().flatten().count();
        match failures.iter().flatten().next() {
            Some(first) => self.fail(&format!("{failed} of {tried} {kind}, the first: {first}")),
            None if tried == 0 => self.fail(&format!("no {kind}")),
            None => self.pass(&format!("{tried} {kind}")),
        }
    }

    /// Prints the totals; having tested nothing is a failure too.
    pub fn finish(mut self) -> ExitCode {
        if self.passed + self.failed == 0 {
            self.fail("there was nothing to test");
        }
        println!("{} passed, {} failed", self.passed, self.failed);
        match self.failed {
            0 => ExitCode::SUCCESS,
            _ => ExitCode::FAILURE,
        }
    }
}

/// Why a program's output is not what it should have written, if it is not.
pub fn difference(expected: &str, output: Result<Vec<u8>, String>) -> Option<String> {
    match output {
        Ok(bytes) if bytes == expected.as_bytes() => None,
        Ok(bytes) => {
            let shown = String::from_utf8_lossy(&bytes);
            Some(format!(
                "expected {expected:?}, the program wrote {shown:?}"
            ))
        }
        Err(error) => Some(format!("expected {expected:?}, but {error}")),
    }
}

#[cfg(test)]
mod tests {
    use super::*;

    fn counts(failures: &[Option<String>]) -> (usize, usize) {
        let mut score = Score::default();
        score.all("inputs", failures);
        (score.passed, score.failed)
    }

    #[test]
    fn inputs_of_a_kind_are_one_test_that_any_one_can_fail() {
        assert_eq!(counts(&[None, None, None]), (1, 0));
        assert_eq!(counts(&[None, None, Some("other".to_string())]), (0, 1));
        assert_eq!(counts(&[]), (0, 1));
    }

    #[test]
    fn every_output_but_the_expected_one_differs() {
        assert_eq!(difference("a\n", Ok(b"a\n".to_vec())), None);
        assert!(difference("a\n", Ok(b"a".to_vec())).is_some());
        assert!(difference("a\n", Err("it hung".to_string())).is_some());
    }
}
