//! Calls as lines of a history.

use crate::history::call::Call;

/// The line of a call, without its newline.
pub fn line(call: &Call) -> String {
    line_with(call, |number| number.to_string())
}

/// The line of a call, with its numbers written in a way of one's own.
pub fn line_with(call: &Call, mut number: impl FnMut(u32) -> String) -> String {
    let mut words = Words {
        line: String::new(),
        number: &mut number,
    };
    match call {
        Call::Found(call) => words.call("found", &[&[call.edition], &call.limits[..]].concat()),
        Call::Open(numbers) => words.call("open", numbers),
        Call::Sheet(sheet) => {
            words.call("sheet", &[sheet.product]);
            words.call(" months", &sheet.months);
            words.call(" settlements", &sheet.settlements);
        }
        Call::End => words.call("end", &[]),
        Call::Convert => words.call("convert", &[]),
        Call::Check(numbers) => words.call("check", numbers),
        Call::Bare(numbers) => words.call("bare", numbers),
        Call::Book => words.call("book", &[]),
    }
    words.line
}

struct Words<'a> {
    line: String,
    number: &'a mut dyn FnMut(u32) -> String,
}

impl Words<'_> {
    fn call(&mut self, name: &str, numbers: &[u32]) {
        self.line.push_str(name);
        for &number in numbers {
            self.line.push(' ');
            let word = (self.number)(number);
            self.line.push_str(&word);
        }
    }
}

#[cfg(test)]
mod tests {
    use super::*;
    use crate::history::call::parse;

    #[test]
    fn lines_are_read_as_they_were_written() {
        let lines = [
            "found 2014 1 2 3 4 5 6 7 8",
            "open 2024 6 27 1",
            "sheet 0 months 24294 24296 settlements 6000",
            "sheet 0 months settlements",
            "end",
            "convert",
            "check 0 1 24294 6000",
            "bare 0 0 6000 200 0 6200",
            "book",
        ];
        for text in lines {
            let call = parse(text.as_bytes()).expect("a call");
            assert_eq!(line(&call), text);
            let zeros = line_with(&call, |number| format!("00{number}"));
            assert_eq!(parse(zeros.as_bytes()), Some(call));
        }
    }
}
