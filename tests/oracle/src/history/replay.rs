//! Replaying a history: lines in, answers out, both in blocks.

use std::io::{self, BufRead, BufReader, BufWriter, Read, Write};

use super::answer::answer_line;

const BLOCK: usize = 1 << 16;

/// Answers every call of a history, line by line.
pub fn replay(input: impl Read, output: impl Write) -> io::Result<()> {
    let mut input = BufReader::with_capacity(BLOCK, input);
    let mut output = BufWriter::with_capacity(BLOCK, output);
    let mut book = None;
    let mut line = Vec::new();
    while input.read_until(b'\n', &mut line)? > 0 {
        let text = line.strip_suffix(b"\n").unwrap_or(&line);
        if let Some(answer) = answer_line(&mut book, text) {
            output.write_all(answer.as_bytes())?;
            output.write_all(b"\n")?;
        }
        line.clear();
    }
    output.flush()
}

/// The answers to a history that is in memory.
pub fn answers(history: &[u8]) -> Vec<u8> {
    let mut output = Vec::new();
    replay(history, &mut output).expect("memory can be read and written");
    output
}

#[cfg(test)]
mod tests {
    use super::*;

    fn answers_to(history: &str) -> String {
        String::from_utf8(answers(history.as_bytes())).expect("answers are text")
    }

    const FOUND: &str = "found 2023 200 400 200 200 240 240 160 100\n";
    const FOUND_2014: &str = "found 2014 200 400 200 200 240 240 160 100\n";

    #[test]
    fn nothing_answers_nothing() {
        assert_eq!(answers_to(""), "");
        assert_eq!(answers_to("\n\n# end\n#\n"), "");
    }

    #[test]
    fn before_a_founding() {
        let history = "end\nconvert\nopen 2024 6 27 1\nsheet 0 months settlements\ncheck 9 9 9 9\nbook\n\
                       bare 0 0 6000 200 0 6200\nend 1\nfound 2023 1 2 3 4 5 6 7 8\nfound 1 2 3 4 5 6 7 8 9\nend";
        let expected = "no book\nno book\nno book\nno book\nno book\nno book\nwithin:5800:6200\n\
                        not a call\nrefused 13\nrefused 17\nno book\n";
        assert_eq!(answers_to(history), expected);
    }

    #[test]
    fn a_last_line_without_a_newline_counts() {
        assert_eq!(answers_to("end\nend"), "no book\nno book\n");
        assert_eq!(answers_to("end\n "), "no book\nnot a call\n");
    }

    #[test]
    fn a_refused_founding_leaves_the_book() {
        let history =
            format!("{FOUND}open 2024 6 27 1\nfound 2023 0 0 0 0 0 0 0 0\nend\n{FOUND}end\n");
        let expected = "founded\nopened 0 0 0 0 0 0 0 0\nrefused 13\nrefused 12\nfounded\n\
                        refused 2\n";
        assert_eq!(answers_to(&history), expected);
    }

    /// The edition of each line of a book.
    fn editions_in(answers: &str) -> Vec<&str> {
        let editions = answers
            .lines()
            .filter_map(|line| line.split_once(" edition="));
        editions.map(|(_, edition)| edition).collect()
    }

    #[test]
    fn a_founding_changes_the_edition_only_where_it_is_accepted() {
        let history = format!(
            "{FOUND}book\nfound 2014 1 2 3 4 5 6 7 8\nbook\nfound 2015 200 400 200 200 240 240 160 100\n\
             book\n{FOUND_2014}book\nfound 2023 1 2 3 4 5 6 7 8\nbook\n{FOUND}book\n"
        );
        let answers = answers_to(&history);
        assert_eq!(
            editions_in(&answers),
            ["2023", "2023", "2023", "2014", "2014", "2023"]
        );
        let others = answers.lines().filter(|line| !line.starts_with("book"));
        assert_eq!(
            others.collect::<Vec<_>>(),
            [
                "founded",
                "refused 13",
                "refused 17",
                "founded",
                "refused 13",
                "founded"
            ]
        );
    }

    #[test]
    fn a_conversion_changes_the_edition_only_where_it_is_accepted() {
        let history = format!(
            "{FOUND_2014}book\nopen 2024 6 27 1\nconvert\nconvert 1\nbook\n{FOUND_2014}convert\nbook\nconvert\n\
             book\nopen 2024 6 27 1\nconvert\nbook\n{FOUND_2014}book\n"
        );
        let answers = answers_to(&history);
        assert_eq!(
            editions_in(&answers),
            ["2014", "2014", "2023", "2023", "2023", "2014"]
        );
        let others = answers.lines().filter(|line| !line.starts_with("book"));
        let opened = "opened 0 0 0 0 0 0 0 0";
        assert_eq!(
            others.collect::<Vec<_>>(),
            [
                "founded",
                opened,
                "refused 2",
                "not a call",
                "founded",
                "converted",
                "converted",
                opened,
                "refused 2",
                "founded"
            ]
        );
    }

    /// The opening and the sheets of a day in June 2024, with July and September Corn.
    fn day_with(day: u32, corn: &str) -> String {
        let others =
            (1..8).map(|product| format!("sheet {product} months 24294 settlements 6000\n"));
        format!(
            "open 2024 6 {day} {}\nsheet 0 months 24294 24296 settlements {corn}\n{}",
            30 - day,
            others.collect::<String>()
        )
    }

    /// Two contracts at I expand Corn, and on the third day it reverts.
    #[test]
    fn a_conversion_waits_until_every_group_is_at_the_initial_level() {
        let history = format!(
            "{FOUND_2014}{}end\n{}convert\nend\nconvert\nbook\n{}convert\nend\nconvert\nbook\n",
            day_with(3, "6000 6000"),
            day_with(4, "6200 6200"),
            day_with(5, "6300 6200"),
        );
        let answers = answers_to(&history);
        let is_conversion = |line: &&str| line.starts_with("refused") || *line == "converted";
        let conversions: Vec<&str> = answers.lines().filter(is_conversion).collect();
        assert_eq!(
            conversions,
            ["refused 2", "refused 18", "refused 2", "converted"]
        );
        assert_eq!(editions_in(&answers), ["2014", "2023"]);
    }

    #[test]
    fn the_book_as_a_line() {
        let history = format!(
            "{FOUND}book\nopen 2024 6 27 1\nsheet 0 months 24294 24296 settlements 6000 6010\nbook"
        );
        let amounts = "level=00000 mark=00000 I=200,400,200,200,240,240,160,100 \
                       E=320,600,300,300,360,360,240,150 windows=[];[];[];[];[];[];[];[]";
        let expected = format!(
            "founded\nbook open=0 date=none left=- {amounts} in=-;-;-;-;-;-;-;- \
             last=-;-;-;-;-;-;-;- edition=2023\nopened 0 0 0 0 0 0 0 0\nfiled\nbook open=1 date=2024-6-27 \
             left=1 {amounts} in=[24294:6000,24296:6010];-;-;-;-;-;-;- last=-;-;-;-;-;-;-;- \
             edition=2023\n"
        );
        assert_eq!(answers_to(&history), expected);
    }
}
