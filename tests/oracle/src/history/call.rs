//! Reading a line of a history as a call.

#[derive(Clone, Debug, PartialEq, Eq)]
pub enum Call {
    Found(FoundCall),
    /// Year, month, day and left.
    Open([u32; 4]),
    Sheet(SheetCall),
    End,
    Convert,
    /// Product, size, month and price.
    Check([u32; 4]),
    /// Product, size, settlement, amount, spot and price.
    Bare([u32; 6]),
    Book,
}

#[derive(Clone, Copy, Debug, PartialEq, Eq)]
pub struct FoundCall {
    pub edition: u32,
    /// The initial limits.
    pub limits: [u32; 8],
}

#[derive(Clone, Debug, PartialEq, Eq)]
pub struct SheetCall {
    pub product: u32,
    pub months: Vec<u32>,
    pub settlements: Vec<u32>,
}

/// Whether a line is one that answers nothing.
pub fn is_passed_over(line: &[u8]) -> bool {
    line.is_empty() || line[0] == b'#'
}

/// The call of a line without its newline, or None where it is not one.
pub fn parse(line: &[u8]) -> Option<Call> {
    let mut words = line.split(|&byte| byte == b' ');
    let name = words.next()?;
    let arguments: Vec<&[u8]> = words.collect();
    match name {
        b"found" => Some(Call::Found(found(&arguments)?)),
        b"open" => Some(Call::Open(numbers(&arguments)?)),
        b"sheet" => Some(Call::Sheet(sheet(&arguments)?)),
        b"end" => arguments.is_empty().then_some(Call::End),
        b"convert" => arguments.is_empty().then_some(Call::Convert),
        b"check" => Some(Call::Check(numbers(&arguments)?)),
        b"bare" => Some(Call::Bare(numbers(&arguments)?)),
        b"book" => arguments.is_empty().then_some(Call::Book),
        _ => None,
    }
}

/// Exactly so many numbers.
fn numbers<const COUNT: usize>(words: &[&[u8]]) -> Option<[u32; COUNT]> {
    list(words)?.try_into().ok()
}

fn list(words: &[&[u8]]) -> Option<Vec<u32>> {
    words.iter().map(|word| number(word)).collect()
}

/// Digits alone, leading zeros included, of a value that has 32 bits.
fn number(word: &[u8]) -> Option<u32> {
    if word.is_empty() {
        return None;
    }
    let mut value: u32 = 0;
    for byte in word {
        if !byte.is_ascii_digit() {
            return None;
        }
        value = value.checked_mul(10)?.checked_add(u32::from(byte - b'0'))?;
    }
    Some(value)
}

/// The words after `found`: EDITION I0 .. I7.
fn found(words: &[&[u8]]) -> Option<FoundCall> {
    let [edition, limits @ ..] = numbers::<9>(words)?;
    Some(FoundCall { edition, limits })
}

/// The words after `sheet`: PRODUCT months m1 .. mk settlements s1 .. sj.
fn sheet(words: &[&[u8]]) -> Option<SheetCall> {
    let (product, words) = words.split_first()?;
    let words = words.strip_prefix(&[b"months".as_slice()])?;
    let middle = words.iter().position(|&word| word == b"settlements")?;
    Some(SheetCall {
        product: number(product)?,
        months: list(&words[..middle])?,
        settlements: list(&words[middle + 1..])?,
    })
}

#[cfg(test)]
mod tests {
    use super::*;

    fn sheet_call(product: u32, months: &[u32], settlements: &[u32]) -> Option<Call> {
        Some(Call::Sheet(SheetCall {
            product,
            months: months.to_vec(),
            settlements: settlements.to_vec(),
        }))
    }

    #[test]
    fn every_call() {
        assert_eq!(
            parse(b"found 2014 1 2 3 4 5 6 7 8"),
            Some(Call::Found(FoundCall {
                edition: 2014,
                limits: [1, 2, 3, 4, 5, 6, 7, 8]
            }))
        );
        assert_eq!(
            parse(b"open 2024 6 27 1"),
            Some(Call::Open([2024, 6, 27, 1]))
        );
        assert_eq!(parse(b"end"), Some(Call::End));
        assert_eq!(parse(b"convert"), Some(Call::Convert));
        assert_eq!(
            parse(b"check 0 1 24294 6000"),
            Some(Call::Check([0, 1, 24294, 6000]))
        );
        assert_eq!(
            parse(b"bare 0 0 6000 200 0 6200"),
            Some(Call::Bare([0, 0, 6000, 200, 0, 6200]))
        );
        assert_eq!(parse(b"book"), Some(Call::Book));
    }

    #[test]
    fn sheets_of_any_lengths() {
        assert_eq!(
            parse(b"sheet 0 months 1 2 settlements 3"),
            sheet_call(0, &[1, 2], &[3])
        );
        assert_eq!(
            parse(b"sheet 9 months settlements"),
            sheet_call(9, &[], &[])
        );
        assert_eq!(
            parse(b"sheet 9 months settlements 4"),
            sheet_call(9, &[], &[4])
        );
        let many = vec![7; 1_000];
        let line = format!("sheet 1 months{} settlements 8", " 7".repeat(1_000));
        assert_eq!(parse(line.as_bytes()), sheet_call(1, &many, &[8]));
    }

    #[test]
    fn numbers_of_32_bits_with_leading_zeros() {
        assert_eq!(number(b"4294967295"), Some(u32::MAX));
        assert_eq!(number(b"00000000000004294967295"), Some(u32::MAX));
        assert_eq!(number(b"000"), Some(0));
        let others = [
            &b""[..],
            b"4294967296",
            b"99999999999999999999",
            b"+1",
            b"-1",
            b"1 ",
            b"0x1",
        ];
        for word in others {
            assert_eq!(number(word), None, "{word:?}");
        }
    }

    const NO_CALLS: [&str; 38] = [
        " end",
        "end ",
        "end\r",
        "end\t",
        "End",
        "end 1",
        "convert 1",
        "convert 2023",
        "convert ",
        "Convert",
        "converted",
        "book 1",
        "books",
        " ",
        "\r",
        "open 2024 6 27",
        "open 2024 6 27 1 1",
        "open  2024 6 27 1",
        "open 2024 6 27 1 ",
        "open 2024 6 27 4294967296",
        "found",
        "found 1 2 3 4 5 6 7 8",
        "found 2023 1 2 3 4 5 6 7 8 9",
        "found 4294967296 1 2 3 4 5 6 7 8",
        "check 0 0 1",
        "bare 0 0 1 1 0",
        "sheet",
        "sheet 0",
        "sheet 0 months",
        "sheet 0 months 1 settlements 1 settlements 1",
        "sheet months 1 settlements 1",
        "sheet 0 settlements 1 months 1",
        " # no comment",
        "sheet 0 months 1 months 1 settlements 1",
        "sheet 0 1 settlements 1",
        "sheet 0 months  settlements",
        "sheet 0 months settlements ",
        "replay",
    ];

    #[test]
    fn lines_that_are_no_call() {
        for line in NO_CALLS {
            assert_eq!(parse(line.as_bytes()), None, "{line:?}");
        }
        assert_eq!(parse(b"\xff\xfe"), None);
        assert_eq!(parse(b"end\0"), None);
    }

    #[test]
    fn blank_lines_and_comments_are_passed_over() {
        assert!(is_passed_over(b""));
        assert!(is_passed_over(b"#"));
        assert!(is_passed_over(b"# end"));
        assert!(!is_passed_over(b" "));
        assert!(!is_passed_over(b" #"));
        assert!(!is_passed_over(b"\r"));
    }
}
