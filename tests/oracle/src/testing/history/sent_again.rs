//! Orders sent again at the ends of the span that their check gave, and one tick beyond each end.

use super::compare::{answered_lines, lines};
use super::text;
use crate::history::answer;
use crate::history::call::{self, Call};
use crate::prices::is_price;
use crate::products::product;
use crate::refusal::Refusal;
use crate::verdict::{Span, Verdict};

/// A history in which four orders follow each check that gave a span, and the answers that are due.
#[derive(Default)]
pub struct SentAgain {
    pub text: Vec<u8>,
    pub expected: Vec<u8>,
    /// How many orders were sent again.
    pub orders: usize,
}

/// Takes each span from a program's own answers to a history; they stay what they were.
pub fn sent_again(history: &[u8], answers: &[u8]) -> SentAgain {
    let mut again = SentAgain::default();
    for (line, answer) in answered_lines(history).into_iter().zip(lines(answers)) {
        again.push(line, answer);
        if let Some((order, span)) = order_of(line).zip(span_of(answer)) {
            again.send(&order, span);
        }
    }
    again
}

/// A check or a bare check, and its tick.
struct Order {
    call: Call,
    tick: u32,
}

impl Order {
    /// The line of the same order at another price.
    fn at(&self, price: u32) -> String {
        let mut call = self.call.clone();
        if let Call::Check([.., own]) | Call::Bare([.., own]) = &mut call {
            *own = price;
        }
        text::line(&call)
    }
}

fn order_of(line: &[u8]) -> Option<Order> {
    let call = call::parse(line)?;
    let (Call::Check([number, size, ..]) | Call::Bare([number, size, ..])) = call else {
        return None;
    };
    let tick = product(number)?.tick(size)?;
    Some(Order { call, tick })
}

fn span_of(answer: &[u8]) -> Option<Span> {
    let mut words = std::str::from_utf8(answer).ok()?.split(':');
    let ("within" | "below" | "above") = words.next()? else {
        return None;
    };
    let mut end = || words.next()?.parse().ok();
    Some(Span {
        lowest: end()?,
        highest: end()?,
    })
}

impl SentAgain {
    fn push(&mut self, line: &[u8], answer: &[u8]) {
        self.text.extend_from_slice(line);
        self.text.push(b'\n');
        self.expected.extend_from_slice(answer);
        self.expected.push(b'\n');
    }

    /// An end is within, and beyond it no price is; each answer has the same span.
    fn send(&mut self, order: &Order, span: Span) {
        let beyond = |price, verdict| match is_price(price, order.tick) {
            true => answer::verdict(verdict),
            false => answer::refused(Refusal::Price.number()),
        };
        // A program's ends may be any numbers.
        let below = span.lowest.wrapping_sub(order.tick);
        let above = span.highest.wrapping_add(order.tick);
        let within = answer::verdict(Verdict::Within(span));
        let orders = [
            (span.lowest, within.clone()),
            (span.highest, within),
            (below, beyond(below, Verdict::Below(span))),
            (above, beyond(above, Verdict::Above(span))),
        ];
        for (price, answer) in orders {
            self.push(order.at(price).as_bytes(), answer.as_bytes());
            self.orders += 1;
        }
    }
}

#[cfg(test)]
mod tests {
    use super::*;
    use crate::history::replay::answers;
    use crate::testing::history::scenario;

    fn text(bytes: &[u8]) -> &str {
        std::str::from_utf8(bytes).expect("histories and answers are text")
    }

    #[test]
    fn four_orders_follow_each_span() {
        let again = sent_again(
            b"# a mini\nbare 0 1 100 200 0 7\nend\nbare 0 1 100 200 1 7\n",
            b"within:1:300\nno book\nfree\n",
        );
        let orders = "bare 0 1 100 200 0 7\nbare 0 1 100 200 0 1\nbare 0 1 100 200 0 300\n\
                      bare 0 1 100 200 0 0\nbare 0 1 100 200 0 301\nend\nbare 0 1 100 200 1 7\n";
        let due = "within:1:300\nwithin:1:300\nwithin:1:300\nrefused 8\nabove:1:300\n\
                   no book\nfree\n";
        assert_eq!(text(&again.text), orders);
        assert_eq!(text(&again.expected), due);
        assert_eq!(again.orders, 4);
    }

    /// Of every span that a drawn history gives.
    #[test]
    fn an_end_is_within_and_nothing_beyond_it() {
        for seed in 0..14 {
            let history = scenario::history(seed).text;
            let again = sent_again(&history, &answers(&history));
            assert!(again.orders > 100, "seed {seed}: {}", again.orders);
            assert_eq!(text(&answers(&again.text)), text(&again.expected));
        }
    }

    /// Whether a program that tells one span for another is seen by its answers to the orders sent again.
    fn is_seen(order: &str, span: &str, told: &str) -> bool {
        let program = |history: &[u8]| text(&answers(history)).replace(span, told);
        let again = sent_again(order.as_bytes(), program(order.as_bytes()).as_bytes());
        assert_eq!(again.orders, 4, "{order}");
        program(&again.text) != text(&again.expected)
    }

    #[test]
    fn a_false_end_is_seen() {
        let orders = [
            ("bare 0 0 6000 200 0 6000", (5_800, 6_200)),
            ("bare 0 0 100 200 0 2", (2, 300)),
            ("bare 0 1 100 200 0 301", (1, 300)),
            ("bare 0 0 999900 200 0 2", (999_700, 1_000_000)),
        ];
        for (order, (lowest, highest)) in orders {
            let shown = |lowest: u32, highest: u32| format!(":{lowest}:{highest}");
            let is_seen = |told: String| is_seen(order, &shown(lowest, highest), &told);
            assert!(!is_seen(shown(lowest, highest)), "{order}");
            for off in [1, 2] {
                assert!(is_seen(shown(lowest.saturating_sub(off), highest)));
                assert!(is_seen(shown(lowest + off, highest)));
                assert!(is_seen(shown(lowest, highest - off)));
                assert!(is_seen(shown(lowest, highest + off)));
            }
        }
    }
}
