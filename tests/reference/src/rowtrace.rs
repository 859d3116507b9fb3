//! What the program rowtrace prints for a text on its standard input (end of document 01).

use crate::calls::decode;
use crate::curve::Code;
use crate::picture::picture_size;
use crate::refusal::{Refusal, BEYOND_REACH, WRONG_LENGTH};
use crate::steps::{step_count, State, StepReport};
use std::fmt::Write;

const LONGEST_TEXT: usize = 4096;

/// What a well-formed text asks for.
struct Request {
    q: u64,
    u: u64,
    row: Vec<u8>,
}

/// The bytes printed for a text; every line ends with a newline.
pub fn rowtrace(text: &[u8]) -> Vec<u8> {
    let printed = match parse(text) {
        Some(request) => answer(&request),
        None => refusal_line(WRONG_LENGTH),
    };
    printed.into_bytes()
}

fn refusal_line(number: Refusal) -> String {
    format!("refuse {number}\n")
}

/// The request of a text of exactly two lines, or nothing for any other text.
fn parse(text: &[u8]) -> Option<Request> {
    if text.len() > LONGEST_TEXT {
        return None;
    }
    let pieces: Vec<&[u8]> = text.split(|&byte| byte == b'\n').collect();
    // A newline ends each of the two lines, so a third and empty piece follows them.
    let (code_line, row_line) = match pieces[..] {
        [code_line, row_line, []] => (code_line, row_line),
        _ => return None,
    };
    let (q, u) = match numbers(code_line)?[..] {
        [q, u] => (q, u),
        _ => return None,
    };
    let row = numbers(row_line)?
        .into_iter()
        .map(|number| u8::try_from(number).ok());
    Some(Request {
        q,
        u,
        row: row.collect::<Option<Vec<u8>>>()?,
    })
}

/// The numbers of a line, at least one, with a single space between any two.
fn numbers(line: &[u8]) -> Option<Vec<u64>> {
    line.split(|&byte| byte == b' ').map(number).collect()
}

/// A decimal number of at most three digits; only 0 itself begins with 0.
fn number(digits: &[u8]) -> Option<u64> {
    let well_formed = (1..=3).contains(&digits.len())
        && digits.iter().all(u8::is_ascii_digit)
        && (digits[0] != b'0' || digits.len() == 1);
    if !well_formed {
        return None;
    }
    Some(
        digits
            .iter()
            .fold(0, |so_far, digit| 10 * so_far + u64::from(digit - b'0')),
    )
}

/// The trace of a request, or the one line that refuses it.
fn answer(request: &Request) -> String {
    let (mut message, mut corrected) = ([0; 64], [0; 64]);
    let mut work = vec![0; picture_size(4)];
    let Request { q, u, row } = request;
    let decoded = decode(*q, *u, row, &mut work, &mut message, &mut corrected);
    match (Code::named(*q, *u), decoded) {
        (Ok(code), Ok(count)) => {
            let votes = &message[..code.k()];
            trace(code, row) + &format!("accept {count} :{}\n", spaced(votes))
        }
        (Ok(code), Err(BEYOND_REACH)) => trace(code, row) + &refusal_line(BEYOND_REACH),
        (_, Err(number)) => refusal_line(number),
        (Err(number), Ok(_)) => unreachable!("decoded although the code gives {number}"),
    }
}

/// The line with q and u, and one line for each step.
fn trace(code: Code, row: &[u8]) -> String {
    let mut lines = format!("{} {}\n", code.q(), code.u);
    let mut state = State::start(code, row);
    for _ in 0..step_count(code.q()) {
        let report = state.step();
        lines += &step_line(&report, &state);
    }
    lines
}

fn step_line(report: &StepReport, after: &State) -> String {
    let vote = report
        .vote
        .map_or("-".to_string(), |symbol| symbol.to_string());
    let f_degrees = spaced(&after.leading_degrees(&after.f));
    let g_degrees = spaced(&after.leading_degrees(&after.g));
    format!("{} {vote}{f_degrees}{g_degrees}\n", report.s)
}

/// The numbers, each with a space before it.
fn spaced<T: std::fmt::Display>(numbers: &[T]) -> String {
    let mut text = String::new();
    for number in numbers {
        write!(text, " {number}").expect("a string takes every text");
    }
    text
}

#[cfg(test)]
mod tests {
    use super::*;

    fn printed(text: &str) -> String {
        String::from_utf8(rowtrace(text.as_bytes())).unwrap()
    }

    #[test]
    fn example_of_document_01() {
        let expected = "2 4\n9 - 1 0 4 3\n8 - 1 0 4 3\n7 - 1 0 4 3\n6 - 1 0 4 3\n\
                        5 - 1 0 4 3\n4 0 1 0 4 3\n3 0 1 0 4 3\n2 0 1 0 4 3\n1 - 1 0 4 3\n\
                        0 0 1 0 4 3\naccept 1 : 0 0 0 0\n";
        assert_eq!(printed("2 4\n1 0 0 0 0 0 0 0\n"), expected);
    }

    #[test]
    fn beyond_reach_prints_all_lines_first() {
        let text = printed("2 4\n1 1 0 0 0 0 0 0\n");
        assert_eq!(text.lines().count(), 12);
        assert!(text.starts_with("2 4\n9 - "));
        assert!(text.ends_with("\nrefuse 8\n"));
    }

    #[test]
    fn calls_are_refused_by_their_number_alone() {
        let row_of_8 = "0 0 0 0 0 0 0 0\n";
        for (first, number) in [("3 4", 1), ("0 0", 1), ("999 4", 1), ("2 1", 2), ("2 8", 2)] {
            assert_eq!(
                printed(&format!("{first}\n{row_of_8}")),
                format!("refuse {number}\n")
            );
        }
        assert_eq!(printed("2 4\n0 0 0 0 0 0 0\n"), "refuse 4\n");
        assert_eq!(printed("2 4\n0 0 0 0 0 0 0 4\n"), "refuse 5\n");
        assert_eq!(printed("2 4\n0 0 0 0 0 0 0 255\n"), "refuse 5\n");
    }

    #[test]
    fn any_other_text_is_refused_with_4() {
        let bad = [
            "",
            "\n",
            "\n\n",
            "2 4",
            "2 4\n",
            "2 4\n\n",
            "3 4\n0",
            "3 4\n0\n\n",
            "3 4\n0\n0\n",
            "3\n0\n",
            "3 4 5\n0\n",
            " 3 4\n0\n",
            "3 4 \n0\n",
            "3  4\n0\n",
            "3 4\n 0\n",
            "3 4\n0 \n",
            "3 4\n0  0\n",
            "03 4\n0\n",
            "3 4\n00\n",
            "3 4\n01\n",
            "1000 4\n0\n",
            "3 4\n256\n",
            "3 4\n1000\n",
            "+3 4\n0\n",
            "3 -4\n0\n",
            "3 4\r\n0\r\n",
            "3\t4\n0\n",
            "3 4\n0,0\n",
            "3 4\n0\0\n",
            "\n3 4\n0\n",
            "3 4\nx\n",
            "3 0x4\n0\n",
        ];
        for text in bad {
            assert_eq!(printed(text), "refuse 4\n", "text {text:?}");
        }
        assert_eq!(rowtrace(b"3 4\n\xff\n"), b"refuse 4\n");
    }

    #[test]
    fn length_of_the_text_is_bounded() {
        // q = 3 is refused with 1 only where the text itself is in order.
        let of_length = |length: usize| format!("3 4\n{}1\n", "1 ".repeat((length - 6) / 2));
        let (longest, longer) = (of_length(4096), of_length(4098));
        assert_eq!(
            (longest.len(), printed(&longest)),
            (4096, "refuse 1\n".to_string())
        );
        assert_eq!(
            (longer.len(), printed(&longer)),
            (4098, "refuse 4\n".to_string())
        );
        let odd = longest.replacen("1 ", "10 ", 1);
        assert_eq!((odd.len(), printed(&odd)), (4097, "refuse 4\n".to_string()));
    }
}
