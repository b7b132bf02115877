//! The comparison: whole outputs, byte for byte. Where they differ, whose answers differ first.
use ops::session::{Exchange, Session};

/// What one session sends and must get; `fresh` and its answer come first.
#[derive(Clone, Debug)]
pub struct Text {
    pub input: String,
    pub output: String,
}

impl Text {
    pub fn of(session: &Session) -> Text {
        Text {
            input: format!("fresh\n{}", session.input()),
            output: format!("ok\n{}", session.output()),
        }
    }
}

/// The inputs one after another.
pub fn input<'a>(texts: impl IntoIterator<Item = &'a Text>) -> String {
    texts.into_iter().map(|text| text.input.as_str()).collect()
}

/// The place of the first session whose output isn't as it must be. What is left over is the last
/// one's.
pub fn first_wrong(texts: &[Text], actual: &[u8]) -> Option<usize> {
    let mut rest = actual;
    for (i, text) in texts.iter().enumerate() {
        match rest.strip_prefix(text.output.as_bytes()) {
            Some(after) => rest = after,
            None => return Some(i),
        }
    }
    (!rest.is_empty()).then(|| texts.len().saturating_sub(1))
}

/// The first difference in a session: the exchange, and what came in place of its answers.
#[derive(Clone, Debug, PartialEq, Eq)]
pub struct Difference {
    pub exchange: usize,
    pub actual: Vec<String>,
}

/// How many lines are shown of what came.
const SHOWN: usize = 20;

/// Where the output of a session alone, `fresh` included, differs.
pub fn difference(session: &Session, actual: &[u8]) -> Option<Difference> {
    let fresh = Exchange {
        event: "fresh".to_string(),
        answers: vec!["ok".to_string()],
    };
    let mut rest = actual;
    let exchanges = std::iter::once(&fresh).chain(&session.exchanges);
    for (i, exchange) in exchanges.enumerate() {
        let expected: String = exchange.answers.iter().flat_map(|a| [a, "\n"]).collect();
        match rest.strip_prefix(expected.as_bytes()) {
            Some(after) => rest = after,
            None => return Some(shown(i, rest, exchange.answers.len())),
        }
    }
    let end = session.exchanges.len();
    (!rest.is_empty()).then(|| shown(end, rest, SHOWN))
}

/// As many lines as were expected, and one at least.
fn shown(exchange: usize, rest: &[u8], lines: usize) -> Difference {
    let text = String::from_utf8_lossy(rest);
    let lines = text.split_inclusive('\n').take(lines.clamp(1, SHOWN));
    let line = |line: &str| match line.strip_suffix('\n') {
        Some(whole) => whole.to_string(),
        None => format!("{line} (no line end)"),
    };
    Difference {
        exchange: exchange.saturating_sub(1),
        actual: lines.map(line).collect(),
    }
}

/// A session as text, with the expected and the actual answers at the first difference.
pub fn print(session: &Session, difference: &Difference) -> String {
    let mut lines = Vec::new();
    for (i, exchange) in session.exchanges.iter().enumerate() {
        let here = i == difference.exchange;
        let mark = if here { '>' } else { ' ' };
        lines.push(format!("{mark} {}", exchange.event));
        let name = if here { "expected" } else { "" };
        let answers = exchange.answers.iter();
        lines.extend(answers.map(|answer| format!("    {name:8}  {answer}")));
        if here {
            let actual = difference.actual.iter();
            lines.extend(actual.map(|answer| format!("    actual    {answer}")));
            if difference.actual.is_empty() {
                lines.push("    actual    nothing".to_string());
            }
        }
    }
    lines
        .into_iter()
        .flat_map(|line| [line, "\n".into()])
        .collect()
}

#[cfg(test)]
mod tests {
    use super::*;

    fn session(answers: &[&[&str]]) -> Session {
        let exchange = |answers: &&[&str]| Exchange {
            event: "step 1 2".to_string(),
            answers: answers.iter().map(|answer| answer.to_string()).collect(),
        };
        Session {
            exchanges: answers.iter().map(exchange).collect(),
        }
    }

    fn texts() -> Vec<Text> {
        let sessions = [session(&[&["a", "b"], &["c"]]), session(&[&["d"]])];
        sessions.iter().map(Text::of).collect()
    }

    #[test]
    fn every_byte_counts() {
        let good = "ok\na\nb\nc\nok\nd\n";
        assert_eq!(first_wrong(&texts(), good.as_bytes()), None);
        for at in 0..good.len() {
            let mut changed = good.as_bytes().to_vec();
            changed[at] ^= 1;
            let which = usize::from(at >= "ok\na\nb\nc\n".len());
            assert_eq!(first_wrong(&texts(), &changed), Some(which));
            let mut without = good.as_bytes().to_vec();
            without.remove(at);
            assert!(first_wrong(&texts(), &without).is_some());
            assert!(first_wrong(&texts(), &good.as_bytes()[..at]).is_some());
        }
    }

    #[test]
    fn what_is_left_over_is_wrong() {
        assert_eq!(first_wrong(&texts(), b"ok\na\nb\nc\nok\nd\n\n"), Some(1));
        assert_eq!(first_wrong(&[], b"x"), Some(0));
        assert_eq!(first_wrong(&[], b""), None);
    }

    #[test]
    fn the_first_difference() {
        let session = session(&[&["a", "b"], &["c"]]);
        let found = |actual: &str| difference(&session, actual.as_bytes());
        let wrong = |exchange, actual: &[&str]| {
            let actual = actual.iter().map(|line| line.to_string()).collect();
            Some(Difference { exchange, actual })
        };
        assert_eq!(found("ok\na\nb\nc\n"), None);
        assert_eq!(found("ok\na\nx\nc\n"), wrong(0, &["a", "x"]));
        assert_eq!(found("ok\na\nb\ncc\n"), wrong(1, &["cc"]));
        assert_eq!(found("ok\na\nb\n"), wrong(1, &[]));
        assert_eq!(found("ok\na\nb\nc\nd\n"), wrong(1, &["d"]));
        assert_eq!(found("ok\na\nb\nc"), wrong(1, &["c (no line end)"]));
        let text = print(&session, &wrong(1, &["x"]).unwrap());
        assert!(text.ends_with("> step 1 2\n    expected  c\n    actual    x\n"));
    }
}
