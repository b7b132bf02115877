//! The part by hand: `event -> answer` lines, a further line of an answer after `->` alone. A line that
//! begins with `#` is the title of the session that follows.
use super::Titled;
use ops::session::{Exchange, Session};

const TEXT: &str = include_str!("by_hand.txt");

pub fn sessions() -> Vec<Titled> {
    read(TEXT)
}

fn read(text: &str) -> Vec<Titled> {
    let mut all: Vec<Titled> = Vec::new();
    for line in text.lines().filter(|line| !line.is_empty()) {
        if let Some(title) = line.strip_prefix("# ") {
            let exchanges = Vec::new();
            all.push(Titled {
                title: title.to_string(),
                session: Session { exchanges },
            });
        } else {
            let titled = all.last_mut().expect("a title comes first");
            exchange(line, &mut titled.session.exchanges);
        }
    }
    all
}

fn exchange(line: &str, exchanges: &mut Vec<Exchange>) {
    let (event, answer) = line.split_once("-> ").expect("each line has an answer");
    if !event.trim().is_empty() {
        exchanges.push(Exchange {
            event: event.trim().to_string(),
            answers: Vec::new(),
        });
    }
    let last = exchanges.last_mut().expect("an event comes first");
    last.answers.push(answer.to_string());
}

#[cfg(test)]
mod tests {
    use super::*;

    #[test]
    fn lines() {
        let all = read("# One\nlook 1 -> a\n  -> b\nstep 1 2 -> refused 6\n\n# Two\nlook 2 -> c\n");
        assert_eq!((all.len(), &all[1].title[..]), (2, "Two"));
        assert_eq!(all[0].session.input(), "look 1\nstep 1 2\n");
        assert_eq!(all[0].session.output(), "a\nb\nrefused 6\n");
    }
}
