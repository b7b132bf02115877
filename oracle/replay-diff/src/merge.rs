//! Several sessions as one, by time.
use crate::text::time;
use ops::session::{Exchange, Session};

/// The exchanges of all by their times; where they are equal, those of the first session first. What
/// has no time, a look, stays with what stands before it.
pub fn merge<'a>(sessions: impl IntoIterator<Item = &'a Session>) -> Session {
    let mut all: Vec<(u64, &Exchange)> = sessions.into_iter().flat_map(timed).collect();
    all.sort_by_key(|(time, _)| *time);
    let exchanges = all.into_iter().map(|(_, exchange)| exchange.clone());
    Session {
        exchanges: exchanges.collect(),
    }
}

fn timed(session: &Session) -> impl Iterator<Item = (u64, &Exchange)> {
    let mut last = 0;
    session.exchanges.iter().map(move |exchange| {
        last = time(&exchange.event).unwrap_or(last);
        (last, exchange)
    })
}

#[cfg(test)]
mod tests {
    use super::*;

    fn session(events: &[&str]) -> Session {
        let exchange = |event: &&str| Exchange {
            event: event.to_string(),
            answers: Vec::new(),
        };
        Session {
            exchanges: events.iter().map(exchange).collect(),
        }
    }

    #[test]
    fn by_time_and_stable() {
        let a = session(&["step 2 10", "look 2", "step 2 30", "look 2"]);
        let b = session(&["step 6 10", "look 6", "step 6 20", "look 6"]);
        let both = [
            "step 2 10",
            "look 2",
            "step 6 10",
            "look 6",
            "step 6 20",
            "look 6",
            "step 2 30",
            "look 2",
        ];
        assert_eq!(merge([&a, &b]), session(&both));
    }
}
