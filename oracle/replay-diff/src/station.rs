//! Several schedules on one station, each of a motor of its own. The Rust runs one motor at a time; on
//! the station each must answer as if it were alone, so the sessions are merged by time.
use crate::compare::Text;
use crate::make::{Case, Expected, Made};
use crate::merge::merge;
use crate::waits::source;
use common::random::Random;
use ops::log::{Log, What};
use ops::session::Session;

/// How many motors a station has at most, and how many are taken together.
const MOST: usize = 8;
const SIZES: [usize; 8] = [1, 1, 1, 1, 2, 2, 3, MOST];

/// A schedule by its number.
pub struct Member {
    pub index: u64,
    pub case: Case,
    pub expected: Expected,
}

impl Member {
    /// None where every attempt was thrown away.
    pub fn of(index: u64, made: Made) -> Option<Member> {
        let (case, expected) = made.good?;
        Some(Member {
            index,
            case,
            expected,
        })
    }
}

pub struct Station {
    pub members: Vec<Member>,
}

impl Station {
    /// The numbers of its schedules.
    pub fn numbers(&self) -> Vec<u64> {
        self.members.iter().map(|member| member.index).collect()
    }

    pub fn session(&self) -> Session {
        merge(self.members.iter().map(|member| &member.expected.session))
    }

    pub fn text(&self) -> Text {
        match &self.members[..] {
            [only] => Text::of(&only.expected.session),
            _ => Text::of(&self.session()),
        }
    }

    fn takes(&self, log: &Log) -> bool {
        let mut logs = self.members.iter().map(|member| &member.expected.log);
        logs.all(|other| apart(other, log) && apart(log, other))
    }
}

/// Whether the ids differ, and none of the frames in one log is a frame of the other's motor.
fn apart(one: &Log, other: &Log) -> bool {
    let strays = |what: &What| match what {
        What::Heard(frame, _, _) => source(frame) == Some(other.motor),
        _ => false,
    };
    one.motor != other.motor && !one.entries.iter().any(|entry| strays(&entry.what))
}

/// Puts schedules together on stations of one to eight motors, as a seed says.
pub fn stations(seed: u64, members: Vec<Member>) -> Vec<Station> {
    let first = members.first().map_or(0, |member| member.index);
    let mut random = Random::new(seed, &format!("stations from {first}"));
    let mut all: Vec<Station> = Vec::new();
    let mut size = 1;
    for member in members {
        match all.last_mut() {
            Some(last) if last.members.len() < size && last.takes(&member.expected.log) => {
                last.members.push(member);
            }
            _ => {
                size = random.one_of(&SIZES);
                let members = vec![member];
                all.push(Station { members });
            }
        }
    }
    all
}

/// The session of cases together. An error says why one of them isn't a case, or that they don't go
/// together.
pub fn together(cases: &[Case]) -> Result<Session, String> {
    let mut station = Station {
        members: Vec::new(),
    };
    for (index, case) in cases.iter().enumerate() {
        let expected = case.expected()?;
        if !station.takes(&expected.log) {
            return Err("a frame of one is of another's motor".to_string());
        }
        station.members.push(Member {
            index: index as u64,
            case: case.clone(),
            expected,
        });
    }
    Ok(station.session())
}

#[cfg(test)]
mod tests {
    use super::*;
    use crate::make::make;

    fn members(seed: u64) -> Vec<Member> {
        let members = (0..400).filter_map(|index| Member::of(index, make(seed, index)));
        members.collect()
    }

    /// No schedule is lost, and a station has no id twice.
    #[test]
    fn all_are_placed() {
        let stations = stations(1, members(1));
        let numbers: Vec<u64> = stations.iter().flat_map(Station::numbers).collect();
        assert_eq!(numbers.len(), 400);
        assert!(numbers.windows(2).all(|pair| pair[0] < pair[1]));
        for station in &stations {
            let ids = station
                .members
                .iter()
                .map(|member| member.case.schedule.motor);
            let ids: std::collections::BTreeSet<u16> = ids.collect();
            assert_eq!(ids.len(), station.members.len());
        }
        assert!(stations.iter().any(|station| station.members.len() > 3));
    }

    /// Each motor's events and answers are on the station as they are alone, in the same order.
    #[test]
    fn each_as_alone() {
        for station in stations(2, members(2)) {
            let cases: Vec<Case> = station.members.iter().map(|m| m.case.clone()).collect();
            let session = together(&cases).expect("they go together");
            assert_eq!(session, station.session());
            for member in &station.members {
                let own = &member.expected.session.exchanges;
                let mut wanted = own.iter();
                let mut next = wanted.next();
                for exchange in &session.exchanges {
                    if Some(exchange) == next {
                        next = wanted.next();
                    }
                }
                assert!(next.is_none());
            }
        }
    }
}
