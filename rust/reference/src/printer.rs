//! A printer that kiosks share (rule 14): every print is a thing of its own. It stands in its kiosk's queue from the
//! start, with the turn in which it comes, and waits from that turn on.

use crate::Refusal;
use std::collections::VecDeque;

const KIOSKS: usize = 8;

/// What is written for a turn without a print.
const IDLE: u8 = 255;

const MOST_ARRIVALS: usize = 1_000;
const LAST_TURN: u32 = 99_999;
const MOST_PRINTS: u32 = 999;

#[derive(Clone, Copy)]
struct Arrival {
    turn: u32,
    kiosk: u32,
    prints: u32,
}

/// The arrival of three numbers. Fewer make none.
fn arrival(numbers: &[u32]) -> Option<Arrival> {
    let &[turn, kiosk, prints] = numbers else {
        return None;
    };
    Some(Arrival {
        turn,
        kiosk,
        prints,
    })
}

/// Does an arrival keep the limits, behind one of the turn `before`?
fn stands(arrival: Arrival, before: u32) -> bool {
    (before..=LAST_TURN).contains(&arrival.turn)
        && (0..KIOSKS as u32).contains(&arrival.kiosk)
        && (1..=MOST_PRINTS).contains(&arrival.prints)
}

/// The arrivals of a flat list, or the refusal of the first that is at fault.
fn arrivals(numbers: &[u32]) -> Result<Vec<Arrival>, Refusal> {
    let mut sound: Vec<Arrival> = Vec::new();
    for (place, entry) in numbers.chunks(3).enumerate() {
        let before = sound.last().map_or(0, |last| last.turn);
        match arrival(entry) {
            Some(next) if place < MOST_ARRIVALS && stands(next, before) => sound.push(next),
            _ => return Err(Refusal::at(22, place)),
        }
    }
    Ok(sound)
}

/// A kiosk's prints, each as the turn in which it comes.
type Queue = VecDeque<usize>;

/// All prints of a list, in a queue for each kiosk. A list's turns ascend, and so do those of each queue.
fn queues(arrivals: &[Arrival]) -> [Queue; KIOSKS] {
    let mut queues = [const { Queue::new() }; KIOSKS];
    for arrival in arrivals {
        for _ in 0..arrival.prints {
            queues[arrival.kiosk as usize].push_back(arrival.turn as usize);
        }
    }
    queues
}

/// The kiosks in the order in which they are looked at: behind the last one served, and that one at the end.
fn candidates(last: Option<usize>) -> Vec<usize> {
    match last {
        None => (0..KIOSKS).collect(),
        Some(last) => (last + 1..KIOSKS).chain(0..=last).collect(),
    }
}

/// Simulates as many turns as `served` has bytes, and writes the kiosk of each. `numbers` are a turn, a kiosk and prints
/// for each arrival.
pub fn printer(numbers: &[u32], served: &mut [u8]) -> Result<usize, Refusal> {
    let mut queues = queues(&arrivals(numbers)?);
    let mut last = None;
    for (turn, byte) in served.iter_mut().enumerate() {
        let waits = |kiosk: &usize| queues[*kiosk].front().is_some_and(|&came| came <= turn);
        let Some(next) = candidates(last).into_iter().find(waits) else {
            *byte = IDLE;
            continue;
        };
        queues[next].pop_front();
        last = Some(next);
        *byte = next as u8;
    }
    Ok(served.len())
}

#[cfg(test)]
mod tests {
    use super::*;

    /// The turns of a list of arrivals that stands: turn, kiosk and prints of each.
    fn turns(arrivals: &[[u32; 3]], count: usize) -> Vec<u8> {
        let mut served = vec![99; count];
        let given = printer(arrivals.as_flattened(), &mut served);
        assert_eq!(given, Ok(count));
        served
    }

    /// Where a flat list is refused, whatever the number of turns. Nothing is written.
    fn refused(numbers: &[u32]) -> Option<usize> {
        let places = [0, 1, 5].map(|count| {
            let mut served = vec![99; count];
            let refusal = printer(numbers, &mut served).expect_err("it is refused");
            assert_eq!(refusal.number, 22);
            assert_eq!(served, vec![99; count]);
            refusal.place
        });
        assert!(places.iter().all(|&place| place == places[0]));
        places[0]
    }

    /// In turn 0 kiosks 2 and 5 wait, and 2 is the first from 0 on. In turn 1 it is 5, the first behind 2. In turn 2
    /// kiosk 0 has come, and it is looked at behind 6 and 7, before 2. Then 2 alone is left, and then nobody.
    #[test]
    fn round_and_round() {
        let arrivals = [[0, 2, 2], [0, 5, 1], [2, 0, 1]];
        assert_eq!(turns(&arrivals, 6), [2, 5, 0, 2, IDLE, IDLE]);
        assert_eq!(turns(&arrivals, 3), [2, 5, 0]);
        assert_eq!(turns(&arrivals, 0), []);
    }

    /// Kiosk 3 is served in turn 1, and the idle turn 2 leaves it the last served: of those that come in turn 3 kiosk 4
    /// is the first, kiosk 2 the next, and 3 itself is looked at behind them.
    #[test]
    fn idle_turns_leave_the_last_served() {
        let arrivals = [[1, 3, 1], [3, 2, 1], [3, 3, 1], [3, 4, 1]];
        assert_eq!(turns(&arrivals, 7), [IDLE, 3, IDLE, 4, 2, 3, IDLE]);
    }

    /// Until a kiosk has been served, the round starts at kiosk 0, in whatever turn and whoever comes first in the list.
    #[test]
    fn kiosk_0_is_the_first() {
        assert_eq!(turns(&[[0, 7, 2], [0, 0, 1]], 4), [0, 7, 7, IDLE]);
        assert_eq!(turns(&[[2, 7, 1], [2, 0, 1]], 4), [IDLE, IDLE, 0, 7]);
        assert_eq!(turns(&[[0, 7, 2], [1, 0, 1]], 4), [7, 0, 7, IDLE]);
    }

    /// Kiosk 6 has many prints. Kiosk 5 comes in turn 1 and is served at once, because 6 is looked at last then.
    #[test]
    fn one_of_many_prints_keeps_nobody_waiting() {
        let arrivals = [[0, 6, 999], [1, 5, 1], [1, 6, 999]];
        assert_eq!(turns(&arrivals, 5), [6, 5, 6, 6, 6]);
        let all = turns(&arrivals, 2_000);
        assert_eq!(all.iter().filter(|&&kiosk| kiosk == 6).count(), 2 * 999);
        assert_eq!(all[1_999], IDLE);
    }

    /// All eight have two prints. The second of kiosk 0 is the next of its queue from turn 1 on: that turn and six more
    /// go to others, and it is made in turn 8, the eighth.
    #[test]
    fn the_longest_wait() {
        let all: Vec<[u32; 3]> = (0..8).map(|kiosk| [0, kiosk, 2]).collect();
        let expected = [0, 1, 2, 3, 4, 5, 6, 7, 0, 1, 2, 3, 4, 5, 6, 7, IDLE];
        assert_eq!(turns(&all, 17), expected);
    }

    /// Two arrivals of one kiosk in one turn add up, and one at a turn that is not simulated changes nothing.
    #[test]
    fn equal_arrivals_and_later_ones() {
        let arrivals = [[1, 4, 1], [1, 4, 1], [4, 1, 1]];
        assert_eq!(turns(&arrivals, 4), [IDLE, 4, 4, IDLE]);
        assert_eq!(turns(&arrivals, 5), [IDLE, 4, 4, IDLE, 1]);
        assert_eq!(turns(&[], 3), [IDLE; 3]);
    }

    #[test]
    fn the_last_turn_with_arrivals() {
        let served = turns(&[[99_999, 7, 999]], 100_001);
        assert_eq!(served[99_997..], [IDLE, IDLE, 7, 7]);
    }

    /// Each limit, behind a sound arrival.
    #[test]
    fn limits() {
        for sound in [[7, 7, 999], [7, 0, 1], [99_999, 0, 1]] {
            let given = printer([[7, 3, 1], sound].as_flattened(), &mut []);
            assert_eq!(given, Ok(0));
        }
        for faulty in [
            [6, 0, 1],
            [100_000, 0, 1],
            [u32::MAX, 0, 1],
            [7, 8, 1],
            [7, u32::MAX, 1],
            [7, 0, 0],
            [7, 0, 1_000],
            [7, 0, u32::MAX],
        ] {
            assert_eq!(refused([[7, 3, 1], faulty].as_flattened()), Some(1));
        }
    }

    /// The first fault decides. A turn is held against the one before: 5 is not below the first turn, and falls.
    #[test]
    fn the_first_fault() {
        assert_eq!(refused(&[1, 8, 1, 0, 0, 0]), Some(0));
        assert_eq!(refused(&[1, 0, 1, 6, 0, 1, 5, 0, 1, 9, 9, 9]), Some(2));
        assert_eq!(refused(&[1, 0, 1, 6, 0, 1, 6, 0, 1, 9, 9, 9]), Some(3));
    }

    #[test]
    fn an_arrival_that_lacks_a_number() {
        assert_eq!(refused(&[0]), Some(0));
        assert_eq!(refused(&[0, 1]), Some(0));
        assert_eq!(refused(&[0, 1, 1, 0]), Some(1));
        assert_eq!(refused(&[0, 1, 1, 0, 0]), Some(1));
        assert_eq!(refused(&[0, 1, 0, 0, 0]), Some(0));
    }

    /// 1,000 arrivals stand; what follows is at fault at 1,000, sound or not, whole or not.
    #[test]
    fn most_arrivals() {
        let mut list = [0, 0, 1].repeat(1_000);
        assert_eq!(printer(&list, &mut []), Ok(0));
        for next in [0, 8, 1, 0, 0] {
            list.push(next);
            assert_eq!(refused(&list), Some(1_000));
        }
        list[3 * 999 + 1] = 8;
        assert_eq!(refused(&list), Some(999));
    }
}
