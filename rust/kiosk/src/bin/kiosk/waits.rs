//! How long prints wait at the printer. The wait of a print is the number of turns from the one in which it arrives to
//! the one in which it is made: 0 if it is made in the turn in which it arrives. For a print that still waits at the
//! end it is the number of turns to the last one simulated. The prints of a kiosk are made in the order in which they
//! arrive.

use kiosk::{Arrival, IDLE, KIOSKS};
use std::collections::VecDeque;

/// What is counted of the prints of one kiosk, or of all.
#[derive(Clone, Copy, Debug, Default, PartialEq, Eq)]
pub struct Tally {
    pub arrived: usize,
    pub made: usize,
    /// The sum of the waits of the prints made.
    pub waited: usize,
    /// The longest wait of the prints made, if there are any.
    pub longest: Option<usize>,
    /// How long the oldest print has waited that still waits at the end, if one does.
    pub oldest: Option<usize>,
}

impl Tally {
    pub fn waiting(&self) -> usize {
        self.arrived - self.made
    }

    /// The longest wait of all prints, those included that still wait.
    pub fn longest_of_all(&self) -> Option<usize> {
        self.longest.max(self.oldest)
    }

    /// The mean wait of the prints made in hundredths of a turn, to the nearest, ties upward.
    pub fn mean_hundredths(&self) -> Option<usize> {
        (200 * self.waited + self.made).checked_div(2 * self.made)
    }

    fn with(self, other: Tally) -> Tally {
        Tally {
            arrived: self.arrived + other.arrived,
            made: self.made + other.made,
            waited: self.waited + other.waited,
            longest: self.longest.max(other.longest),
            oldest: self.oldest.max(other.oldest),
        }
    }
}

/// A kiosk's prints in the turns simulated.
#[derive(Default)]
pub struct Kiosk {
    pub tally: Tally,
    /// For each bin of turns the age of the oldest print that waited in one of them, or 0.
    pub ages: Vec<usize>,
    /// The prints that wait: the turn in which they arrived, and how many are left.
    queue: VecDeque<(usize, u32)>,
}

impl Kiosk {
    fn receive(&mut self, arrival: &Arrival) {
        self.tally.arrived += arrival.prints as usize;
        self.queue
            .push_back((arrival.turn as usize, arrival.prints));
    }

    /// The age of the oldest print that waits in a turn, if one does.
    fn age(&self, turn: usize) -> Option<usize> {
        self.queue.front().map(|(arrived, _)| turn - arrived)
    }

    /// Keeps that age in a bin, if it is the greatest there.
    fn keep_age(&mut self, turn: usize, bin: usize) {
        let age = self.age(turn).unwrap_or(0);
        self.ages[bin] = self.ages[bin].max(age);
    }

    fn make(&mut self, turn: usize) {
        let (arrived, left) = self
            .queue
            .front_mut()
            .expect("the library serves only kiosks with prints waiting");
        let wait = turn - *arrived;
        *left -= 1;
        if *left == 0 {
            self.queue.pop_front();
        }
        self.tally.made += 1;
        self.tally.waited += wait;
        self.tally.longest = self.tally.longest.max(Some(wait));
    }
}

/// What happened at the printer in the turns simulated.
pub struct Waits {
    pub turns: usize,
    pub kiosks: [Kiosk; KIOSKS],
    /// The prints that arrive after the turns simulated, which are counted nowhere else.
    pub later: usize,
}

impl Waits {
    /// The waits of prints that arrive in ascending turns, where `served` has what the library wrote for them. Their
    /// ages are kept for every turn, or, where that would be more than `bins`, for so many bins of turns.
    pub fn of(arrivals: &[Arrival], served: &[u8], bins: usize) -> Waits {
        let turns = served.len();
        let bins = bins.min(turns);
        let mut kiosks: [Kiosk; KIOSKS] = Default::default();
        for kiosk in &mut kiosks {
            kiosk.ages = vec![0; bins];
        }
        let mut coming = arrivals.iter().peekable();
        for (turn, &byte) in served.iter().enumerate() {
            while let Some(arrival) = coming.next_if(|next| next.turn as usize <= turn) {
                kiosks[arrival.kiosk as usize].receive(arrival);
            }
            for kiosk in &mut kiosks {
                kiosk.keep_age(turn, turn * bins / turns);
            }
            if byte != IDLE {
                kiosks[usize::from(byte)].make(turn);
            }
        }
        for kiosk in &mut kiosks {
            kiosk.tally.oldest = kiosk.age(turns.saturating_sub(1));
        }
        let later = coming.map(|arrival| arrival.prints as usize).sum();
        Waits {
            turns,
            kiosks,
            later,
        }
    }

    /// What is counted of all kiosks together.
    pub fn all(&self) -> Tally {
        let tallies = self.kiosks.iter().map(|kiosk| kiosk.tally);
        tallies.fold(Tally::default(), Tally::with)
    }
}

#[cfg(test)]
mod tests {
    use super::*;

    fn arrival(turn: u32, kiosk: u32, prints: u32) -> Arrival {
        Arrival {
            turn,
            kiosk,
            prints,
        }
    }

    /// Kiosk 2 gets two prints in turn 0 and one in turn 3, kiosk 5 two in turn 1, and one in turn 9, which is not
    /// simulated. Kiosk 2's are made in turns 0, 2 and 4, with waits of 0, 2 and 1; kiosk 5's in turns 1 and 3, with
    /// waits of 0 and 2.
    #[test]
    fn waits_in_the_order_of_arrival() {
        let arrivals = [
            arrival(0, 2, 2),
            arrival(1, 5, 2),
            arrival(3, 2, 1),
            arrival(9, 5, 1),
        ];
        let waits = Waits::of(&arrivals, &[2, 5, 2, 5, 2, IDLE], 100);
        let tally = |arrived, made, waited, longest| Tally {
            arrived,
            made,
            waited,
            longest,
            oldest: None,
        };
        assert_eq!(waits.kiosks[2].tally, tally(3, 3, 3, Some(2)));
        assert_eq!(waits.kiosks[5].tally, tally(2, 2, 2, Some(2)));
        assert_eq!(waits.kiosks[0].tally, Tally::default());
        assert_eq!(waits.all(), tally(5, 5, 5, Some(2)));
        assert_eq!(waits.kiosks[2].ages, [0, 1, 2, 0, 1, 0]);
        assert_eq!(waits.kiosks[5].ages, [0, 0, 1, 2, 0, 0]);
        assert_eq!((waits.turns, waits.later), (6, 1));
    }

    /// Prints that are never made: they have a wait too, up to the last turn.
    #[test]
    fn prints_that_still_wait() {
        let arrivals = [arrival(0, 0, 9), arrival(1, 1, 2), arrival(4, 3, 1)];
        let waits = Waits::of(&arrivals, &[0, 1, 0, 1, 0], 100);
        let oldest = waits.kiosks.each_ref().map(|kiosk| kiosk.tally.oldest);
        let none = None;
        assert_eq!(
            oldest,
            [Some(4), none, none, Some(0), none, none, none, none]
        );
        let all = waits.all();
        assert_eq!(
            (all.waiting(), all.longest, all.oldest),
            (7, Some(4), Some(4))
        );
        assert_eq!(waits.kiosks[3].tally.longest_of_all(), Some(0));
        assert_eq!(waits.kiosks[2].tally.longest_of_all(), None);
        assert_eq!(Waits::of(&arrivals, &[], 100).later, 12);
    }

    /// Ten turns in four bins: turns 0 to 2, 3 and 4, 5 to 7, 8 and 9. Each has the greatest age of its turns.
    #[test]
    fn bins_keep_the_greatest_age() {
        let served = [IDLE, 6, 7, 6, 6, IDLE, IDLE, IDLE, 7, IDLE];
        let arrivals = [arrival(1, 6, 3), arrival(1, 7, 1), arrival(8, 7, 1)];
        let every = Waits::of(&arrivals, &served, 10);
        assert_eq!(every.kiosks[6].ages, [0, 0, 1, 2, 3, 0, 0, 0, 0, 0]);
        let binned = Waits::of(&arrivals, &served, 4);
        assert_eq!(binned.kiosks[6].ages, [1, 3, 0, 0]);
        assert_eq!(binned.kiosks[7].ages, [1, 0, 0, 0]);
        assert_eq!(binned.all(), every.all());
    }

    #[test]
    fn means_to_the_nearest_hundredth() {
        let mean = |waited, made| {
            let tally = Tally {
                waited,
                made,
                ..Tally::default()
            };
            tally.mean_hundredths()
        };
        assert_eq!(mean(0, 0), None);
        assert_eq!(mean(0, 3), Some(0));
        assert_eq!(mean(1, 3), Some(33));
        assert_eq!(mean(2, 3), Some(67));
        // 0.125 and 0.375 are half-way.
        assert_eq!(mean(1, 8), Some(13));
        assert_eq!(mean(3, 8), Some(38));
        assert_eq!(mean(124, 1_000), Some(12));
    }
}
