//! A printer's turns, beside plain C.

use crate::buffer::Buffer;
use crate::{best_of, c, noise, print_missed, Version};
use kiosk::{Arrival, ARRIVAL_LIMIT, KIOSKS, PRINT_LIMIT};

/// How many turns are timed: those that arrivals may come in.
const TURNS: usize = 100_000;

/// How often both take turns, and how many calls a round has.
const ROUNDS: usize = 101;
const CALLS: usize = 5;

/// How long a call may take, in times of plain C.
const GOAL: f64 = 2.0;

/// A list's name, and the function that makes it.
type List = (&'static str, fn() -> Vec<Arrival>);

/// What is timed: the more kiosks have prints waiting, the fewer are looked at before one that has.
const LISTS: [List; 3] = [
    ("all kiosks busy", || full(KIOSKS)),
    ("one kiosk busy", || full(1)),
    ("mostly idle", mostly_idle),
];

/// Kiosks, from the last one down, that have prints waiting in all turns: they come in turn 0.
fn full(kiosks: usize) -> Vec<Arrival> {
    let needed = TURNS.div_ceil(kiosks).div_ceil(PRINT_LIMIT as usize) * kiosks;
    let arrival = |k| Arrival {
        turn: 0,
        kiosk: (KIOSKS - 1 - k % kiosks) as u32,
        prints: PRINT_LIMIT,
    };
    (0..needed).map(arrival).collect()
}

/// Single prints for any kiosk, of which each is made before the next comes.
fn mostly_idle() -> Vec<Arrival> {
    let arrival = |(k, x): (usize, u64)| Arrival {
        turn: (k * (TURNS / ARRIVAL_LIMIT)) as u32,
        kiosk: (x % KIOSKS as u64) as u32,
        prints: 1,
    };
    noise(ARRIVAL_LIMIT).enumerate().map(arrival).collect()
}

/// The library's answer and place as C gives them.
fn by_library(arrivals: &[Arrival], served: &mut [u8]) -> (i64, usize) {
    match kiosk::printer(arrivals, served) {
        Ok(turns) => (turns as i64, 0),
        Err(refusal) => (
            -i64::from(refusal.fault.number()),
            refusal.place.expect("the number of an arrival"),
        ),
    }
}

/// Turns by both, which must give and write the same over what `before` holds: the answer and place, and the bytes.
fn agreed(arrivals: &[Arrival], before: &[u8]) -> ((i64, usize), Vec<u8>) {
    let (mut expected, mut served) = (before.to_vec(), before.to_vec());
    let given = by_library(arrivals, &mut expected);
    assert_eq!(c::printer(arrivals, &mut served), given);
    assert!(served == expected, "plain C differs");
    (given, served)
}

/// Times the turns of each list by both.
pub fn compare() {
    println!("\na printer of {TURNS} turns, microseconds a call, the best of {ROUNDS} rounds");
    println!(
        "{:<16} {:>9} {:>9} {:>9} {:>6}",
        "arrivals", "library", "plain C", "/ plain C", "goal"
    );
    let mut served = Buffer::destination(TURNS);
    let mut missed = Vec::new();
    for (name, list) in LISTS {
        let arrivals = &list();
        agreed(arrivals, &served);
        let library = |served: &mut [u8]| by_library(arrivals, served).0;
        let plain = |served: &mut [u8]| c::printer(arrivals, served).0;
        let versions: [Version<u8>; 2] = [&library, &plain];
        let times = best_of(ROUNDS, CALLS, &mut served, &versions);
        let [library, plain] = [1e6 * times[0], 1e6 * times[1]];
        let ratio = library / plain;
        println!("{name:<16} {library:>9.1} {plain:>9.1} {ratio:>9.2} {GOAL:>6.2}");
        if GOAL < ratio {
            missed.push(name.into());
        }
    }
    print_missed(&missed);
}

#[cfg(test)]
mod tests {
    use super::*;

    /// The lists are what their names say.
    #[test]
    fn plain_c_agrees_on_timed_lists() {
        let served = LISTS.map(|(_, list)| {
            let (given, served) = agreed(&list(), &[9; TURNS]);
            assert_eq!(given, (TURNS as i64, 0));
            served
        });
        let [all, one, idle] = &served;
        assert!(all
            .iter()
            .enumerate()
            .all(|(turn, &k)| usize::from(k) == turn % KIOSKS));
        assert!(one.iter().all(|&k| usize::from(k) == KIOSKS - 1));
        let made = idle.iter().filter(|&&k| k != kiosk::IDLE).count();
        assert_eq!(made, ARRIVAL_LIMIT);
    }

    /// So many arrivals for any kiosks, whose turns rise by less than `gap`, with fewer prints than `end`.
    fn any_list(count: usize, gap: u64, end: u64) -> Vec<Arrival> {
        let mut turn = 0;
        let arrival = |x: u64| {
            turn += (x % gap) as u32;
            Arrival {
                turn,
                kiosk: (x >> 8) as u32 % KIOSKS as u32,
                prints: 1 + ((x >> 16) % (end - 1)) as u32,
            }
        };
        noise(count).map(arrival).collect()
    }

    /// Lists with equal turns, with idle ones and with more prints than turns, and any number of turns.
    #[test]
    fn plain_c_agrees_on_turns() {
        for count in [0, 1, 2, 9, 100, ARRIVAL_LIMIT] {
            for (gap, end) in [(1, 2), (1, 1000), (3, 2), (3, 20), (60, 30), (99, 1000)] {
                let arrivals = any_list(count, gap, end);
                for turns in [0, 1, 2, 7, 8, 9, 1000, TURNS] {
                    assert_eq!(agreed(&arrivals, &vec![9; turns]).0, (turns as i64, 0));
                }
            }
        }
    }

    /// Each limit broken at the start, in the middle and at the end of the longest list, and lists that are longer.
    #[test]
    fn plain_c_refuses_arrivals() {
        let faults: [fn(&mut Arrival); 8] = [
            |a| a.kiosk = 8,
            |a| a.kiosk = u32::MAX,
            |a| a.prints = 0,
            |a| a.prints = 1000,
            |a| a.prints = u32::MAX,
            |a| a.turn = 100_000,
            |a| a.turn = u32::MAX,
            |a| a.turn = 4,
        ];
        for at in [1, 2, 500, 999] {
            for fault in faults {
                let mut arrivals = any_list(ARRIVAL_LIMIT, 3, 1000);
                arrivals.iter_mut().for_each(|a| a.turn += 5);
                fault(&mut arrivals[at]);
                let (given, served) = agreed(&arrivals, &[9; 20]);
                assert_eq!((given, served), ((-22, at), vec![9; 20]));
                assert_eq!(agreed(&arrivals, &[]).0, (-22, at));
            }
        }
        let most = any_list(ARRIVAL_LIMIT + 2, 3, 1000);
        assert_eq!(agreed(&most[..ARRIVAL_LIMIT], &[9; 20]).0, (20, 0));
        assert_eq!(agreed(&most[..ARRIVAL_LIMIT + 1], &[9; 20]).0, (-22, 1000));
        assert_eq!(agreed(&most, &[9; 20]).0, (-22, 1000));
    }
}
