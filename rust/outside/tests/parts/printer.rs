//! The printer that kiosks share.

use kiosk::Arrival;
use outside::{by_both, guarded, Random};
use reference::printer::printer;
use reference::Refusal;
use std::array::from_fn;
use std::collections::BTreeSet;

const KIOSKS: usize = 8;
const IDLE: u8 = 255;

/// The most arrivals of a list, and the most prints of one.
const MOST: usize = 1_000;
const PRINTS: u32 = 999;

/// The last turn that an arrival may come in.
const LAST: u32 = 99_999;

fn arrival(turn: u32, kiosk: u32, prints: u32) -> Arrival {
    Arrival {
        turn,
        kiosk,
        prints,
    }
}

/// A call by both, over a destination that held `before`: the answer of both, and the bytes after it.
fn simulate(arrivals: &[Arrival], before: &[u8]) -> (Result<usize, Refusal>, Vec<u8>) {
    let numbers: Vec<u32> = arrivals
        .iter()
        .flat_map(|a| [a.turn, a.kiosk, a.prints])
        .collect();
    let mut answer = Ok(0);
    let (_, served) = by_both(
        before,
        0xa5,
        |dst| kiosk::printer(arrivals, dst),
        |dst| {
            answer = printer(&numbers, dst);
            answer
        },
        || format!("a printer with {arrivals:?}"),
    );
    (answer, served)
}

/// The turns of a list that stands, which keep the promises, over bytes that held something else.
fn simulates(arrivals: &[Arrival], turns: usize) -> Run {
    let (answer, served) = simulate(arrivals, &vec![0x5a; turns]);
    assert_eq!(answer, Ok(turns));
    Run::counted(arrivals, &served)
}

/// Where a list is refused, with nothing written.
fn refused(arrivals: &[Arrival], before: &[u8]) -> usize {
    let (answer, served) = simulate(arrivals, before);
    assert_eq!(served, before);
    let refusal = answer.expect_err("a list at fault is refused");
    assert_eq!(refusal.number, 22);
    refusal.place.expect("the number of an arrival")
}

/// What turns were like.
struct Run {
    made: [u64; KIOSKS],
    waiting: [u64; KIOSKS],
    idle: usize,
    /// The most turns in a row in which a kiosk had prints waiting and another was served.
    longest: usize,
}

impl Run {
    /// The promises of rule 14, held against the bytes of turns by a count of their own. After each turn a kiosk's
    /// prints made and waiting sum to those that have come, so that none is made that does not wait; a turn is idle
    /// only if nobody waits; and of eight turns in a row in which a kiosk has prints waiting, one is its own.
    fn counted(arrivals: &[Arrival], served: &[u8]) -> Run {
        let (mut came, mut made) = ([0; KIOSKS], [0; KIOSKS]);
        let mut passed = [0; KIOSKS];
        let (mut idle, mut longest) = (0, 0);
        let mut rest = arrivals.iter().peekable();
        for (turn, &byte) in served.iter().enumerate() {
            while let Some(next) = rest.next_if(|next| next.turn as usize == turn) {
                came[next.kiosk as usize] += u64::from(next.prints);
            }
            for kiosk in 0..KIOSKS {
                let others = came[kiosk] > made[kiosk] && usize::from(byte) != kiosk;
                passed[kiosk] = if others { passed[kiosk] + 1 } else { 0 };
                assert!(passed[kiosk] < KIOSKS, "kiosk {kiosk} in turn {turn}");
                longest = longest.max(passed[kiosk]);
            }
            if byte == IDLE {
                assert_eq!(made, came, "somebody waits in turn {turn}");
                idle += 1;
                continue;
            }
            let kiosk = usize::from(byte);
            made[kiosk] += 1;
            assert!(made[kiosk] <= came[kiosk], "nobody waits in turn {turn}");
        }
        Run {
            made,
            waiting: from_fn(|kiosk| came[kiosk] - made[kiosk]),
            idle,
            longest,
        }
    }
}

/// How lists are drawn: from these kiosks, so many turns at most behind one another, and of up to so many prints.
struct Shape {
    kiosks: &'static [u32],
    gap: u64,
    prints: u64,
}

impl Shape {
    fn any(random: &mut Random) -> Shape {
        const ALL: &[u32] = &[0, 1, 2, 3, 4, 5, 6, 7];
        Shape {
            kiosks: random.pick(&[&[0], &[7], &[0, 7], &[3, 4], &[1, 4, 6], ALL, ALL, ALL]),
            gap: random.pick(&[0, 1, 2, 8, 40]),
            prints: random.pick(&[1, 2, 5, 30, PRINTS.into()]),
        }
    }

    fn list(&self, count: usize, random: &mut Random) -> Vec<Arrival> {
        let mut turn = random.pick(&[0, 0, self.gap]);
        let mut next = || {
            // In half of all cases the next comes in the same turn.
            turn += random.below(2) * random.below(self.gap + 1);
            let prints = 1 + random.below(self.prints) as u32;
            arrival(turn as u32, random.pick(self.kiosks), prints)
        };
        (0..count).map(|_| next()).collect()
    }
}

fn last_turn(arrivals: &[Arrival]) -> usize {
    arrivals.last().map_or(0, |last| last.turn as usize)
}

fn all_prints(arrivals: &[Arrival]) -> usize {
    arrivals.iter().map(|a| a.prints as usize).sum()
}

/// A number of turns: none, few, up to the last arrival or one more, and enough for all prints.
fn any_turns(arrivals: &[Arrival], random: &mut Random) -> usize {
    let (last, prints) = (last_turn(arrivals), all_prints(arrivals));
    let any = random.below(last as u64 + 300) as usize;
    random.pick(&[0, 1, any, any, last, last + 1, last + prints.min(2_000) + 9])
}

/// Lists of many shapes, with any number of turns. Many turns are idle and many are not, many lists have arrivals at
/// turns that are not simulated, and in many a kiosk waits as long as it may.
pub fn shapes() -> u64 {
    const LISTS: u64 = 30_000;
    let mut random = Random::new(41);
    let (mut idle, mut printed, mut beyond, mut longest) = (0, 0, 0, 0);
    let (mut without_turns, mut without_arrivals) = (0, 0);
    for _ in 0..LISTS {
        let shape = Shape::any(&mut random);
        let most = random.pick(&[2, 6, 40, 60]);
        let arrivals = shape.list(random.below(most) as usize, &mut random);
        let turns = any_turns(&arrivals, &mut random);
        let run = simulates(&arrivals, turns);
        idle += run.idle;
        printed += turns - run.idle;
        beyond += usize::from(last_turn(&arrivals) >= turns && turns > 0);
        longest += usize::from(run.longest == KIOSKS - 1);
        without_turns += usize::from(turns == 0);
        without_arrivals += usize::from(arrivals.is_empty());
    }
    assert!(idle > 600_000 && printed > 600_000, "{idle} {printed}");
    assert!(beyond > 3_000 && longest > 750, "{beyond} {longest}");
    assert!(
        without_turns > 3_000 && without_arrivals > 3_000,
        "{without_turns} {without_arrivals}"
    );
    LISTS
}

/// Every list of one to three arrivals of one or two prints for kiosks 0, 3 and 7, in turns 0 to 2 or in turn 5, with
/// every number of turns up to the end of all prints. All have been made by then.
pub fn every_small_list() -> u64 {
    const TURNS: usize = 12;
    let mut count = 0;
    let mut lists = vec![vec![]];
    for _ in 0..3 {
        lists = lists.iter().flat_map(|list| continued(list)).collect();
        for list in &lists {
            for turns in 0..=TURNS {
                let run = simulates(list, turns);
                let left: u64 = run.waiting.iter().sum();
                assert!(turns < TURNS || left == 0);
                count += 1;
            }
        }
    }
    count
}

/// A list with each small arrival behind it whose turn does not fall.
fn continued(list: &[Arrival]) -> Vec<Vec<Arrival>> {
    let mut longer = Vec::new();
    for turn in [0, 1, 2, 5] {
        for kiosk in [0, 3, 7] {
            for prints in [1, 2] {
                if last_turn(list) <= turn as usize {
                    longer.push([list, &[arrival(turn, kiosk, prints)]].concat());
                }
            }
        }
    }
    longer
}

/// A kiosk that takes all the arrivals that there may be, or all but some, with the most prints of each; the others
/// have single prints here and there, which must not wait behind its own.
fn greedy(kiosk: u32, others: usize, random: &mut Random) -> Vec<Arrival> {
    let mut arrivals = vec![arrival(0, kiosk, PRINTS)];
    for _ in 1..MOST - others {
        let turn = random.below(2) * random.below(4_000);
        arrivals.push(arrival(turn as u32, kiosk, PRINTS));
    }
    for _ in 0..others {
        let other = (kiosk + 1 + random.below(7) as u32) % KIOSKS as u32;
        arrivals.push(arrival(random.below(4_000) as u32, other, 1));
    }
    arrivals.sort_by_key(|a| a.turn);
    arrivals
}

/// As many arrivals of the most prints for each kiosk, in that kiosk's turn. Of one turn kiosk 7's come first.
fn full(turns: [u32; KIOSKS]) -> Vec<Arrival> {
    let of_each = (0..KIOSKS as u32).rev().zip(turns.into_iter().rev());
    let mut arrivals: Vec<Arrival> = of_each
        .flat_map(|(kiosk, turn)| vec![arrival(turn, kiosk, PRINTS); MOST / KIOSKS])
        .collect();
    arrivals.sort_by_key(|a| a.turn);
    arrivals
}

/// Printers that a kiosk would like to have for itself, and full ones. A greedy kiosk gets every turn that no other
/// needs; eight full ones get as many as each other, whoever comes first.
pub fn unfair() -> u64 {
    const TURNS: usize = 5_000;
    let mut random = Random::new(42);
    let mut count = 0;
    for kiosk in 0..KIOSKS {
        for others in [0, 1, 30, 200, 900] {
            let run = simulates(&greedy(kiosk as u32, others, &mut random), TURNS);
            assert_eq!((run.made[kiosk] as usize, run.idle), (TURNS - others, 0));
            assert_eq!(run.longest > 0, others > 0);
            count += 1;
        }
    }
    // All at once, or one of them a turn before the others.
    for first in 0..=KIOSKS {
        let turns = from_fn(|kiosk| u32::from(first < KIOSKS && kiosk != first));
        let run = simulates(&full(turns), 600 * KIOSKS);
        assert_eq!((run.made, run.idle), ([600; KIOSKS], 0));
        assert_eq!(run.longest, KIOSKS - 1);
        count += 1;
    }
    count
}

/// A number put at a limit of arrivals or beyond it, and whether the arrival stands then. Some have low bytes that
/// would stand by themselves.
type Edge = (fn(&mut Arrival), bool);

const EDGES: [Edge; 21] = [
    (|a| a.kiosk = 0, true),
    (|a| a.kiosk = 7, true),
    (|a| a.kiosk = 8, false),
    (|a| a.kiosk = 255, false),
    (|a| a.kiosk = 256, false),
    (|a| a.kiosk = 1 << 31, false),
    (|a| a.kiosk = u32::MAX, false),
    (|a| a.prints = 0, false),
    (|a| a.prints = 1, true),
    (|a| a.prints = 999, true),
    (|a| a.prints = 1_000, false),
    (|a| a.prints = 1_024 + 1, false),
    (|a| a.prints = 65_536 + 1, false),
    (|a| a.prints = 1 << 31, false),
    (|a| a.prints = u32::MAX, false),
    (|a| a.turn = 99_999, true),
    (|a| a.turn = 100_000, false),
    (|a| a.turn = 100_001, false),
    (|a| a.turn = 131_072, false),
    (|a| a.turn = 1 << 31, false),
    (|a| a.turn = u32::MAX, false),
];

/// A list of sound arrivals whose turns rise by ten.
fn rising(count: usize, random: &mut Random) -> Vec<Arrival> {
    let sound = |k| {
        let prints = 1 + random.below(PRINTS.into()) as u32;
        arrival(10 * k as u32, random.below(8) as u32, prints)
    };
    (0..count).map(sound).collect()
}

/// Puts a number at or beyond a limit into an arrival. Those behind it get its turn if theirs is before it: so that
/// nothing else is at fault but what is beyond the limit.
fn put_edge(arrivals: &mut [Arrival], at: usize, edge: Edge) {
    edge.0(&mut arrivals[at]);
    let turn = arrivals[at].turn;
    for later in &mut arrivals[at + 1..] {
        later.turn = later.turn.max(turn);
    }
}

/// Every number at and beyond a limit at each place of short lists, with turns up to that place, beyond it and none.
pub fn limits() -> u64 {
    let mut random = Random::new(43);
    let (mut count, mut sound) = (0, 0);
    for length in 1..=7 {
        for (at, edge) in (0..length).flat_map(|at| EDGES.map(|edge| (at, edge))) {
            let mut arrivals = rising(length, &mut random);
            put_edge(&mut arrivals, at, edge);
            for turns in [0, 1, 10 * at, 10 * at + 1, 100] {
                if edge.1 {
                    simulates(&arrivals, turns);
                    sound += 1;
                } else {
                    assert_eq!(refused(&arrivals, &random.bytes(turns)), at);
                }
                count += 1;
            }
        }
    }
    assert!(sound > 500 && count - sound > 500);
    // The last turn that an arrival may have is simulated too.
    for kiosk in [0, 7] {
        let run = simulates(&[arrival(LAST, kiosk, 1)], LAST as usize + 2);
        assert_eq!((run.made[kiosk as usize], run.idle), (1, 100_000));
        count += 1;
    }
    count
}

/// Turns that fall, at each place: by one below the arrival before, which from the third place on is above the first
/// arrival's, and to turn 0. Those that are equal, or rise by one, stand.
pub fn falling_turns() -> u64 {
    let mut random = Random::new(44);
    let mut count = 0;
    for (length, at) in (2..=9).flat_map(|length| (1..length).map(move |at| (length, at))) {
        let arrivals = rising(length, &mut random);
        let before = arrivals[at - 1].turn + 1;
        let behind = |turn| {
            // All turns are one more than they were, so that each has one below it.
            let mut arrivals = arrivals.clone();
            arrivals.iter_mut().for_each(|a| a.turn += 1);
            arrivals[at].turn = turn;
            arrivals
        };
        for turns in [0, 10 * at, 100] {
            for turn in [before - 1, 0] {
                assert_eq!(refused(&behind(turn), &random.bytes(turns)), at);
            }
            for turn in [before, before + 1] {
                simulates(&behind(turn), turns);
            }
            count += 4;
        }
    }
    count
}

/// Lists of about the most arrivals. Each one more is at fault at 1,000, sound or not, unless one before it is. In a
/// list of the most, each arrival is at fault by itself.
pub fn most_arrivals() -> u64 {
    let mut random = Random::new(45);
    let beyond: Vec<Edge> = EDGES.into_iter().filter(|edge| !edge.1).collect();
    let mut count = 0;
    for length in [MOST - 1, MOST, MOST + 1, MOST + 2, 2 * MOST] {
        let arrivals = rising(length, &mut random);
        for turns in [0, 1, 2_000] {
            if length <= MOST {
                simulates(&arrivals, turns);
            } else {
                assert_eq!(refused(&arrivals, &random.bytes(turns)), MOST);
            }
            count += 1;
        }
        for at in [0, 1, 500, 998, 999, 1_000, 1_001, 1_999] {
            let mut arrivals = arrivals.clone();
            if at < length {
                put_edge(&mut arrivals, at, random.pick(&beyond));
                assert_eq!(refused(&arrivals, &random.bytes(20)), at.min(MOST));
                count += 1;
            }
        }
    }
    for at in 0..MOST {
        let mut arrivals = rising(MOST, &mut random);
        put_edge(&mut arrivals, at, random.pick(&beyond));
        assert_eq!(refused(&arrivals, &random.bytes(20)), at);
        count += 1;
    }
    count
}

/// Lists with several faults, of which the first decides; and lists of any numbers near the limits, of which some
/// stand.
pub fn faults() -> u64 {
    const LISTS: u64 = 20_000;
    let mut random = Random::new(46);
    let beyond: Vec<Edge> = EDGES.into_iter().filter(|edge| !edge.1).collect();
    let (mut sound, mut places) = (0, BTreeSet::new());
    for _ in 0..LISTS {
        let length = 2 + random.below(9) as usize;
        let mut arrivals = rising(length, &mut random);
        let mut first = length;
        for _ in 0..2 + random.below(3) {
            let at = random.below(length as u64) as usize;
            put_edge(&mut arrivals, at, random.pick(&beyond));
            first = first.min(at);
        }
        let turns = random.below(150) as usize;
        assert_eq!(refused(&arrivals, &random.bytes(turns)), first);

        let near: Vec<Arrival> = (0..length).map(|k| near_limits(k, &mut random)).collect();
        match simulate(&near, &random.bytes(turns)).0 {
            Ok(_) => sound += 1,
            Err(refusal) => places.extend(refusal.place),
        }
    }
    assert!((1_000..LISTS - 1_000).contains(&sound), "{sound}");
    assert!(places.len() > 8, "{places:?}");
    2 * LISTS
}

/// An arrival whose numbers mostly stand. Turns rise by four on average, and sometimes fall.
fn near_limits(k: usize, random: &mut Random) -> Arrival {
    let mut one_of = |end| u32::from(random.below(end) == 0);
    let (more_kiosks, more_prints, fewer_prints) = (one_of(20), one_of(40), one_of(40));
    arrival(
        4 * k as u32 + random.below(7) as u32,
        random.pick(&[0, 3, 7]) + more_kiosks,
        random.pick(&[1, 2, 999]) + more_prints - fewer_prints,
    )
}

/// The promises by themselves, of the library's bytes and by no other implementation: lists of many shapes and greedy
/// kiosks, in buffers between guards.
pub fn promises() -> u64 {
    const LISTS: u64 = 20_000;
    let mut random = Random::new(47);
    let (mut idle, mut longest) = (0, BTreeSet::new());
    let mut keeps = |arrivals: &[Arrival], turns: usize| {
        let before = vec![0x5a; turns];
        let (answer, served) = guarded(&before, 0xa5, |dst| kiosk::printer(arrivals, dst));
        assert_eq!(answer, Ok(turns));
        let run = Run::counted(arrivals, &served);
        idle += run.idle;
        longest.insert(run.longest);
    };
    for _ in 0..LISTS {
        let shape = Shape::any(&mut random);
        let arrivals = shape.list(random.below(60) as usize, &mut random);
        keeps(&arrivals, any_turns(&arrivals, &mut random));
    }
    for others in 0..=900 {
        let kiosk = random.below(8) as u32;
        keeps(&greedy(kiosk, others, &mut random), 4_500);
    }
    assert!(idle > 500_000, "{idle}");
    assert_eq!(longest, (0..KIOSKS).collect());
    LISTS + 901
}

/// 1,000 arrivals in any turns: 100,000 turns with prints for more than half of them, and so many turns that the most
/// prints that there may be are all made.
pub fn longest() -> u64 {
    let mut random = Random::new(48);
    for (prints, turns) in [(60, 100_000), (PRINTS, 1_100_000)] {
        let any = |_| {
            let turn = random.below(u64::from(LAST) + 1) as u32;
            arrival(turn, random.below(8) as u32, prints)
        };
        let mut arrivals: Vec<Arrival> = (0..MOST).map(any).collect();
        arrivals.sort_by_key(|a| a.turn);
        let run = simulates(&arrivals, turns);
        let made: u64 = run.made.iter().sum();
        let left: u64 = run.waiting.iter().sum();
        assert_eq!(made + left, 1_000 * u64::from(prints));
        assert!(prints < PRINTS || left == 0);
        assert_eq!(made as usize + run.idle, turns);
        assert!(run.idle > 30_000 && run.longest == KIOSKS - 1);
    }
    2
}
