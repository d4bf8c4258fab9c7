//! The timers' clock near the end of its four bytes, where a season timer's time would not fit: the program takes the present time off
//! all of them, and every timer has the tocks left that it had. The memory is what a session of so many tocks would have left.

use c::beside::Beside;
use c::caller::Caller;
use c::lent::{timer_row, PART};
use c::tidy::untidy;
use plain_executive::command::*;
use plain_executive::executive::Executive;
use plain_executive::items::TimerItem;
use plain_executive::random::Random;

/// Two tasks, six named semaphores, six timers, a tick a tock.
const CONFIGURATION: [u8; 10] = [2, 6, 0, 6, 0, 1, 0, 125, 0, 0];
/// The most tocks that a timer can be started with.
const LONGEST: u32 = 1 << 31;
/// Where the clock begins when it is set back.
const SET_BACK: u32 = 0;

c::for_each_caller!(
    a_start_sets_the_clock_back_where_its_time_would_not_fit,
    a_cyclic_timer_that_is_due_sets_the_clock_back,
    many_frames_near_the_end,
);

fn timer(semaphore: u8, tocks_left: u64, period: u32) -> TimerItem {
    TimerItem { task: 1, semaphore, tocks_left, period }
}

fn season(semaphore: u8, tocks: i32) -> Vec<u8> {
    [vec![SEASON_TIMER, 1, semaphore], tocks.to_be_bytes().to_vec()].concat()
}

fn tick() -> Vec<u8> {
    vec![TICK, 0, 0, 0, 0]
}

/// After so many tocks with these timers, in their order.
fn at(caller: Caller, time: u32, timers: &[TimerItem]) -> Beside {
    let mut both = Beside::configured(caller, &CONFIGURATION);
    let block = &mut both.memory.timers;
    block[PART] = timers.len() as u8;
    [2, 6].into_iter().for_each(|place| block[timer_row(0) + place..][..4].copy_from_slice(&time.to_le_bytes()));
    for (row, timer) in (1..).zip(timers) {
        assert!(u64::from(time) + timer.tocks_left <= u32::MAX.into(), "no session leaves {timer:?} at {time}");
        block[timer_row(row)..][..10].copy_from_slice(&timer.written(time));
    }
    let configuration = both.other.configuration().clone();
    let items = both.memory.items(&configuration);
    assert_eq!(items.timers, timers);
    both.other = Executive::restored(configuration, &items);
    both.other.keep_history();
    both
}

fn time_of(both: &Beside) -> u32 {
    both.memory.of_timers(0, 2)
}

/// The memory is tidy behind it too.
fn feed(both: &mut Beside, frame: &[u8], what: &str) {
    both.feed(frame, what);
    assert_eq!(untidy(&CONFIGURATION, &both.other, &both.memory), None, "{what}: {frame:02X?}");
}

/// What the memory says of semaphore, tocks left and period.
fn timers_of(both: &Beside) -> Vec<(u8, u64, u32)> {
    let items = both.memory.items(both.other.configuration());
    items.timers.iter().map(|timer| (timer.semaphore, timer.tocks_left, timer.period)).collect()
}

/// The last tock at which so many more fit, and three on either side.
fn around_the_last_for(tocks: u32) -> impl Iterator<Item = u32> {
    let last = u32::MAX - tocks;
    (-3..=3).filter_map(move |off| last.checked_add_signed(off))
}

/// With one timer of each width and kind before it.
fn a_start_sets_the_clock_back_where_its_time_would_not_fit(caller: Caller) {
    for tocks in [i32::MAX, i32::MIN, i32::MIN + 1, 0x1_0000, -0x1_0000, 32_767, -32_768, 9, -9] {
        let (first, period) = (tocks.unsigned_abs(), if tocks < 0 { tocks.unsigned_abs() } else { 0 });
        for time in around_the_last_for(first).filter(|time| *time <= u32::MAX - 5) {
            let before = [timer(1, 1, 0), timer(2, 2, 32_768), timer(3, 4, LONGEST), timer(4, 5, 0)];
            let mut both = at(caller, time, &before);
            let what = format!("{tocks} at {time}");
            feed(&mut both, &season(5, tocks), &what);
            let fits = time <= u32::MAX - first;
            assert_eq!(time_of(&both), if fits { time } else { SET_BACK }, "{what}");
            let mut expected: Vec<_> = before.iter().map(|t| (t.semaphore, t.tocks_left, t.period)).collect();
            expected.push((5, first.into(), period));
            assert_eq!(timers_of(&both), expected, "{what}");
            (0..12).for_each(|_| feed(&mut both, &tick(), &what));
        }
    }
}

/// One is due with the next tock and goes in again for its period. Beside it a one-shot is due, another cyclic one is due a tock later,
/// and the last has as many tocks left as the clock has room for.
fn a_cyclic_timer_that_is_due_sets_the_clock_back(caller: Caller) {
    let mut set_back = 0;
    for period in [LONGEST, LONGEST - 1, 0x1_0000, 32_768, 7] {
        for time in around_the_last_for(period).filter(|time| *time <= u32::MAX - 5) {
            let later = u64::from(u32::MAX - time).min(LONGEST.into());
            let before = [timer(1, 1, period), timer(2, 1, 0), timer(3, 2, period), timer(4, later, LONGEST)];
            let what = format!("period {period} at {time}");
            let mut both = at(caller, time, &before);
            feed(&mut both, &tick(), &what);
            assert_eq!(time_of(&both) < time, time >= u32::MAX - period, "{what}: the clock is at {}", time_of(&both));
            set_back += u32::from(time_of(&both) < time);
            let mut expected = vec![(3, 1, period), (4, later - 1, LONGEST)];
            let place = expected.iter().filter(|(_, left, _)| *left <= u64::from(period)).count();
            expected.insert(place, (1, period.into(), period));
            assert_eq!(timers_of(&both), expected, "{what}");
            (0..9).for_each(|_| feed(&mut both, &tick(), &what));
        }
    }
    assert!(set_back >= 15, "{set_back}");
}

/// Timers with any tocks left, and starts, ticks, purges and terminates behind them.
fn many_frames_near_the_end(caller: Caller) {
    let mut random = Random::new(72);
    let (mut by_start, mut by_tick, mut longest) = (0, 0, 0);
    for turn in 0..4000 {
        let time = match turn % 4 {
            0 => u32::MAX - random.below(9) as u32,
            1 => u32::MAX - LONGEST - 4 + random.below(9) as u32,
            2 => u32::MAX - 32_768 - 4 + random.below(9) as u32,
            _ => u32::MAX - (random.number() as u32 >> random.below(32)),
        };
        let timers = some_timers(&mut random, u64::from(u32::MAX - time));
        let mut both = at(caller, time, &timers);
        for step in 0..12 {
            let frame = some_frame(&mut random);
            let (before, had) = (time_of(&both), !both.other.timers().active().is_empty());
            feed(&mut both, &frame, &format!("turn {turn}, step {step}, {timers:?} at {time}"));
            let set_back = had && both.memory.timers[PART] > 0 && time_of(&both) < before;
            *if frame[0] == TICK { &mut by_tick } else { &mut by_start } += u32::from(set_back);
            let long = |&(_, left, _): &(u8, u64, u32)| left == LONGEST.into();
            longest += u32::from(set_back && timers_of(&both).iter().any(long));
        }
    }
    println!("set back by {by_start} starts and {by_tick} ticks, {longest} times with 2,147,483,648 tocks left");
    assert!(by_start > 500 && by_tick > 400 && longest > 500, "{by_start}, {by_tick}, {longest}");
}

/// Up to five, by tocks left, as far as the clock has room for them. A cyclic one has at most its period left.
fn some_timers(random: &mut Random, room: u64) -> Vec<TimerItem> {
    let mut some = |semaphore: u8| {
        let few = 1 + random.below(4) as u32;
        let tocks = random.pick(&[few, few, few, 32_767, 32_768, 0x1_0000, LONGEST - 1, LONGEST]);
        match random.below(3) {
            0 => timer(semaphore, tocks.min(LONGEST - 1).into(), 0),
            1 => timer(semaphore, tocks.into(), tocks),
            _ => timer(semaphore, tocks.min(few).into(), tocks),
        }
    };
    let mut timers: Vec<TimerItem> = (1..=5).map(&mut some).filter(|timer| timer.tocks_left <= room).collect();
    timers.truncate(random.below(6));
    timers.sort_by_key(|timer| timer.tocks_left);
    timers
}

fn some_frame(random: &mut Random) -> Vec<u8> {
    let semaphore = random.between(1, 6);
    match random.below(10) {
        0..=3 => tick(),
        4..=6 => season(semaphore, random.pick(&[i32::MIN, i32::MIN, i32::MAX, 0x1_0000, 3, 1, -1, -3, -0x1_0000])),
        7 => [vec![TIMER, 2, semaphore], random.pick(&[i16::MIN, i16::MAX, 1, -1]).to_be_bytes().to_vec()].concat(),
        8 => vec![PURGE, 1, semaphore, 0, random.between(0, 3)],
        _ => vec![TERMINATE, 2, 0, 0, 0],
    }
}
