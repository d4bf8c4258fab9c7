//! A session in which much happens for as long as one likes: tasks that send, receive, put, take and wait, and a first task that
//! comes by now and then and starts a task again.

use plain_executive::command::*;
use plain_executive::executive::Executive;
use plain_executive::random::Random;

const TASKS: u8 = 12;
const NAMED: u8 = 6;
const QUEUES: u8 = 3;
const MESSAGES: u8 = 8;
const SIZES: [u8; 6] = [2, 4, 1, 8, 4, 3];

pub fn session(seed: u64, frames: usize) -> Vec<u8> {
    let mut random = Random::new(seed);
    let mut configuration = vec![TASKS, NAMED, QUEUES, 16, MESSAGES, 2, 0, 50];
    configuration.extend([0; TASKS as usize]);
    configuration.extend(SIZES);
    let mut executive = Executive::configure(&configuration).expect("accepted");
    let mut lines = line(&configuration);
    for _ in 0..frames {
        let frame = frame(&mut random, executive.running());
        executive.frame(&frame);
        lines += &line(&frame);
    }
    lines.into_bytes()
}

fn line(bytes: &[u8]) -> String {
    view::words::hex(bytes) + "\n"
}

fn frame(random: &mut Random, runs: u8) -> Vec<u8> {
    if runs == 0 || random.percent(12) {
        return match random.below(3) {
            0 => vec![INTERRUPT_EXIT, 0, random.between(1, NAMED), 0, 0],
            _ => vec![TICK, 0, 0, 0, 0],
        };
    }
    if runs == 1 {
        return match random.below(4) {
            0 => vec![EXECUTE, random.between(2, TASKS), 0, 0, 0],
            1 => vec![RESUME, random.between(2, TASKS), 0, 0, 0],
            _ => vec![DELAY, 0, 0, 0, random.between(1, 6)],
        };
    }
    service(random)
}

fn service(random: &mut Random) -> Vec<u8> {
    let (task, semaphore, queue) = (random.between(1, TASKS), random.between(0, NAMED), random.between(1, QUEUES));
    match random.below(24) {
        0..=2 => vec![WAIT, 0, semaphore, 0, 0],
        3..=5 => vec![SIGNAL, 0, semaphore, 0, 0],
        6 => vec![PEND, 0, semaphore, 0, 0],
        7..=9 => vec![SEND, task, 0, 0, random.between(1, MESSAGES)],
        10 => vec![SENDW, task, 0, 0, random.between(1, MESSAGES)],
        11..=12 => vec![RECEIVE, 0, 0, 0, 0],
        13..=15 => vec![DEQUEUE, queue, 0, 0, 0],
        16..=18 => {
            let mut put = vec![ENQUEUE, queue, 0, 0, 0];
            put.extend((0..SIZES[2 * usize::from(queue) - 2]).map(|_| random.byte()));
            put
        }
        19 => vec![SUSPEND, random.between(2, TASKS), 0, 0, 0],
        20..=21 => vec![DELAY, 0, 0, 0, random.between(1, 9)],
        22 => vec![TIMER, 0, semaphore, random.pick(&[0, 255]), random.between(1, 250)],
        _ => vec![PURGE, 0, semaphore, 0, random.between(0, 1)],
    }
}
