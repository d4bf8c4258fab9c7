//! Damaged memory, each lent part in a heap block of exactly its length: for tests/memcheck. Argument: the number of calls for
//! each caller, or `outside` for one read of the byte behind a block.

use c::caller::Caller;
use c::damage::{damage, frames, Watch};
use c::lent::{Lent, SIZES};
use c::rules;
use plain_executive::generator::Generator;
use plain_executive::numbers::Number;
use plain_executive::random::Random;

fn exact(memory: &mut Lent, frame: &[u8]) -> Number {
    let mut blocks = memory.blocks().map(Box::<[u8]>::from);
    let number = memory.caller.feed(&Box::<[u8]>::from(frame), blocks.each_mut().map(|block| &mut **block));
    for (block, after) in memory.blocks_mut().into_iter().zip(&blocks) {
        block.copy_from_slice(after);
    }
    number
}

fn main() {
    let argument = std::env::args().nth(1).unwrap_or_default();
    if argument == "outside" {
        let block: Box<[u8]> = vec![0; SIZES[1]].into();
        let outside = block.as_ptr().wrapping_add(block.len());
        println!("{}", unsafe { outside.read_volatile() });
        return;
    }
    let calls: u64 = argument.parse().expect("a number of calls");
    Caller::ALL.into_iter().for_each(|caller| damage_memory(caller, calls));
}

fn damage_memory(caller: Caller, calls: u64) {
    let mut random = Random::new(31);
    let mut watch = Watch::new(exact);
    let mut another = Lent::of(caller, caller.sizes(), || 0);
    for seed in 0.. {
        let script = Generator::within(caller.limits(), seed).script(1..=20, 30);
        let mut memory = Lent::of(caller, caller.sizes(), || random.byte());
        assert_eq!(memory.configure(&script.configuration), 0);
        for (count, frame) in script.frames.iter().enumerate() {
            let configuration = rules::configuration_of(&memory).expect("accepted");
            let mut damaged = memory.clone();
            damage(&mut random, &mut damaged, &configuration, &another);
            let frames = frames(&mut random, &damaged, &script.frames[count..]);
            watch.feed(damaged, &frames, &|| format!("{caller:?}, seed {seed}, frame {count}"));
            exact(&mut memory, frame);
        }
        another = memory;
        if watch.counts.calls >= calls {
            break;
        }
    }
    println!("{caller:?}: {} calls", watch.counts.calls);
}
