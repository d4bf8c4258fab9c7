//! What the checker is to compute: equations between the ledger's results and this implementation's.

use crate::antt;
use plain_executive::executive::Executive;
use plain_executive::generator::Script;
use plain_executive::items::Items;
use plain_executive::limits::Limits;
use plain_executive::numbers::Number;
use plain_executive::session;
use plain_executive::tocks::{self, Tocks};
use plain_executive::turns::{Followed, Turns};

/// What stands in front of facts about sessions.
pub const SESSIONS: &str = "\
use Rattle.std.specs.Prelude.{ℕ, ◌≡◌, refl, Bool, true, false, List, [], ◌∷◌, map}
use Prim.Native.String.{String}
use Rattle.ledger.specs.Config.{brake_module, config_refusal_by}
use Rattle.ledger.specs.Ledger.{Semaphore, PENDING, DONE, WAITING, Outcome, plain, begin, message, entry, refused, semaphore, \
woke, Request, none, receive, dequeue, enqueue}
use Rattle.ledger.specs.Session.{session}
use Rattle.ledger.specs.Lines.{output}
use Rattle.ledger.specs.Computing.Hex.{hex}
use Rattle.ledger.specs.Computing.Quick.{everything}
use Rattle.sessions.specs.Compared.{all, compared, task, letter, timer}
";

/// What stands in front of facts about turns.
pub const TURNS: &str = "\
use Rattle.std.specs.Prelude.{ℕ, ◌≡◌, refl, Bool, true, false, List, [], ◌∷◌}
use Prim.Native.String.{String}
use Rattle.ledger.specs.Time.{TockValue, one_shot, cyclic}
use Rattle.sessions.specs.Followed.{all_followed, followed_in, started}
";

/// What stands in front of facts about tocks.
pub const TIMES: &str = "\
use Rattle.std.specs.Prelude.{ℕ, ◌≡◌, refl}
use Rattle.ledger.specs.Time.{TockValue, none, one_shot, cyclic, tock_value, long_tock_value, Tocks, are, refused, milliseconds}
use Rattle.ledger.specs.Computing.Quick.{everything}
";

#[derive(Clone)]
pub struct Fact {
    pub name: String,
    pub equation: String,
    pub unfolding: &'static str,
    /// Lines that a person can replay, and what they are answered with here.
    pub replay: String,
}

/// What a session of an accepted configuration leads to.
#[derive(Clone)]
pub struct Results {
    /// That to the configuration first.
    pub answers: Vec<Vec<u8>>,
    /// After the last frame.
    pub items: Items,
}

impl Results {
    /// Those of this implementation.
    pub fn of(script: &Script) -> Self {
        let mut executive = Executive::configure(&script.configuration).expect("an accepted configuration");
        let mut answers = vec![executive.answer(0, 0).bytes().to_vec()];
        answers.extend(script.frames.iter().map(|frame| executive.frame(frame).bytes().to_vec()));
        Results { answers, items: executive.items() }
    }
}

/// The timers that a session starts, as this implementation follows them.
pub fn followed(script: &Script) -> Vec<Followed> {
    let mut executive = Executive::configure(&script.configuration).expect("an accepted configuration");
    let mut turns = Turns::fresh(executive.configuration());
    let mut after = executive.items();
    for frame in &script.frames {
        let before = after;
        let number = executive.frame(frame).refusal();
        after = executive.items();
        turns.watch(frame, number, &before, &after);
    }
    turns.timers().to_vec()
}

/// That the ledger leads to these results.
pub fn session(number: usize, script: &Script, results: &Results) -> Fact {
    let configuration = antt::digits(&script.configuration);
    let frames = frames(script);
    let answers = antt::list(results.answers.iter().map(|answer| antt::digits(answer)));
    let items = antt::items(&results.items);
    Fact {
        name: format!("session_{number}"),
        equation: format!("compared {configuration} {frames}\n  ≡ (map hex {answers},\n    {items})"),
        unfolding: "all",
        replay: replay(&script.lines()),
    }
}

/// That the ledger starts these timers and no others, with these turns.
pub fn turns(number: usize, script: &Script, timers: &[Followed]) -> Fact {
    let configuration = antt::digits(&script.configuration);
    let frames = frames(script);
    let timers = antt::list(timers.iter().map(antt::followed));
    Fact {
        name: format!("turns_{number}"),
        equation: format!("followed_in {configuration} {frames}\n  ≡ {timers}"),
        unfolding: "all_followed",
        replay: replay(&script.lines()),
    }
}

fn frames(script: &Script) -> String {
    antt::list(script.frames.iter().map(|frame| antt::digits(frame)))
}

/// A frame behind a refused configuration is not answered.
pub fn refused_configuration(number: usize, configuration: &[u8]) -> Fact {
    let refusal = Executive::configure(configuration).expect_err("a refused configuration");
    let frames = antt::list([antt::digits(&[0x10, 0, 0, 0, 0])]);
    let answers = antt::list([antt::digits(&[refusal, 0, 0, 0])]);
    Fact {
        name: format!("configuration_{number}"),
        equation: format!("session {} (map hex {frames}) ≡ map hex {answers}", antt::bytes(configuration)),
        unfolding: "everything",
        replay: format!("{}\nrefused here with {refusal}\n", antt::digits(configuration)),
    }
}

/// The number of a configuration on the brake module, 0 if it is accepted there.
pub fn on_the_module(number: usize, configuration: &[u8]) -> Fact {
    let given = Executive::configure_within(Limits::MODULE, configuration).err().unwrap_or(0);
    Fact {
        name: format!("module_{number}"),
        equation: format!("config_refusal_by brake_module {} ≡ {given}", antt::bytes(configuration)),
        unfolding: "everything",
        replay: format!("{}\ngets {given} here, on the module\n", antt::digits(configuration)),
    }
}

pub fn input(number: usize, input: &[u8]) -> Fact {
    let output = session::run(input);
    Fact {
        name: format!("input_{number}"),
        equation: format!("output {} ≡ hex {}", antt::bytes(input), antt::digits(&output)),
        unfolding: "everything",
        replay: replay(input),
    }
}

/// Of two bytes.
pub fn tock_value(number: usize, x: u16) -> Fact {
    let equation = format!("tock_value {x} ≡ {}", written(tocks::tock_value(x)));
    Fact { name: format!("tocks_{number}"), replay: equation.clone(), equation, unfolding: "everything" }
}

/// Of the four of a season timer.
pub fn season_tock_value(number: usize, x: u32) -> Fact {
    let equation = format!("long_tock_value {x} ≡ {}", written(tocks::season_tock_value(x)));
    Fact { name: format!("season_tocks_{number}"), replay: equation.clone(), equation, unfolding: "everything" }
}

fn written(value: Result<Tocks, Number>) -> String {
    value.map_or("none".into(), antt::tocks)
}

pub fn milliseconds(number: usize, milliseconds: u16, per_tock: u16) -> Fact {
    let tocks = match tocks::tocks_of_milliseconds(milliseconds, per_tock) {
        Ok(tocks) => format!("are {tocks}"),
        Err(number) => format!("refused {number}"),
    };
    let equation = format!("milliseconds {milliseconds} {per_tock} ≡ {tocks}");
    Fact { name: format!("milliseconds_{number}"), replay: equation.clone(), equation, unfolding: "everything" }
}

fn replay(input: &[u8]) -> String {
    let output = session::run(input);
    let text = String::from_utf8_lossy;
    format!("the session's lines:\n{}\nanswered here with:\n{}", text(input), text(&output))
}
