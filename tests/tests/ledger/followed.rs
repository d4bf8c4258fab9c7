//! The definitions that the facts about turns are written with. A session is walked through once, with the ledger computed to
//! its last item before each frame, and all timers that it starts are followed on this one walk; that their turns and tocks
//! are the ledger's own is proved there.

pub const FOLLOWED: &str = r#"
-- The timers that a session starts, in the order of their starts.
use Rattle.std.specs.Prelude.{ℕ, suc, ◌-◌, ◌≡◌, refl, Bool, true, cond, ◌||◌, List, [], ◌∷◌, map}
use Prim.Native.String.{String}
use Rattle.std.proofs.Common.{◌∙◌}
use Rattle.ledger.specs.Lists.{byte, any}
use Rattle.ledger.specs.Config.{Config, config_in}
use Rattle.ledger.specs.Time.{TockValue}
use Rattle.ledger.specs.Ledger.{Ledger, running, set_clock, fresh}
use Rattle.ledger.specs.Services.{due_now}
use Rattle.ledger.specs.Refusals.{asked_by, call, is_of, have_timer, refusal}
use Rattle.ledger.specs.Session.{step, run_from}
use Rattle.ledger.specs.Turns.{accepted_as, Starts, ends, passes_tock, Moment, turns, spared, removed, has_turn, moments}
use Rattle.ledger.specs.Computing.Hex.{hex}
use Rattle.sessions.specs.Compared.{step_then, step_then_is, all}

-- a timer's task, semaphore and tock value; then its turns in the frames behind its start, and whether none of them ends it as long as it is there
pub record Followed : Type 0 where
  pub task : ℕ
  pub semaphore : ℕ
  pub value : TockValue
  pub turned : ℕ
  pub is_spared : Bool
  -- those that pass in these frames. 0 if one of them ends it: the other implementation counts only up to that frame
  pub tocks : ℕ

-- a frame with this number starts a timer
unfoldable pub starts : (number : ℕ) → List ℕ → Bool
starts n f = accepted_as n f 0x0D || accepted_as n f 0x0E || accepted_as n f 0x12

starts_is : (c : Config) (self n : ℕ) (f : List ℕ)
    → starts n f ≡ true → let k = call c self f in Starts c self n f k.a k.b (asked_by (byte 0 f) f)
unfolding starts
starts_is c self n f e = record { code = e; task = refl; semaphore = refl; value = refl }

-- the one that frame f starts, by its moments and the tocks behind
unfoldable pub started_by : Config → Ledger → (f : List ℕ) → List Moment → ℕ → Followed
started_by c l f its n =
    let k = call c (running l) f in
    record { task = k.a; semaphore = k.b; value = asked_by (byte 0 f) f; turned = turns its; is_spared = spared its; tocks = cond (spared its) n 0 }

-- those that frames start, by the ledger's own definitions
unfoldable pub followed : Config → Ledger → List (List ℕ) → List Followed
followed c l [] = []
followed c l (f ∷ fs) =
    let k = call c (running l) f in
    let m = (step c f l).ledger in
    let its = moments c k.a k.b m fs in
    let n = (run_from c m fs).0.N - l.N in
    cond (starts (refusal c l f) f) (started_by c l f its n ∷ followed c m fs) (followed c m fs)

-- a frame and its number, and the ledger before and after it
pub record Walked : Type 0 where
  pub before : Ledger
  pub frame : List ℕ
  pub number : ℕ
  pub after : Ledger

abbrev pub walked : Config → Ledger → List ℕ → Ledger → Walked
walked c l f m = record { before = l; frame = f; number = refusal c l f; after = m }

unfoldable walk : Config → Ledger → List (List ℕ) → List Walked
walk c l [] = []
walk c l (f ∷ fs) = let m = (step c f l).ledger in walked c l f m ∷ walk c m fs

module _ {B : Type 0} where
  unfoldable pub walk_then : Config → Ledger → List (List ℕ) → (List Walked → B) → B
  walk_then c l [] k = k []
  walk_then c l (f ∷ fs) k = step_then c f l λ m answered. walk_then c m fs (λ ws. k (walked c l f m ∷ ws))

  walk_then_is : (c : Config) (l : Ledger) (fs : List (List ℕ)) (k : List Walked → B) → walk_then c l fs k ≡ k (walk c l fs)
  unfolding walk_then walk
  walk_then_is c l [] k = refl
  walk_then_is c l (f ∷ fs) k =
      step_then_is c f l (λ m answered. walk_then c m fs (λ ws. k (walked c l f m ∷ ws)))
      ∙ (let m = (step c f l).ledger in walk_then_is c m fs (λ ws. k (walked c l f m ∷ ws)))

-- what it means for the timer of a on b. Its number is computed once for all timers
unfoldable pub moment : Config → (a b : ℕ) → Walked → Moment
moment c a b w =
    let l = w.before in
    let f = w.frame in
    let due = cond (passes_tock c l.ticks w.number f) (due_now (set_clock (suc l.N) 0 l)) [] in
    record { turn = any (is_of a b) due; ended = ends c (running l) w.number f a b; there = have_timer w.after a b }

moments_are : (c : Config) (a b : ℕ) (l : Ledger) (fs : List (List ℕ)) → map (moment c a b) (walk c l fs) ≡ moments c a b l fs
unfolding walk moment moments has_turn removed
moments_are c a b l [] = refl
moments_are c a b l (f ∷ fs) = rw (moments_are c a b (step c f l).ledger fs)

unfoldable pub last : Ledger → List Walked → Ledger
last l [] = l
last l (w ∷ ws) = last w.after ws

last_is : (c : Config) (l : Ledger) (fs : List (List ℕ)) → last l (walk c l fs) ≡ (run_from c l fs).0
unfolding walk last run_from
last_is c l [] = refl
last_is c l (f ∷ fs) = last_is c (step c f l).ledger fs

unfoldable pub follow : Config → List Walked → List Followed
follow c [] = []
follow c (w ∷ ws) =
    let l = w.before in
    let f = w.frame in
    let k = call c (running l) f in
    let its = map (moment c k.a k.b) ws in
    let n = (last w.after ws).N - l.N in
    cond (starts w.number f) (started_by c l f its n ∷ follow c ws) (follow c ws)

follow_is : (c : Config) (l : Ledger) (fs : List (List ℕ)) → follow c (walk c l fs) ≡ followed c l fs
unfolding follow followed walk
follow_is c l [] = refl
follow_is c l (f ∷ fs) =
    let k = call c (running l) f in
    let m = (step c f l).ledger in
    rw (moments_are c k.a k.b m fs, last_is c m fs, follow_is c m fs)

-- those of an accepted session
unfoldable pub followed_in : String → List String → List Followed
followed_in g fs = let c = config_in (hex g) in walk_then c (fresh c) (map hex fs) (follow c)

followed_in_is : (g : String) (fs : List String) → followed_in g fs ≡ (let c = config_in (hex g) in followed c (fresh c) (map hex fs))
unfolding followed_in
followed_in_is g fs =
    let c = config_in (hex g) in
    walk_then_is c (fresh c) (map hex fs) (follow c) ∙ follow_is c (fresh c) (map hex fs)

-- to unfold it is to unfold all that is computed here
unfoldable pub all_followed : String → List String → List Followed
unfolding all accepted_as ends passes_tock turns spared starts started_by walk_then moment last follow followed_in
all_followed g fs = followed_in g fs

abbrev pub started : ℕ → ℕ → TockValue → ℕ → Bool → ℕ → Followed
started a b v t s n = record { task = a; semaphore = b; value = v; turned = t; is_spared = s; tocks = n }
"#;
