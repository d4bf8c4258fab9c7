//! The definitions that the facts are written with. A list of frames is run with the ledger computed to its last item
//! before each frame and each reissue, which keeps long sessions fast; that this is the ledger's own run is proved there.

pub const COMPARED: &str = r#"
-- The answers and the items of a session, computed together and fast, and short ways to write items.
use Rattle.std.specs.Prelude.{ℕ, zero, suc, ◌*◌, ◌≡◌, refl, Bool, true, false, cond, List, [], ◌∷◌, map, eqb}
use Prim.Native.String.{String}
use Rattle.std.proofs.Common.{◌∙◌}
use Rattle.ledger.specs.Config.{Config, config_in}
use Rattle.ledger.specs.Ledger.{Outcome, Request, Blocks, Task, Message, Ledger, fresh}
use Rattle.ledger.specs.Refusals.{refusal}
use Rattle.ledger.specs.Session.{Settled, Stepped, Items, TimerLeft, is_open, open_request, reissue, settle, answer, accept, step, run_from, run, items}
use Rattle.ledger.specs.Computing.Hex.{hex}
use Rattle.ledger.specs.Computing.Force.{force, force_is}
use Rattle.ledger.specs.Computing.Quick.{everything}

module _ {B : Type 0} where
  -- settling, with the ledger computed to its last item before each reissue
  unfoldable pub settle_then : ℕ → Config → Ledger → (ℕ → Ledger → B) → B
  settle_then zero c l k = force l λ l'. k 0 l'
  settle_then (suc n) c l k = force l λ l'. cond (is_open (open_request l')) (settle_then n c (reissue c l') (λ r l''. k (suc r) l'')) (k 0 l')

  settle_then_is : (n : ℕ) (c : Config) (l : Ledger) (k : ℕ → Ledger → B) → settle_then n c l k ≡ k (settle n c l).reissues (settle n c l).ledger
  unfolding settle_then settle
  settle_then_is zero c l k = force_is l (λ l'. k 0 l')
  settle_then_is (suc n) c l k =
      force_is l (λ l'. cond (is_open (open_request l')) (settle_then n c (reissue c l') (λ r l''. k (suc r) l'')) (k 0 l'))
      ∙ go (settle_then_is n c (reissue c l) (λ r l''. k (suc r) l'')) (is_open (open_request l))
    where
    go : settle_then n c (reissue c l) (λ r l''. k (suc r) l'') ≡ k (suc (settle n c (reissue c l)).reissues) (settle n c (reissue c l)).ledger
      → (b : Bool)
      → cond b (settle_then n c (reissue c l) (λ r l''. k (suc r) l'')) (k 0 l)
      ≡ (let s : Settled = elim b [
          | false ↦ record { ledger = l; reissues = 0 }
          | true ↦ let s = settle n c (reissue c l) in record { ledger = s.ledger; reissues = suc s.reissues }
        ] in k s.reissues s.ledger)
    go h false = refl
    go h true = h

  -- the step for a frame
  unfoldable pub step_then : Config → List ℕ → Ledger → (Ledger → List ℕ → B) → B
  step_then c f l k =
      let n = refusal c l f in
      cond (eqb n 0) (settle_then (2 * c.T) c (accept c f l) (λ r l'. k l' (answer 0 r l'))) (k l (answer n 0 l))

  pub step_then_is : (c : Config) (f : List ℕ) (l : Ledger) (k : Ledger → List ℕ → B) → step_then c f l k ≡ k (step c f l).ledger (step c f l).answered
  unfolding step_then step
  step_then_is c f l k = go (eqb (refusal c l f) 0)
    where
    go : (b : Bool)
      → cond b (settle_then (2 * c.T) c (accept c f l) (λ r l'. k l' (answer 0 r l'))) (k l (answer (refusal c l f) 0 l))
      ≡ (let s = settle (2 * c.T) c (accept c f l) in
         let t : Stepped = cond b (record { ledger = s.ledger; answered = answer 0 s.reissues s.ledger }) (record { ledger = l; answered = answer (refusal c l f) 0 l }) in
         k t.ledger t.answered)
    go true = settle_then_is (2 * c.T) c (accept c f l) (λ r l'. k l' (answer 0 r l'))
    go false = refl

  -- the run over a list of frames
  unfoldable pub run_then : Config → Ledger → List (List ℕ) → (Ledger → List (List ℕ) → B) → B
  run_then c l [] k = k l []
  run_then c l (f ∷ fs) k = step_then c f l λ l' a. run_then c l' fs (λ l'' answers. k l'' (a ∷ answers))

  run_then_is : (c : Config) (l : Ledger) (fs : List (List ℕ)) (k : Ledger → List (List ℕ) → B) → run_then c l fs k ≡ k (run_from c l fs).0 (run_from c l fs).1
  unfolding run_then run_from
  run_then_is c l [] k = refl
  run_then_is c l (f ∷ fs) k =
      step_then_is c f l (λ l' a. run_then c l' fs (λ l'' answers. k l'' (a ∷ answers)))
      ∙ run_then_is c (step c f l).ledger fs (λ l'' answers. k l'' ((step c f l).answered ∷ answers))

-- all answers of an accepted session, and the items after it
unfoldable pub compared : String → List String → List (List ℕ) × Items
compared g fs =
    let c = config_in (hex g) in
    run_then c (fresh c) (map hex fs) (λ l answers. (answer 0 0 (fresh c) ∷ answers, items l))

compared_is : (g : String) (fs : List String)
  → compared g fs ≡ (let r = run (config_in (hex g)) (map hex fs) in (r.1, items r.0))
unfolding compared run
compared_is g fs =
    let c = config_in (hex g) in
    run_then_is c (fresh c) (map hex fs) (λ l answers. (answer 0 0 (fresh c) ∷ answers, items l))

-- to unfold it is to unfold all that is computed here
unfoldable pub all : String → List String → List (List ℕ) × Items
unfolding everything settle_then step_then run_then compared
all g fs = compared g fs

abbrev pub task : Bool → Bool → Bool → Bool → Outcome → String → Request → Task
task i s e m o b r = record { blocks = record { idle = i; suspended = s; event_wait = e; message_wait = m }; outcome = o; slot = hex b; request = r }

abbrev pub letter : ℕ → ℕ → ℕ → Message
letter n s b = record { number = n; sender = s; semaphore = b }

abbrev pub timer : ℕ → ℕ → ℕ → ℕ → TimerLeft
timer t b l p = record { task = t; semaphore = b; left = l; period = p }
"#;
