"""Two crates with laws and imports, some of which nobody cites or uses: the check is itself seen to tell them apart."""
import pathlib
import tempfile

import laws

# a definition whose comment tells of an end, laws, a law of another crate that cites some of them, and a proof
NOTIONS = """-- Half of a number. Two halves make the whole where it is even: `an_end` of proofs/Laws.antt.
use Prim.Native.Nat.{ℕ, ◌/◌, ◌+◌}

unfoldable pub half : ℕ → ℕ
half n = n / 2
"""
LAWS = """-- This comment does not cite `dead`.
use Rattle.low.specs.Notions.{half}

pub an_end : (n : ℕ) → half n ≡ half n
an_end n = private n

private : (n : ℕ) → half n ≡ half n
private n = refl

pub recursive : (n : ℕ) → half n ≡ half n
recursive zero = helper
  where
    helper : half zero ≡ half zero
    helper = recursive zero

recursive (suc n) = recursive n

module _ (n : ℕ) where
  pub cited : half n ≡ half n
  unfolding half
  cited = refl

  pub by_module : half n ≡ half n
  by_module = refl

  pub fields : Fields n
  fields = record {left = refl}

  pub dead : half n ≡ half n
  dead = refl

  pub twice : half n ≡ half n
  twice = refl

  spare : half n ≡ half n
  spare = refl
"""
CITING = """use Prim.Native.Nat.{ℕ, ◌+◌, ◌*◌, here_n}
use Rattle.low.proofs.Laws.{
  cited as here,
  dead,
  fields,
}
use Rattle.low.proofs.Laws as Low
use Rattle.low.proofs.Others

pub twice : (n : ℕ) → n + 0 ≡ n
twice n = here n ∙ Low.by_module n ∙ (fields n).left ∙ fields.left
"""
ANSWERS = """use Rattle.high.proofs.Citing.{twice}
use Rattle.high.proofs.code.Goals as goal

pub returns : goal.returns
returns c = twice c.args.n
"""
FILES = {
    "low/specs/Notions.antt": NOTIONS,
    "low/proofs/Laws.antt": LAWS,
    "high/proofs/Citing.antt": CITING,
    "high/proofs/code/Answers.antt": ANSWERS,
}
DEAD = ["recursive", "dead", "twice", "spare"]
UNUSED = ["◌+◌", "◌*◌", "here_n", "dead", "Others"]


def mistaken():
    """The checks that say something else than they should."""
    with tempfile.TemporaryDirectory() as room:
        for name, text in FILES.items():
            path = pathlib.Path(room, "crates", name)
            path.parent.mkdir(parents=True, exist_ok=True)
            path.write_text(text)
        for check, wanted in ((laws.uncited, DEAD), (laws.unused, UNUSED)):
            said = [fault.split(": ")[-1] for fault in check(pathlib.Path(room))]
            if said != wanted:
                yield f"{check.__name__}: said of {said}, wanted of {wanted}"
