"""The maker of variants, tried on a few lines: what it must make of them, and what it must leave alone."""
from kinds import Names, variants

LINES = '''-- a comment with leb 1 and "text"
use Rattle.std.specs.Prelude.{leb, ltb}

pub record Pair : Type 0 where
  pub left : ℕ
  pub right : ℕ

-- 3 of them
unfoldable pub small : ℕ → ℕ → Bool
small a b = leb a 7 && ltb b (suc a)

abbrev pub either : Bool → List ℕ
either true = bytes "yes"
either false = 1 ∷ 2 ∷ []

abbrev pub turned : Pair → Pair
turned p = if small p.left 0 then record { left = p.right; right = p.left } else p

unfoldable pub sum_of : Pair → ℕ
sum_of p = (turned p).left + p.right

pub record Says (a b : ℕ) : Type 0 where
  pub low : (x y : ℕ) → 1 ≤ x → small a x ≡ true
  pub both : (a ≡ b) × (max a b - 1 < b)
'''
# a line of the source, and what it must become in some variant
MADE = [
    ('small a b = leb a 7 && ltb b (suc a)', 'small a b = ltb a 7 && ltb b (suc a)'),
    ('small a b = leb a 7 && ltb b (suc a)', 'small a b = leb a 8 && ltb b (suc a)'),
    ('small a b = leb a 7 && ltb b (suc a)', 'small a b = leb a 6 && ltb b (suc a)'),
    ('small a b = leb a 7 && ltb b (suc a)', 'small a b = leb a 7 || ltb b (suc a)'),
    ('small a b = leb a 7 && ltb b (suc a)', 'small a b = leb a 7'),
    ('small a b = leb a 7 && ltb b (suc a)', 'small a b = ltb b (suc a)'),
    ('small a b = leb a 7 && ltb b (suc a)', 'small a b = leb a 7 && ltb b (a)'),
    ('small a b = leb a 7 && ltb b (suc a)', 'small a b = leb b 7 && ltb a (suc b)'),
    ('small a b = leb a 7 && ltb b (suc a)', 'small a b = leb 7 a && ltb b (suc a)'),
    ('either true = bytes "yes"', 'either true = 1 ∷ 2 ∷ []'),
    ('either true = bytes "yes"', 'either true = bytes "zes"'),
    ('either true = bytes "yes"', 'either true = bytes "ye"'),
    ('either false = 1 ∷ 2 ∷ []', 'either false = 2 ∷ []'),
    ('either false = 1 ∷ 2 ∷ []', 'either false = 1 ∷ []'),
    ('either false = 1 ∷ 2 ∷ []', 'either false = 2 ∷ 1 ∷ []'),
    ('if small p.left 0 then', 'if small p.right 0 then'),
    ('if small p.left 0 then', 'if small 0 p.left then'),
    ('{ left = p.right; right = p.left }', '{ left = p.left; right = p.right }'),
    ('then record { left = p.right; right = p.left } else p', 'then p else record { left = p.right; right = p.left }'),
    ('(turned p).left + p.right', '(turned p).right + p.right'),
    ('(turned p).left + p.right', '(turned p).left'),
    ('(x y : ℕ) → 1 ≤ x → small a x ≡ true', '(x y : ℕ) → small a x ≡ true'),
    ('(x y : ℕ) → 1 ≤ x → small a x ≡ true', '(x y : ℕ) → 1 < x → small a x ≡ true'),
    ('(x y : ℕ) → 1 ≤ x → small a x ≡ true', '(x y : ℕ) → 1 ≤ x → small a x ≡ false'),
    ('(a ≡ b) × (max a b - 1 < b)', '(a ≡ b)'),
    ('(a ≡ b) × (max a b - 1 < b)', '(max a b - 1 < b)'),
    ('max a b - 1 < b', 'min a b - 1 < b'),
    ('max a b - 1 < b', 'max a b - 0 < b'),
    ('  pub both : (a ≡ b) × (max a b - 1 < b)\n', ''),
]
# a word that the file lacks comes with its import: what a variant then has, in two places
IMPORTED = [
    ('use Rattle.std.specs.Prelude.{leb, ltb, min}\n', 'min a b - 1'),
    ('use Rattle.std.specs.Prelude.{leb, ltb, ◌≤◌}\n', 'max a b - 1 ≤ b'),
    ('use Rattle.std.specs.Prelude.{leb, ltb}\n', 'ltb a 7'),
]
# what every variant still has, unless it drops it with a field: comments, imports, signatures, binders
KEPT = ['(x y : ℕ)', '-- a comment with leb 1 and "text"', 'use Rattle.std.specs.Prelude.{leb, ltb', '-- 3 of them', 'unfoldable pub small : ℕ → ℕ → Bool', ': Type 0 where']


def selftest():
    made = [v.applied(LINES) for v in variants(LINES, Names().take(LINES))]
    plain = [v.replaced(LINES) for v in variants(LINES, Names().take(LINES))]
    lost = [f'not made: {new}' for old, new in MADE if LINES.replace(old, new, 1) not in plain]
    lost += [f'not imported: {new}' for old, new in IMPORTED if not any(old in text and new in text for text in made)]
    lost += [f'not kept: {k}' for k in KEPT for text in made if k not in text and 'pub low' in text]
    lost += ['made twice'] if len(set(made)) != len(made) or LINES in made else []
    for line in lost:
        print(line)
    print(f'{len(made)} variants of the sample, {len(MADE)} looked for: ' + ('FAILED' if lost else 'ok'))
    return 1 if lost else 0
