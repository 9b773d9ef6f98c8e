"""A small repository for the tests, whose table is right: a tree of six fields, and one number besides."""

TREE = """-- the names of the fields
pub data Name : Type 0 where
  A1 A2 : Name
  c1_or_e1 : Name  -- one field until its value tells which
  mark closing : ℕ → Name
  E2 : Name

abbrev pub must : Name → List ℕ → Form Name (Value (fixed []))
must ν bs = any ν (fixed bs)

abbrev pub date_number : DateCase → ℕ
date_number no_such_day = 10
date_number too_late = 23

abbrev pub day_rules : ℕ → List Rule
day_rules n = rule 10 (is_day n) ∷ rule (date_number no_such_day) (is_year n) ∷ rule (date_number too_late) (in_span n) ∷ []

abbrev pub rules_a2 : Option ℕ → List Rule
rules_a2 none = []
rules_a2 (some n) = day_rules n

abbrev pub header : Form Name Header
header = do
  must A1 (ascii "0128")
  day ← get A2 (maybe 8) rules_a2
  ret day

abbrev pub two : Kind
two = digits 2

abbrev pub closing_blanks : ℕ → Form Name (Value (fixed []))
closing_blanks n = must (closing n) (blanks (suc n))

abbrev pub parts : ℕ → Form Name (List Part)
parts i = do
  m ← any (mark (suc i)) two
  closing_blanks i

abbrev pub figure : ℕ → ℕ → List Rule
figure counted v = rule 14 (eqb v counted) ∷ []

abbrev pub end : Form Name (List Payment)
end = do
  get E2 (digits 7) (figure t.count)
  ret []

-- the rules of a length
abbrev pub first_field : ℕ → List Rule
first_field l =
    rule 5 (is_length l)
    ∷ rule 6 (ltb l most)
    ∷ []

unfoldable pub payments : Form Name (List Payment)
payments = do
  l ← get c1_or_e1 (digits 4) first_field
  fork (eqb l 128) end (parts 0)
"""
READER = """abbrev pub if_whole : Bool → Look X → Look X
if_whole true l = l
if_whole false l = lacks short

abbrev pub optional : Bool → List ℕ → Look (Option ℕ)
optional true f = has none
optional false f = if_so (every digit f) (some f) not_digit

abbrev pub same : List ℕ → List ℕ → Bool
same bs f = true

abbrev pub digit : ℕ → Bool
digit b = true

unfoldable pub judge : (κ : Kind) → List ℕ → Look (Value κ)
judge (fixed bs) f = if_so (same bs f) tt not_fixed
judge (digits w) f = if_so (every digit f) f not_digit
judge (maybe w) f = optional (same (blanks w) f) f

abbrev pub look : (κ : Kind) → List ℕ → Look (Value κ)
look κ f = if_whole (leb (width κ) (length f)) (judge κ f)
"""
RULES_OF_VALUES = """abbrev pub most : ℕ
most = 9

unfoldable pub is_day : ℕ → Bool
is_day n = true

abbrev pub is_year : ℕ → Bool
is_year n = true

abbrev pub in_span : ℕ → Bool
in_span n = true

abbrev pub is_length : ℕ → Bool
is_length l = true
"""
VERDICTS = """unfoldable pub number_of : Reason → ℕ
number_of short = 1
number_of not_fixed = 2
number_of not_digit = 3
number_of (breaks n) = n
"""
LIMITS = """unfoldable pub limits : List Limit
limits = record { bytes = paymentM; number = 6; place = 0 } ∷ []

pub limits_hold : map reached limits ≡ map stated limits
limits_hold = refl
"""
ROOM = """abbrev pub no_room : Verdict
no_room = refusing 16 0

abbrev pub if_room : Bool → Verdict
if_room false = no_room

pub no_room_given : if_room false ≡ no_room
no_room_given = refl
"""
REFUSALS_OF_CODE = """pub const SHORT: u8 = 1;
pub const NOT_FIXED: u8 = 2;
pub const NO_DIGIT: u8 = 3;
pub const NO_LENGTH: u8 = 5;
pub const NO_MORE: u8 = 6;
pub const NO_DATE: u8 = 10;
pub const NOT_COUNTED: u8 = 14;
pub const NO_ROOM: u8 = 16;
pub const TOO_LATE: u8 = 23;
"""
FIELDS = """pub type Reading<T> = Result<T, Refusal>;

fn bytes_at(s: &[u8], p: usize, w: usize) -> Reading<&[u8]>
{
    if !whole {
        return Err(refuse(refusals::SHORT, p));
    }
    Ok(&s[p..p + w])
}

pub fn fixed_at(s: &[u8], p: usize, want: &[u8]) -> Reading<usize>
{
    let f = bytes_at(s, p, want.len())?;
    if f != want {
        return Err(refuse(refusals::NOT_FIXED, p));
    }
    Ok(p + want.len())
}

pub fn blanks_at(s: &[u8], p: usize) -> Reading<usize>
{
    fixed_at(s, p, b"  ")
}

fn number_in(f: &[u8], p: usize) -> Reading<u64>
{
    digits_of(f).ok_or(refuse(refusals::NO_DIGIT, p))
}

pub fn number_at(s: &[u8], p: usize, w: usize) -> Reading<(u64, usize)>
{
    let f = bytes_at(s, p, w)?;
    let v = number_in(f, p)?;
    Ok((v, p + w))
}
"""
CHECKER = """fn day_at(s: &[u8], p: usize) -> Reading<(Day, usize)>
{
    let (d, q) = fields::number_at(s, p, 8)?;
    if !is_day(d) {
        return Err(fields::refuse(refusals::NO_DATE, p));
    }
    match date_case(d) {
        DateCase::NoYear => return Err(fields::refuse(refusals::NO_DATE, p)),
        DateCase::TooLate => Err(fields::refuse(refusals::TOO_LATE, p)),
        DateCase::InOrder => Ok((d, q)),
    }
}

fn length_at(s: &[u8], p: usize) -> Reading<(u64, usize)>
{
    let a = fields::number_at(s, p, 4);
    let Ok((l, q)) = a else {
        return Err(fields::why(a));
    };
    if !is_length(l) {
        return Err(fields::refuse(refusals::NO_LENGTH, p));
    }
    if l >= MOST {
        return Err(fields::refuse(refusals::NO_MORE, p));
    }
    Ok((l, q))
}

fn tested_at<F: Fn(u64) -> bool>(s: &[u8], p: usize, w: usize, number: u8, test: F) -> Reading<usize>
{
    let (v, q) = fields::number_at(s, p, w)?;
    if !test(v) {
        return Err(fields::refuse(number, p));
    }
    Ok(q)
}

fn figure_at(s: &[u8], p: usize) -> Reading<usize>
{
    tested_at(s, p, 7, refusals::NOT_COUNTED, |v| v == counted)
}

fn file_at(s: &[u8]) -> Reading<usize>
{
    let a1 = fields::fixed_at(s, 0, b"0128");
    let a2 = day_at(s, 4);
    let first = length_at(s, p);
    let m = fields::number_at(s, p, 2);
    let b = fields::blanks_at(s, p);
    figure_at(s, p)
}

pub fn check(s: &[u8], out: &mut [u8]) -> u8
{
    if out.len() < 6 {
        return refusals::NO_ROOM;
    }
    0
}
"""
CASES = """call   | base    | changes     | answer   | what it shows

dtlist | file    | cut 3       | 1 0      | A1
dtlist | file    | 3=X         | 2 0      | A1
dtlist | file    | cut 11      | 1 4      | A2
dtlist | file    | 11=X        | 3 4      | A2
dtlist | file    | 4=30022004  | 10 4     | A2
dtlist | file    | 4=15030000  | 10 4     | A2
dtlist | file    | 4=31032004  | 23 4     | A2
dtlist | file    | cut 130     | 1 128    | C1
dtlist | file    | 387=X       | 3 384    | E1
dtlist | cents 7 |             | 5 25984  | C1
dtlist | file    | cut 133     | 1 132    | a mark
dtlist | file    | 133=X       | 3 132    | a mark
dtlist | file    | cut 135     | 1 134    | closing blanks
dtlist | file    | 135=X       | 2 134    | closing blanks
dtlist | file    | cut 390     | 1 388    | E2
dtlist | file    | 390=X       | 3 388    | E2
dtlist | file    | 390=1       | 14 388   | E2
dtmake | lines   |             | 16 0     | no room
"""
PAGE = """# Rules

## A

### A1

`must A1 (ascii "0128")`, 4 bytes at 0.
Tested by `fields::fixed_at`, called in `checker::file_at`.

| no. | the requirements | rule | proved as | case | wrong edit |
|---|---|---|---|---|---|
| 1 | the file ends before it is whole | `if_whole` | `returns-in_err-f` | `cut 3` | `last_field_is_short` |
| 2 | not `0128` | `same` | `returns-then-ne` | `3=X` | `fixed_bytes_not_compared` |

### A2

`day ← get A2 (maybe 8) rules_a2`, 8 bytes at 4.
Tested by `checker::day_at`, called in `checker::file_at`.

| no. | the requirements | rule | proved as | case | wrong edit |
|---|---|---|---|---|---|
| 1 | the file ends before it is whole | `if_whole` | `returns-in_err-d` | `cut 11` | `last_field_is_short` |
| 3 | a byte is no digit | `optional` | `returns-in_err-d` | `11=X` | `last_field_is_short` |
| 10 | no date | `is_day` | `returns-then-not-is_day` | `4=30022004` | `last_field_is_short` |
| 10 | no year | `is_year` | `returns-in-NoYear` | `4=15030000` | `last_field_is_short` |
| 23 | too late | `in_span` | `returns-in-TooLate` | `4=31032004` | `last_field_is_short` |

## C

### C1 or E1

`l ← get c1_or_e1 (digits 4) first_field`, 4 bytes at 0.
Tested by `checker::length_at`, called in `checker::file_at`.

| no. | the requirements | rule | proved as | case | wrong edit |
|---|---|---|---|---|---|
| 1 | the file ends before it is whole | `if_whole` | `returns-in_default` | `cut 130` | `last_field_is_short` |
| 3 | a byte is no digit | `digit` | `returns-in_default` | `387=X` | `last_field_is_short` |
| 5 | no length | `is_length` | `returns-then-not-is_length` | `cents 7` | `last_field_is_short` |
| 6 | too many | `most` | `returns-then-l-ge-MOST` | claim `limits_hold` | `last_field_is_short` |

### mark

`m ← any (mark (suc i)) two`, 2 bytes at 4 for the first part.
Tested by `fields::number_at`, called in `checker::file_at`.

| no. | the requirements | rule | proved as | case | wrong edit |
|---|---|---|---|---|---|
| 1 | the file ends before it is whole | `if_whole` | `returns-in_err-f` | `cut 133` | `last_field_is_short` |
| 3 | a byte is no digit | `digit` | `returns-in_err-v` | `133=X` | `last_field_is_short` |

### closing

`closing_blanks n = must (closing n) (blanks (suc n))`, at 6 behind one part.
Tested by `fields::fixed_at`, called through `fields::blanks_at` in
`checker::file_at`.

| no. | the requirements | rule | proved as | case | wrong edit |
|---|---|---|---|---|---|
| 1 | the file ends before it is whole | `if_whole` | `returns-in_err-f` | `cut 135` | `last_field_is_short` |
| 2 | not blanks | `same` | `returns-then-ne` | `135=X` | `fixed_bytes_not_compared` |

### E2

`get E2 (digits 7) (figure t.count)`, 7 bytes at 4.
Tested by `checker::tested_at` with `v == counted`, called through `checker::figure_at` in
`checker::file_at`.

| no. | the requirements | rule | proved as | case | wrong edit |
|---|---|---|---|---|---|
| 1 | the file ends before it is whole | `if_whole` | `returns-in_err-v` | `cut 390` | `last_field_is_short` |
| 3 | a byte is no digit | `digit` | `returns-in_err-v` | `390=X` | `last_field_is_short` |
| 14 | not the counted figure | `figure` | `returns-then-not-test` | `390=1` | `last_field_is_short` |

## Numbers that no field gives

### 16

By one program. Tested by `checker::check`.

| no. | the requirements | rule | proved as | case | wrong edit |
|---|---|---|---|---|---|
| 16 | no room | `if_room` | `returns-then-out-lt6` | `dtmake, lines` | `last_field_is_short` |

By another. Tested by `checker::check`.

| no. | the requirements | rule | proved as | case | wrong edit |
|---|---|---|---|---|---|
| 16 | no room | `if_room` | `returns-then-out-lt6` | claim `no_room_given` | `fixed_bytes_not_compared` |
"""
REFUSALS = """# Refusals

## How to read an answer

See [the rules](RULES.md).

## 1: the file ends too early

Rules: [every field](RULES.md).

## 2: fixed bytes

Rules: [A1](RULES.md#a1), [closing blanks](RULES.md#closing).

## 3: no digit

Rules: [A2](RULES.md#a2), [C1 or E1](RULES.md#c1-or-e1), [a mark](RULES.md#mark), [E2](RULES.md#e2).

## 5: no length

Rules: [C1 or E1](RULES.md#c1-or-e1).

## 6: too many

Rules: [C1 or E1](RULES.md#c1-or-e1).

## 10: no date

Rules: [A2](RULES.md#a2).

## 14: not counted

Rules: [E2](RULES.md#e2).

## 16: no room

Rules: [16](RULES.md#16).

## 23: too late

Rules: [A2](RULES.md#a2).
"""


ANSWERS = """pub returns-then-ne : goal.returns-then-ne
returns-then-ne c = search rules
"""

FILES = {
    "crates/diskette/specs/Fields.antt": TREE,
    "crates/diskette/specs/Limits.antt": LIMITS,
    "crates/form/specs/Reader.antt": READER,
    "crates/document/specs/Rules.antt": RULES_OF_VALUES,
    "crates/verdict/specs/Verdicts.antt": VERDICTS,
    "crates/checker/specs/Room.antt": ROOM,
    "crates/fields/src/refusals.rt": REFUSALS_OF_CODE,
    "crates/fields/src/lib.rt": FIELDS,
    "crates/fields/proofs/fixed_at/Answers.antt": ANSWERS,
    "crates/checker/src/lib.rt": CHECKER,
    "crates/fields/must-fail/last_field_is_short.edit": "",
    "crates/fields/must-fail/fixed_bytes_not_compared.edit": "",
    "tests/cases.txt": CASES,
    "docs/RULES.md": PAGE,
    "docs/REFUSALS.md": REFUSALS,
}
