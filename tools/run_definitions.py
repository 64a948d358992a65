#!/usr/bin/env python3
"""Runs the theory's definitions on outside vectors and on edges of documents 01 and 02, and reports each difference.

    python3 tools/run_definitions.py [--vectors DIR] [--listings N] [--instants N] [--texts N] [--dialect N] [--ticks N] [--runs N]
                                     [--blocks N] [--ties N] [--first N] [--questions N] [--trials N] [--seed S]

Each vector becomes a theorem `what the definitions give ≡ what is expected`, proved by refl, so that the checker has to
compute the definitions. All is written to a temporary repository, which has copies of crates/codes, crates/esterel,
crates/grammar, crates/starts, crates/blocks, crates/instant, crates/tied, crates/question and crates/trial, and of what they
stand on. The theorem listing17 is the vector in line 17 of the listings; edges are numbered as they stand below.

A text's derivation cannot be computed: its tree is the one that the machine of crates/grammar finds, of which it is proved
that it finds exactly the derivations, and that it is stuck at the first token with which the text can't go on; where an exit
has no trap, its name is found by the search of crates/grammar, which is proved to find the one that the derivation names.
Texts of F-1 that use a word of F-9 as a name, or have a count, are passed over: the files of F-9 have such.

Of a tick that is shown, the rules are run with its list (tick17); where table and list are small, all lists that come before
it are run too, in their order, until one leads there (first17). Whether a list leads there is asked by a test here, which is
proved to say what `Leads` does; so is the test whether a node stands at two places of a trail, which tells of each instant of
a run (run17) what is entered twice. The greatest number of entries of a small program (most17) is found by starting it with all
lists of as many answers as it has tests, and no start takes more, which crates/starts proves; larger ones are passed over. In the
same way the set of a node with few presents is gathered (trial17): crates/trial proves that 12 answers gather the same codes. Of
the 65,536 editions of a file of blocks (block17) only those that its blocks name are
tried, from the highest down: no other is whole, which crates/blocks proves.
"""
import argparse, collections, json, os, random, re, shutil, subprocess, sys, tempfile, time
from pathlib import Path

ROOT = Path(__file__).resolve().parent.parent
COPIED = ("codes", "esterel", "grammar", "starts", "blocks", "table", "analysis", "packing", "instant", "tied", "question", "trial")
CRATES_TXT = "codes:\nesterel: codes\ngrammar: esterel\nstarts: esterel codes\nblocks: esterel codes bytes\n" + (
    "table: esterel\nanalysis: table esterel codes\npacking: table esterel codes\ninstant: packing analysis table esterel codes\ntied: analysis table esterel codes\nquestion: analysis table esterel codes\ntrial: starts instant packing analysis table esterel codes\n") + "".join(
    f"{name}: trial question tied instant packing analysis table blocks starts grammar esterel codes\n" for name in ("control", "vectors"))

# ---- the theorems in antt

# The calls of document 01 and the reader of F-1, put together from the definitions. The emission buffer is taken to be long enough.
CALLS = """
use Prim.Native.Nat.{ℕ, zero, suc, ◌-◌, ◌/◌, max}
use mathlib.Core.Path.{◌≡◌, refl, sym, ap, subst}
use mathlib.Core.Logic.{◌↔◌}
use mathlib.Core.Bool.{Bool, true, false, ◌&&◌, ◌||◌, cond, or-true, false≢true}
use mathlib.Core.List.{List, [], ◌∷◌, ◌++◌, map}
use mathlib.Core.Option.{Option, none, some}
use lib.ListN.{length, take, drop}
use lib.Dec.{T, eqb, ltb, eqb→eq, eqb_refl}
use Rattle.esterel.specs.Limits.{signals as max_signals}
use Rattle.esterel.specs.Codes.{bit, word}
use Rattle.esterel.specs.Refusal.{Reply, yields, rejects}
use Rattle.esterel.specs.Statement.{Stmt, size, nodes, loop_depth}
use Rattle.esterel.specs.Table.{Verdict, passed, refused, read, check_length, postfix}
use Rattle.esterel.specs.Checks.{verdict, listing, Line, planned}
use Rattle.esterel.specs.Sets.{places_of, mark}
use Rattle.esterel.specs.Instant.{Mode, started, resumed, Entry, entry, Result, closed, starved, stuck, start, resume}
use Rattle.esterel.specs.Outcome.{statement_at}
use Rattle.esterel.specs.Reentry.{Twice, Entered}
use Rattle.grammar.specs.Limits.{max_source}
use Rattle.grammar.specs.Tokens.{tokens, byte_of}
use Rattle.grammar.specs.Kernel.{expand}
use Rattle.grammar.specs.Faults.{number_of_fault, crowded_from}
use Rattle.grammar.specs.Search.{no_name, look}
use Rattle.grammar.specs.Meaning.{signals, untrapped, verdict_of_tree}
use Rattle.grammar.specs.Machine as M
use Rattle.starts.specs.Ticks.{Leads, presents}
use Rattle.blocks.specs.Editions as B
use Rattle.blocks.specs.Fetching as F
use Rattle.tied.specs.Calls as N
use Rattle.question.specs.Calls as Q
use Rattle.question.specs.declared.Asked.{Asked}
use Rattle.trial.specs.Trials.{tried}
use Rattle.trial.specs.Calls as T
use Rattle.trial.specs.declared.Tried.{Tried}
use Rattle.instant.specs.Calls as I

pub data Shown : Type 0 where
  ok : (n d planned : ℕ) (lines : List Line) → Shown
  ran : (code taken entries : ℕ) (state emissions : List ℕ) → Shown
  written : (table : List ℕ) → Shown
  tick : (node : ℕ) (answers : List ℕ) → Shown
  made : (entries : ℕ) → Shown
  known : (answer count : ℕ) → Shown
  gathered : (set presents : ℕ) → Shown
  went : (marks : List ℕ) (twice : List (List ℕ)) → Shown
  refusal : (number node : ℕ) → Shown
  refused_at : (number place : ℕ) → Shown
  no_list : Shown

abbrev pub shown : Verdict → Shown
shown (passed p) = ok (size p) (loop_depth p) (planned p) (listing p)
shown (refused number node) = refusal number node

-- the first line alone
abbrev pub figures : Verdict → Shown
figures (passed p) = ok (size p) (loop_depth p) (planned p) []
figures (refused number node) = refusal number node

-- the calls by their own contracts, with the whole state
abbrev pub handed_back : List ℕ → I.Call → Shown
handed_back state (I.closes code taken entries packed emissions) = ran code taken entries (I.state_after (I.closes code taken entries packed emissions) state) emissions
handed_back state (I.refuses number node) = refusal number node

abbrev pub call : Mode → (bytes state answers : List ℕ) → Shown
call started bytes state answers = handed_back state (I.start_call (I.verdict_for bytes (length state) max_signals) answers)
call resumed bytes state answers = handed_back state (I.resume_call (I.verdict_for bytes (length state) max_signals) state answers)

abbrev pub told : M.Outcome → Verdict
told (M.accepted t) = verdict_of_tree t
told (M.stuck us) = refused (number_of_fault us) 0

abbrev pub table : Verdict → Shown
table (passed p) = written (postfix p)
table (refused number node) = refusal number node

abbrev pub read_text : List ℕ → Shown
read_text text = table (cond (ltb max_source (length text)) (refused 14 0) (told (M.parse (tokens text))))

-- F-9: the number of a refusal of a text, and its place
abbrev pub placed : List ℕ → M.Outcome → Shown
placed text (M.accepted t) =
    cond (untrapped [] (expand t)) (refused_at 15 (byte_of text (look no_name [] (tokens text))))
    (cond (ltb max_signals (length (signals t))) (refused_at 16 (byte_of text (crowded_from [] false (tokens text)))) (shown (verdict_of_tree t)))
placed text (M.stuck us) = refused_at (number_of_fault us) (byte_of text us)

abbrev pub read_place : List ℕ → Shown
read_place text = cond (ltb max_source (length text)) (refused_at 14 max_source) (placed text (M.parse (tokens text)))

-- F-2: whether a run took all answers and gave code 0. Where it says so, the list is one that `Leads` (crates/starts), and the other way
-- round.
abbrev pub leads : Result → Bool
leads (closed zero trail held []) = true
leads (closed zero trail held (a ∷ rest)) = false
leads (closed (suc k) trail held rest) = false
leads starved = false
leads stuck = false

pub leads-sound : (r : Result) → leads r ≡ true → (trail : List Entry) × (held : List ℕ) × (r ≡ closed 0 trail held [])
leads-sound (closed zero trail held []) e = (trail, held, refl)
leads-sound (closed zero trail held (a ∷ rest)) e = absurd (false≢true e)
leads-sound (closed (suc k) trail held rest) e = absurd (false≢true e)
leads-sound starved e = absurd (false≢true e)
leads-sound stuck e = absurd (false≢true e)

pub leads-exact : (first : ℕ) (p : Stmt) (answers : List ℕ) → (leads (start first p answers) ≡ true) ↔ Leads first p 0 answers
leads-exact first p answers = (leads-sound (start first p answers), λ (trail, held, e). ap leads e)

-- of the lists of m answers the first that leads there, absent before present; and of those from m answers on, so many lengths
abbrev pub or_else : Option (List ℕ) → Option (List ℕ) → Option (List ℕ)
or_else none y = y
or_else (some x) y = some x

abbrev pub behind : ℕ → Option (List ℕ) → Option (List ℕ)
behind a none = none
behind a (some l) = some (a ∷ l)

abbrev pub first_of : ℕ → (List ℕ → Bool) → Option (List ℕ)
first_of zero test = cond (test []) (some []) none
first_of (suc m) test = or_else (behind 0 (first_of m (λ l. test (0 ∷ l)))) (behind 1 (first_of m (λ l. test (1 ∷ l))))

abbrev pub shortest : (lengths m : ℕ) → (List ℕ → Bool) → Option (List ℕ)
shortest zero m test = none
shortest (suc lengths) m test = or_else (first_of m test) (shortest lengths (suc m) test)

-- the body of the loop at a node, whose first node is numbered 0
abbrev pub body_at : Verdict → ℕ → List ℕ → Result
body_at (passed p) node = start 0 (statement_at (nodes p) (node - 1))
body_at (refused number other) node = λ answers. stuck

abbrev pub listed : ℕ → Option (List ℕ) → Shown
listed node none = no_list
listed node (some answers) = tick node answers

-- where check 11 refuses: by a list that is given, or by trying all of up to so many lengths
abbrev pub given : List ℕ → (List ℕ → Result) → Option (List ℕ)
given answers run = cond (leads (run answers)) (some answers) none

abbrev pub shown_by : ((List ℕ → Result) → Option (List ℕ)) → Verdict → Verdict → Shown
shown_by find p (passed q) = figures (passed q)
shown_by find p (refused number node) = cond (eqb number 11) (listed node (find (body_at p node))) (refusal number node)

abbrev pub tick_with : (bytes answers : List ℕ) → Shown
tick_with bytes answers = shown_by (given answers) (read bytes) (verdict bytes)

abbrev pub first_tick : (bytes : List ℕ) (lengths : ℕ) → Shown
first_tick bytes lengths = shown_by (λ run. shortest lengths 0 (λ l. leads (run l))) (read bytes) (verdict bytes)

-- F-10: the most entries of the starts with the lists of so many answers, and with as many as there are tests
abbrev pub entries_in : Result → ℕ
entries_in (closed k trail held rest) = length trail
entries_in starved = 0
entries_in stuck = 0

abbrev pub most_of : ℕ → (List ℕ → ℕ) → ℕ
most_of zero count = count []
most_of (suc m) count = max (most_of m (λ l. count (0 ∷ l))) (most_of m (λ l. count (1 ∷ l)))

abbrev pub most_by : Verdict → Shown
most_by (passed p) = made (most_of (presents p) (λ l. entries_in (start 0 p l)))
most_by (refused number node) = refusal number node

-- F-6: whether node n stands in a trail, and whether at two places of it. Where it is said so, it is `Entered`, and `Twice`, and the other way
-- round.
abbrev pub enters : ℕ → List Entry → Bool
enters n [] = false
enters n (entry i mode k ∷ t) = eqb n i || enters n t

abbrev pub twice_in : ℕ → List Entry → Bool
twice_in n [] = false
twice_in n (entry i mode k ∷ t) = eqb n i && enters n t || twice_in n t

same-node : (n : ℕ) → eqb n n ≡ true
same-node n = from_t (eqb n n) (eqb_refl n)
  where
    from_t : (b : Bool) → T b → b ≡ true
    from_t true t = refl
    from_t false t = absurd t

is-node : (n i : ℕ) → eqb n i ≡ true → n ≡ i
is-node n i e = eqb→eq n i (subst T (sym e) tt)

pub enters-sound : (n : ℕ) (t : List Entry) → enters n t ≡ true → Entered n t
enters-sound n [] e = absurd (false≢true e)
enters-sound n (entry i mode k ∷ t) e = go (eqb n i) refl (enters-sound n t) e
  where
    go : (b : Bool) → eqb n i ≡ b → (enters n t ≡ true → Entered n t) → (b || enters n t) ≡ true → Entered n (entry i mode k ∷ t)
    go true z ih f = record { before = []; mode = mode; code = k; after = t; is = rw (is-node n i z) refl }
    go false z ih f = let o = ih f in record { before = entry i mode k ∷ o.before; mode = o.mode; code = o.code; after = o.after; is = ap (λ l. entry i mode k ∷ l) o.is }

enters-at : (n : ℕ) (b : List Entry) (mode : Mode) (k : ℕ) (a : List Entry) → enters n (b ++ (entry n mode k ∷ a)) ≡ true
enters-at n [] mode k a = rw (same-node n)
enters-at n (entry i m j ∷ b) mode k a = rw (enters-at n b mode k a, or-true)

pub enters-exact : (n : ℕ) (t : List Entry) → (enters n t ≡ true) ↔ Entered n t
enters-exact n t = (enters-sound n t, λ o. rw o.is (enters-at n o.before o.mode o.code o.after))

pub twice-sound : (n : ℕ) (t : List Entry) → twice_in n t ≡ true → Twice t n
twice-sound n [] e = absurd (false≢true e)
twice-sound n (entry i mode k ∷ t) e = go (eqb n i) (enters n t) refl (enters-sound n t) (twice-sound n t) e
  where
    here : eqb n i ≡ true → Entered n t → Twice (entry i mode k ∷ t) n
    here z o =
        record {
          before = [];
          mode = mode;
          code = k;
          between = o.before;
          again = o.mode;
          code_again = o.code;
          after = o.after;
          is = rw (← is-node n i z) (ap (λ l. entry n mode k ∷ l) o.is);
        }

    later : Twice t n → Twice (entry i mode k ∷ t) n
    later o =
        record {
          before = entry i mode k ∷ o.before;
          mode = o.mode;
          code = o.code;
          between = o.between;
          again = o.again;
          code_again = o.code_again;
          after = o.after;
          is = ap (λ l. entry i mode k ∷ l) o.is;
        }

    go : (b c : Bool) → eqb n i ≡ b → (c ≡ true → Entered n t) → (twice_in n t ≡ true → Twice t n) → (b && c || twice_in n t) ≡ true → Twice (entry i mode k ∷ t) n
    go true true z f g y = here z (f refl)
    go true false z f g y = later (g y)
    go false c z f g y = later (g y)

twice-at : (n : ℕ) (b : List Entry) (mode : Mode) (k : ℕ) (a : List Entry) → enters n a ≡ true → twice_in n (b ++ (entry n mode k ∷ a)) ≡ true
twice-at n [] mode k a e = rw (same-node n, e)
twice-at n (entry i m j ∷ b) mode k a e = rw (twice-at n b mode k a e, or-true)

pub twice-exact : (n : ℕ) (t : List Entry) → (twice_in n t ≡ true) ↔ Twice t n
twice-exact n t = (twice-sound n t, λ o. rw o.is (twice-at n o.before o.mode o.code _ (enters-at n o.between o.again o.code_again o.after)))

-- of the m nodes from n on, those that are entered twice
abbrev pub entered : (m n : ℕ) → List Entry → List ℕ
entered zero n t = []
entered (suc m) n t = cond (twice_in n t) (n ∷ entered m (suc n) t) (entered m (suc n) t)

-- a run: what is entered twice in an instant, and in those after it, each with all of its answers
abbrev pub instants_of : Stmt → Result → (next : List ℕ → List (List ℕ)) → List (List ℕ)
instants_of p (closed k trail held []) next = entered (size p) 0 trail ∷ cond (eqb k 1) (next held) []
instants_of p (closed k trail held (a ∷ rest)) next = []
instants_of p starved next = []
instants_of p stuck next = []

abbrev pub onward : Stmt → (steps : List (List ℕ)) → (held : List ℕ) → List (List ℕ)
onward p [] held = []
onward p (answers ∷ steps) held = instants_of p (resume 0 p held answers) (onward p steps)

abbrev pub run_of : Verdict → (first : List ℕ) (steps : List (List ℕ)) → Shown
run_of (refused number node) first steps = refusal number node
run_of (passed p) first steps = went (map mark (places_of p)) (instants_of p (start 0 p first) (onward p steps))

-- a fetch with a lent table that is long enough: the first of some editions that is whole
abbrev pub first_whole : (file : List ℕ) (program : ℕ) (editions : List ℕ) → Option ℕ
first_whole file p [] = none
first_whole file p (e ∷ es) = cond (B.whole file p e) (some e) (first_whole file p es)

abbrev pub fetched_as : F.Outcome → Shown
fetched_as (F.fetched e m t) = written t
fetched_as (F.refused number) = refusal number 0

abbrev pub fetch_of : (file : List ℕ) (program : ℕ) (editions : List ℕ) → Shown
fetch_of file p es = fetched_as (cond (B.file_fits file) (F.check_edition file p (first_whole file p es)) (F.refused 17))

abbrev pub part_of : (file : List ℕ) (program edition part : ℕ) → Shown
part_of file p e k = written (B.content_of file (F.handed file p e k))

-- F-8: the lent sets after the call
abbrev pub narrowed_as : (ties old : List ℕ) → Verdict → Shown
narrowed_as ties old (passed p) = written (N.sets_after (passed p) ties old)
narrowed_as ties old (refused number node) = refusal number node

abbrev pub narrow_of : (bytes ties old : List ℕ) → Shown
narrow_of bytes ties old = narrowed_as ties old (N.verdict_for bytes ties old)

-- F-12
abbrev pub asked_as : Reply Asked → Shown
asked_as (yields found) = known (bit found.answer) found.count
asked_as (rejects number node) = refusal number node

abbrev pub ask_of : (bytes : List ℕ) (node code : ℕ) → Shown
ask_of bytes node code = asked_as (Q.asked_of (verdict bytes) node code)

-- F-13: a refusal by the contract, and a set by its definition with as many answers as there are presents
abbrev pub gathered_at : (first : ℕ) → Stmt → Shown
gathered_at first q = gathered (word (tried (presents q) first q)) (presents q)

abbrev pub tried_as : Verdict → ℕ → Reply Tried → Shown
tried_as v node (rejects number at) = refusal number at
tried_as (passed p) node (yields found) = gathered_at (suc node - size (statement_at (nodes p) node)) (statement_at (nodes p) node)
tried_as (refused number at) node (yields found) = no_list

abbrev pub trial_of : (bytes : List ℕ) (node : ℕ) → Shown
trial_of bytes node = tried_as (verdict bytes) node (T.tried_of (verdict bytes) node)
"""
HEAD = """
use mathlib.Core.Path.{◌≡◌, refl}
use mathlib.Core.List.{List, [], ◌∷◌}
use Rattle.esterel.specs.Codes.{word}
use Rattle.esterel.specs.Checks.{verdict, line}
use Rattle.esterel.specs.Instant.{started, resumed}
use Rattle.grammar.specs.Tokens.{tokens, class_of, beginnings, byte_of}
use Rattle.CRATE.proofs.Calls.{shown, figures, call, read_text, read_place, tick_with, first_tick, most_by, run_of, fetch_of, part_of, narrow_of, ask_of, trial_of, ok, ran, written, tick, made, known, gathered, went, refusal, refused_at}
use Rattle.blocks.specs.Block.{word as word_of, first_check, second_check, checks_match, length_fits, zero_filled, good}
use Rattle.blocks.specs.Editions.{file_fits, blocks_in, block_at, is_for, counted, parts_of, completes, whole, table_of}
use Rattle.blocks.specs.Fetching.{handed}
use Rattle.analysis.specs.Analysis.{checked}
use Rattle.tied.specs.Narrowed.{words_of}
use Rattle.tied.specs.Calls.{sets_after}
use Rattle.question.specs.Calls.{asked_of}
use Rattle.trial.specs.Lists.{extended, lists}
use Rattle.trial.specs.Trials.{gathered as gathered_by, tried}
use Rattle.trial.specs.Calls.{tried_of}
use Rattle.codes.specs.Codes.{word_below}
use Rattle.codes.specs.Words.{◌∋◌}
use Rattle.packing.specs.Packing.{held_bit, column, unpack, bits_from, byte_of as packed_byte, pack, is_clear_from}
use Rattle.instant.specs.Calls.{start_call, resume_call}
"""
UNFOLDING = "unfolding word tokens class_of beginnings byte_of word_of first_check second_check checks_match length_fits zero_filled good file_fits blocks_in block_at is_for counted parts_of completes whole table_of handed checked words_of sets_after asked_of extended lists gathered_by tried tried_of word_below ◌∋◌ held_bit column unpack bits_from packed_byte pack is_clear_from start_call resume_call"
Theorem = collections.namedtuple("Theorem", "name left right")  # left: a call of the definitions; right: what is expected

refused = "refusal {} {}".format  # number, node

def a_list(items):
    return "(" + " ∷ ".join([str(x) for x in items] + ["[]"]) + ")"

def ok(n, d, planned, lines=()):
    return f"ok {n} {d} {planned} " + a_list("line " + " ".join(map(str, line)) for line in lines)

def ran(code, taken, entries, state, emits):
    return f"ran {code} {taken} {entries} {a_list(state)} {a_list(int(s in emits) for s in range(256))}"

def verdict(table, show="shown"):
    return f"{show} (verdict {a_list(table)})"

def call(mode, table, state, answers):
    return f"call {mode} {a_list(table)} {a_list(state)} {a_list(answers)}"

# ---- the vectors

def listing_theorem(at, vector):
    first, *lines = [line.split() for line in vector["listing"].splitlines()]
    word, numbers = first[0], [int(x) for x in first[1:]]
    lines = [[int(x, base) for x, base in zip(line, (10, 10, 10, 16, 16, 16, 10))] for line in lines]
    # written again, with the nodes numbered from 0, the numbers must be the text: so nothing of it was passed over
    again = " ".join([word, *map(str, numbers)]) + "\n" + "".join("%d %d %d %x %x %x %d\n" % (i, *line[1:]) for i, line in enumerate(lines))
    if again != vector["listing"] or (word, bool(lines)) not in (("ok", True), ("refused", False)):
        sys.exit(f"line {at} of the listings has no listing: {vector['listing']!r}")
    right = ok(*numbers, [line[1:] for line in lines]) if lines else refused(*numbers)
    return Theorem(f"listing{at}", verdict(bytes.fromhex(vector["table"])), right)

def instant_theorem(at, vector):
    table, state, answers = (bytes.fromhex(vector[key]) for key in ("table", "state", "answers"))
    if "refused" in vector:
        right = refused(vector["refused"], vector["node"])
    else:
        right = ran(vector["code"], vector["taken"], vector["entries"], bytes.fromhex(vector["after"]), vector["emits"])
    mode = {"start": "started", "resume": "resumed"}[vector["call"]]
    return Theorem(f"instant{at}", call(mode, table, state, answers), right)

# the words of F-9, which F-1 took for names
NEW_WORDS = set(b"halt sustain await abort weak immediate every case".split())

def is_of_f1(line):
    words = re.findall(rb"[A-Za-z0-9_]+", bytes.fromhex(json.loads(line)["text"]))
    return not any(word in NEW_WORDS or word.isdigit() for word in words)

def text_theorem(at, vector, name="text"):
    right = refused(vector["refused"], vector["node"]) if "refused" in vector else "written " + a_list(bytes.fromhex(vector["table"]))
    return Theorem(f"{name}{at}", f"read_text {a_list(bytes.fromhex(vector['text']))}", right)

# the lists of a body so small, and up to so long, are all tried
SMALL, SHORT = 40, 6

def tick_theorems(at, vector):
    table, (word, *numbers) = bytes.fromhex(vector["table"]), vector["line"].split()
    if word in ("ok", "refused"):
        yield Theorem(f"tick{at}", verdict(table, "figures"), (ok if word == "ok" else refused)(*numbers))
        return
    right = f"tick {word} {a_list(numbers)}"
    yield Theorem(f"tick{at}", f"tick_with {a_list(table)} {a_list(numbers)}", right)
    if len(table) <= 2 * SMALL and len(numbers) <= SHORT:
        yield Theorem(f"first{at}", f"first_tick {a_list(table)} {len(numbers) + 1}", right)

def most_of(table):
    return f"most_by (verdict {a_list(table)})"

TESTS = 7  # of a program with at most so many tests all starts are tried

def most_theorem(at, vector):
    word, *numbers = vector["line"].split()
    return Theorem(f"most{at}", most_of(bytes.fromhex(vector["table"])), refused(*numbers) if numbers else f"made {word}")

def is_tried(line):
    vector = json.loads(line)
    table = bytes.fromhex(vector["table"])
    return vector["line"].startswith("refused") or (len(table) <= 2 * SMALL and table[::2].count(6) <= TESTS)

def ran_through(table, steps):
    return f"run_of (verdict {a_list(table)}) {a_list(steps[0])} {a_list(map(a_list, steps[1:]))}"

def entered_twice(marks, twice):
    return f"went {a_list(marks)} {a_list(map(a_list, twice))}"

def run_theorem(at, vector):
    steps = [bytes.fromhex(answers) for answers in vector["steps"]]
    return Theorem(f"run{at}", ran_through(bytes.fromhex(vector["table"]), steps), entered_twice(bytes.fromhex(vector["marks"]), vector["twice"]))

def fetch_of(file, program):
    editions = {int.from_bytes(file[block + 2 : block + 4], "little") for block in range(0, len(file), 512)}
    return f"fetch_of {a_list(file)} {program} {a_list(sorted(editions, reverse=True))}"

def part_of(file, program, edition, part):
    return f"part_of {a_list(file)} {program} {edition} {part}"

def block_theorem(at, vector):
    file, program = bytes.fromhex(vector["file"]), vector["program"]
    left = part_of(file, program, vector["edition"], vector["part"]) if "part" in vector else fetch_of(file, program)
    if "refused" in vector:
        right = refused(vector["refused"], vector["node"])
    else:
        right = "written " + a_list(bytes.fromhex(vector["content" if "part" in vector else "table"]))
    return Theorem(f"block{at}", left, right)

def narrow_of(table, ties, sets):
    return f"narrow_of {a_list(table)} {a_list(ties)} {a_list(sets)}"

def tied_theorem(at, vector):
    table = bytes.fromhex(vector["table"])
    right = refused(vector["refused"], vector["node"]) if "refused" in vector else "written " + a_list([int(x, 16) for x in vector["sets"]] + [7])
    return Theorem(f"tied{at}", narrow_of(table, bytes.fromhex(vector["ties"]), [7] * (len(table) // 2 + 1)), right)

def ask_of(table, node, code):
    return f"ask_of {a_list(table)} {node} {code}"

def question_theorem(at, vector):
    right = refused(vector["refused"], vector["at"]) if "refused" in vector else f"known {vector['answer']} {vector['count']}"
    return Theorem(f"question{at}", ask_of(bytes.fromhex(vector["table"]), vector["node"], vector["code"]), right)

def trial_of(table, node):
    return f"trial_of {a_list(table)} {node}"

def trial_theorem(at, vector):
    table, node = bytes.fromhex(vector["table"]), vector["node"]
    right = refused(vector["refused"], vector["at"]) if "refused" in vector else f"gathered {int(vector['set'], 16)} {kinds_at(table, node).count(6)}"
    return Theorem(f"trial{at}", trial_of(table, node), right)

CHILDREN = {5: 1, 6: 2, 7: 1, 8: 1, 9: 2, 10: 2, 11: 1}
RUNS_TRIED = 100000  # for each of 64 codes every list is run, over all nodes of the statement

def kinds_at(table, node):  # of the nodes of the statement at a node
    open_places, at = 1, node
    while open_places:
        open_places += CHILDREN.get(table[2 * at], 0) - 1
        at -= 1
    return list(table[2 * at + 2 : 2 * node + 2 : 2])

def is_tried_whole(line):
    vector = json.loads(line)
    if "refused" in vector:
        return True
    kinds = kinds_at(bytes.fromhex(vector["table"]), vector["node"])
    return 64 * 2 ** kinds.count(6) * len(kinds) <= RUNS_TRIED

def vectors(file, wanted, chance, theorem, taken=lambda line: True):
    numbered = [(at, line) for at, line in enumerate(file.read_text().splitlines(), 1) if taken(line)]
    if wanted is not None and wanted < len(numbered):
        numbered = sorted(chance.sample(numbered, wanted))
    return [theorem(at, json.loads(line)) for at, line in numbered]

# ---- the edges; what is expected was worked out by hand from document 01, and from F-5 (S under a parallel), F-7 (62 traps) and F-11 (packed states) of document 02

PAUSE, W1 = [2, 0], [2, 0, 3, 7, 9, 0, 8, 0]

def under(kind, times, body):
    return body + [kind, 0] * times

def branches(count):  # a balanced parallel of pauses, of 2 * count - 1 nodes
    return PAUSE if count == 1 else branches(count // 2) + branches(count - count // 2) + [10, 0]

def holding(*nodes):  # a state of 128 bytes: node i at bit i modulo 8, lowest first, of byte i divided by 8
    return list(sum(1 << node for node in nodes).to_bytes(128, "little"))

FULL = under(5, 1, branches(512))  # 1,024 nodes
HELD = holding(*(node for node, kind in enumerate(FULL[::2]) if kind == 2))

# an exit to the outermost of 62 traps, beside a pause; all this beside a pause, in a loop
BESIDE_A_PAUSE = under(11, 62, [4, 61, 2, 0, 10, 0]) + [2, 0, 10, 0, 8, 0]
# the lock program of F-5 with such an exit and 62 traps
LOCK_62 = under(11, 62, [2, 0, 8, 0, 2, 0, 4, 61, 9, 0, 10, 0]) + [8, 0]

def up_to(code):  # the set of the codes from 0 on
    return 2 ** (code + 1) - 1

REFUSED = {  # the number and the node, and tables that are refused so
    (1, 0): [branches(513), FULL + [2]], (2, 0): [[], [2], [12, 0, 1], FULL[:-1]],
    # 4 to 6: the first faulty node, then its lowest number
    (4, 0): [[0, 0], [12, 1]], (4, 1): [[2, 0, 255, 255]], (5, 0): [[kind, 1] for kind in (1, 2, 8, 9, 10, 11)], (5, 1): [[3, 7, 1, 1]],
    (6, 0): [[9, 0], [9, 0, 12, 0], [5, 7]], (6, 1): [[2, 0, 9, 0]], (7, 0): [[2, 0, 2, 0]],
    # 8 to 11: the lowest node of all that fit, and each check covers the whole table before the next begins
    (8, 0): [under(5, 256, PAUSE), under(5, 256, [1, 0, 8, 0]), under(11, 256, PAUSE)], (8, 1): [PAUSE + under(5, 256, PAUSE) + [10, 0]],
    (9, 1): [under(11, 63, PAUSE), under(11, 64, PAUSE), under(11, 63, [4, 70]), under(11, 62, [4, 0]) + PAUSE + [9, 0, 11, 0]],
    (9, 2): [PAUSE + under(11, 63, PAUSE) + [10, 0]], (10, 0): [[4, 255], under(11, 62, [4, 62]), under(11, 33, [4, 33])],
    (10, 2): [[1, 0, 8, 0, 4, 0, 9, 0]], (11, 2): [[2, 0, 1, 0, 8, 0, 9, 0, 8, 0]],
}
ACCEPTED = {  # n, d and n(1 + d), and tables that are accepted so
    (1024, 0, 1024): [FULL], (256, 0, 256): [under(5, 255, PAUSE)], (257, 0, 257): [PAUSE + under(5, 254, PAUSE) + [10, 0]],
    (256, 255, 65536): [under(8, 255, PAUSE)], (63, 0, 63): [under(11, 62, PAUSE), under(11, 62, [4, 61])],
    (34, 0, 34): [under(11, 33, PAUSE), under(11, 33, [4, 32])],
    (1, 0, 1): [[3, 255]], (2, 0, 2): [[2, 0, 5, 255], [2, 0, 7, 255]], (3, 0, 3): [[2, 0, 2, 0, 6, 255]],
}
LISTINGS = [  # a line: kind, field, K, A, S, mark
    # t does not count the child itself; S uses the siblings' K and not their A; parallel exits give the larger
    ([2, 0, 11, 0, 2, 0, 10, 0, 8, 0],
     ok(5, 1, 10, [(2, 0, 2, 3, 7, 1), (11, 0, 2, 3, 3, 1), (2, 0, 2, 3, 3, 1), (10, 0, 2, 3, 1, 1), (8, 0, 2, 2, 0, 0)])),
    ([2, 0, 2, 0, 9, 0, 8, 0], ok(4, 1, 8, [(2, 0, 2, 3, 0, 0), (2, 0, 2, 3, 0, 0), (9, 0, 2, 3, 1, 1), (8, 0, 2, 2, 0, 0)])),
    ([4, 1, 4, 0, 10, 0, 11, 0, 11, 0],
     ok(5, 0, 5, [(4, 1, 8, 8, 0, 0), (4, 0, 4, 4, 0, 0), (10, 0, 8, 8, 0, 0), (11, 0, 4, 4, 0, 0), (11, 0, 1, 1, 0, 0)])),
    # F-5: a branch that only pauses is dropped by its neighbour's exit; and in a parallel that no loop is around, S stays empty
    ([2, 0, 8, 0, 2, 0, 4, 0, 9, 0, 10, 0, 11, 0, 8, 0],
     ok(8, 2, 24, [(2, 0, 2, 3, 7, 1), (8, 0, 2, 2, 7, 1), (2, 0, 2, 3, 7, 1), (4, 0, 4, 4, 0, 0), (9, 0, 2, 6, 7, 1), (10, 0, 2, 6, 5, 1),
                   (11, 0, 2, 3, 1, 1), (8, 0, 2, 2, 0, 0)])),
    ([2, 0, 2, 0, 10, 0], ok(3, 0, 3, [(2, 0, 2, 3, 0, 0), (2, 0, 2, 3, 0, 0), (10, 0, 2, 3, 0, 0)])),
    ([2, 0, 8, 0, 8, 0], ok(3, 2, 9, [(2, 0, 2, 3, 1, 1), (8, 0, 2, 2, 1, 0), (8, 0, 2, 2, 0, 0)])),
    # F-7: code 63 is in K, A and S of the exit; t traps are around each trap, and the outermost turns code 2 into 0
    (BESIDE_A_PAUSE,
     ok(68, 1, 136, [(4, 61, 1 << 63, 1 << 63, up_to(63), 1), (2, 0, 2, 3, up_to(63), 1), (10, 0, 1 << 63, 1 << 63, up_to(63), 1)]
        + [(11, 0, 2 << t, 2 << t, up_to(1 + t), 1) for t in range(61, 0, -1)] + [(11, 0, 1, 1, 3, 1)]
        + [(2, 0, 2, 3, 3, 1), (10, 0, 2, 3, 1, 1), (8, 0, 2, 2, 0, 0)])),
    # code 63 only once the pause has ended: K of the parallel has 1 alone, A and S have 63, and 1 is not in S
    (LOCK_62,
     ok(69, 2, 207, [(2, 0, 2, 3, up_to(63), 1), (8, 0, 2, 2, up_to(63), 1), (2, 0, 2, 3, up_to(63), 1), (4, 61, 1 << 63, 1 << 63, 0, 0),
                     (9, 0, 2, 1 << 63 | 2, up_to(63), 1), (10, 0, 2, 1 << 63 | 2, up_to(63) - 2, 1)]
        + [(11, 0, 2, 2 << t | 2, up_to(1 + t) - 2, 1) for t in range(61, 0, -1)] + [(11, 0, 2, 3, 1, 1), (8, 0, 2, 2, 0, 0)])),
]
TICKS = {  # the line's numbers, and tables; ties of length under a parallel, and the lowest of two such loops
    (1,): [[1, 0, 8, 0]], (2,): [[2, 0, 1, 0, 8, 0, 9, 0, 8, 0]], (3, 1): [[1, 0, 2, 0, 6, 5, 8, 0]],
    (7, 0, 1): [[2, 0, 1, 0, 6, 5, 1, 0, 2, 0, 6, 5, 9, 0, 8, 0]],
    # a test of which both branches end, and one whose else branch needs a further test
    (3, 0): [[1, 0, 1, 0, 6, 5, 8, 0]], (5, 1): [[1, 0, 1, 0, 1, 0, 6, 1, 6, 0, 8, 0]],
    # two branches, of which one at least must exit: the first by present, or the second by present
    (8, 0, 1): [[4, 0, 1, 0, 6, 0, 4, 0, 2, 0, 6, 1, 10, 0, 11, 0, 8, 0]],
}
LOCK, SLEEPER = [2, 0, 8, 0, 2, 0, 4, 0, 9, 0, 10, 0, 11, 0, 8, 0], [2, 0, 7, 5, 2, 0, 4, 0, 9, 0, 10, 0, 11, 0, 8, 0]
RUNS = [  # table, the answers of each instant, marks, and what is entered twice
    (LOCK, [[], [], []], [1, 1, 1, 0, 1, 1, 1, 0], [[], [0, 1, 2, 4, 5, 6], [0, 1, 2, 4, 5, 6]]),
    # the pause under the suspend is not entered before it is dropped; resumed, it is
    (SLEEPER, [[], [1], [0]], [1, 1, 1, 0, 1, 1, 1, 0], [[], [1, 2, 4, 5, 6], [0, 1, 2, 4, 5, 6]]),
    # marks that no run needs: node 0; then a run that ends
    ([1, 0, 2, 0, 10, 0, 8, 0], [[], [], []], [1, 1, 1, 0], [[], [1, 2], [1, 2]]), ([2, 0, 5, 7], [[], []], [0, 0], [[], []]),
]
INSTANTS = [  # mode, table, state, answers
    # 1 and 2, then 3, then 4; a start's state is measured too, and its old bytes are not looked at
    ("started", branches(513), [], [], refused(1, 0)), ("resumed", [12], [], [], refused(2, 0)),
    ("resumed", [12, 0], holding(0)[:127], [], refused(3, 0)), ("started", W1, [0] * 127, [], refused(3, 0)),
    ("resumed", [12, 0], holding(0), [], refused(4, 0)),
    ("started", W1, [9] * 130, [], ran(1, 0, 3, holding(0) + [9, 9], [])), ("resumed", W1, holding(0) + [9], [], ran(1, 0, 6, holding(0) + [9], [7])),
    # no bit; bits of other nodes and from n on, also in the byte of the last node; a bit past the 128 bytes is none
    ("resumed", W1, holding(), [], refused(12, 0)), ("resumed", W1, holding() + [1], [], refused(12, 0)),
    *(("resumed", W1, holding(0, stray), [], refused(12, 0)) for stray in (1, 3, 4, 7, 8, 1023)), ("resumed", W1, holding(7), [], refused(12, 0)),
    # both children of a sequence may not hold, both of a parallel may
    ("resumed", [2, 0, 2, 0, 9, 0], holding(0, 1), [], refused(12, 0)), ("resumed", [2, 0, 2, 0, 10, 0], holding(0, 1), [], ran(0, 0, 3, holding(), [])),
    # an emit under a signal of its number; the right branch runs after an exit on the left; what a trap catches is dropped
    ("started", [3, 7, 5, 7], holding(), [], ran(0, 0, 2, holding(), [7])), ("started", [4, 0, 3, 7, 10, 0, 11, 0], holding(), [], ran(0, 0, 4, holding(), [7])),
    ("started", [2, 0, 4, 0, 10, 0, 11, 0], [255] * 128, [], ran(0, 0, 4, holding(), [])),
    ("resumed", [2, 0, 4, 0, 10, 0, 11, 0], holding(0), [], ran(0, 0, 3, holding(), [])),
    # any answer but 0 is present, and those left over are not looked at; a suspend asks only when it is resumed
    ("started", [3, 0, 3, 255, 6, 5], holding(), [255, 0], ran(0, 1, 2, holding(), [0])),
    ("started", [3, 0, 3, 255, 6, 5], holding(), [0], ran(0, 1, 2, holding(), [255])),
    ("started", [2, 0, 7, 1], holding(), [], ran(1, 0, 2, holding(0), [])), ("resumed", [2, 0, 7, 1], holding(0), [], refused(13, 0)),
    # the largest program, and the deepest: of 255 loops the innermost alone starts its body once more
    ("started", FULL, holding(), [], ran(1, 0, 1024, HELD, [])), ("resumed", FULL, HELD, [], ran(0, 0, 1024, holding(), [])),
    ("resumed", under(8, 255, PAUSE), holding(0), [], ran(1, 0, 257, holding(0), [])),
    # code 63 goes up to the outermost of 62 traps, which drops the pauses beneath it; the loop then starts its body once more
    ("started", under(11, 62, [4, 61]), [9] * 128, [], ran(0, 0, 63, holding(), [])),
    ("started", BESIDE_A_PAUSE, holding(), [], ran(1, 0, 68, holding(65), [])), ("resumed", BESIDE_A_PAUSE, holding(65), [], ran(1, 0, 3 + 67, holding(65), [])),
    ("resumed", BESIDE_A_PAUSE, holding(1), [], ran(1, 0, 66 + 67, holding(65), [])),
    ("started", LOCK_62, holding(), [], ran(1, 0, 68, holding(0, 2), [])),
    ("resumed", LOCK_62, holding(0, 2), [], ran(1, 0, 70 + 67, holding(0, 2), [])),
]

def a_block(program, edition, part, parts, content, used=None, filler=0, seals=lambda *checks: checks):
    two = lambda number: list(number.to_bytes(2, "little"))
    block = two(program) + two(edition) + [part, parts] + two(len(content) if used is None else used) + content + [filler] * (502 - len(content))
    running = [sum(block[: i + 1]) % 255 for i in range(len(block))]
    return block + list(seals(running[-1], sum(running) % 255))

FULL, SHORT_BLOCK = a_block(7, 2, 0, 2, [5] * 502), a_block(7, 2, 1, 2, [9, 8])
ZERO = a_block(0, 0, 0, 1, [253])  # its first check byte is 0, since 1 + 1 + 253 is 255
FETCHES = [  # program 7 unless another is named; what is expected was worked out by hand from F-4 of document 02
    (FULL + SHORT_BLOCK, [5] * 502 + [9, 8]), (SHORT_BLOCK + FULL, [5] * 502 + [9, 8]), (FULL, 18), (SHORT_BLOCK, 18), ([], 18), ([0] * 511, 17), ([0] * 512, 18),
    (FULL + a_block(7, 2, 1, 3, [9]), 18), (a_block(7, 2, 0, 2, [5] * 501) + SHORT_BLOCK, 18), (FULL + SHORT_BLOCK + a_block(7, 2, 2, 9, [1]), [5] * 502 + [9, 8]),
    (a_block(7, 0, 0, 1, [4]) + a_block(7, 0, 0, 1, [3]), [3]), (a_block(7, 0, 0, 1, [4]) + a_block(7, 0, 0, 1, [3], seals=lambda a, b: (a + 1, b)), [4]),
    (a_block(7, 1, 0, 1, [4]) + a_block(7, 1, 0, 2, [3]), 18), (a_block(7, 1, 0, 1, [4]) + a_block(7, 256, 0, 1, [3]), [3]), (a_block(8, 1, 0, 1, [4]), 18),
    (a_block(7, 1, 0, 0, [4]), 18), (a_block(7, 1, 0, 1, [], used=0), 18), (a_block(7, 1, 0, 1, [1] * 502, used=503), 18), (a_block(7, 1, 0, 1, [4], filler=1), 18),
    (sum((a_block(7, 1, part, 5, [6] * 502) for part in range(4)), []) + a_block(7, 1, 4, 5, [6] * 40), [6] * 2048),
    (sum((a_block(7, 1, part, 5, [6] * 502) for part in range(4)), []) + a_block(7, 1, 4, 5, [6] * 41) + a_block(7, 0, 0, 1, [3]), 1),
]
PARTS = [  # program, edition and part follow the file
    (FULL, 7, 2, 0, [5] * 502), (SHORT_BLOCK, 7, 2, 1, [9, 8]), (SHORT_BLOCK, 7, 2, 0, []), (SHORT_BLOCK[:511], 7, 2, 1, []),
    (ZERO, 0, 0, 0, [253]), (ZERO[:510] + [255] + ZERO[511:], 0, 0, 0, []),
]

def block_edges():
    for file, right in FETCHES:
        yield fetch_of(bytes(file), 7), refused(right, 0) if isinstance(right, int) else "written " + a_list(right)
    for file, *numbers, right in PARTS:
        yield part_of(file, *numbers), "written " + a_list(right)

def tied(*signals):
    ties = [0] * 256
    for signal, tie in signals:
        ties[signal] = tie
    return ties

CHOICE = [1, 0, 2, 0, 6, 5]  # present 5 then nothing else pause
# leaves the loop at once if 5 is present: as a program that K accepts
LEAVES = [4, 0, 2, 0, 6, 5, 8, 0, 11, 0]
NARROWINGS = [  # the ties follow the table; what is expected was worked out by hand from F-8 of document 02
    (CHOICE, tied(), [1, 2, 3]), (CHOICE, tied((5, 1)), [1, 2, 2]), (CHOICE, tied((5, 2)), [1, 2, 1]), (CHOICE, tied((4, 2), (6, 1)), [1, 2, 3]),
    # in the body, before it, after it, around it, and in two of one number
    (CHOICE + [5, 5], tied((5, 2)), [1, 2, 3, 3]), (CHOICE + [5, 4], tied((5, 2)), [1, 2, 1, 1]),
    (CHOICE + CHOICE + [5, 5, 9, 0], tied((5, 1)), [1, 2, 2, 1, 2, 3, 3, 2]), (CHOICE + [5, 5] + CHOICE + [9, 0], tied((5, 1)), [1, 2, 3, 3, 1, 2, 2, 2]),
    (CHOICE + [5, 5, 2, 0, 6, 5], tied((5, 1)), [1, 2, 3, 3, 2, 2]), (CHOICE + [5, 5] + CHOICE + [9, 0, 5, 5], tied((5, 1)), [1, 2, 3, 3, 1, 2, 3, 3, 3]),
    # a branch that is cut off keeps its own set; an emit and a suspend are no tests
    (LEAVES, tied(), [4, 2, 6, 6, 3]), (LEAVES, tied((5, 1)), [4, 2, 2, 2, 2]), (LEAVES, tied((5, 2)), [4, 2, 4, 4, 1]),
    ([3, 5, 2, 0, 9, 0, 7, 5], tied((5, 1)), [1, 2, 2, 2]), ([2, 0, 3, 5, 7, 5, 6, 5], tied((5, 2)), [2, 1, 1, 2]),
    # acceptance is by K, and comes before 19; only 256 bytes are looked at
    (CHOICE + [8, 0], tied((5, 1)), (11, 3)), (CHOICE + [8, 0], tied((5, 3)), (11, 3)), (CHOICE, tied((5, 3)), (19, 0)), (CHOICE, tied((255, 255)), (19, 0)),
    (CHOICE, tied() + [3], [1, 2, 3]), (CHOICE, tied()[:255], (3, 0)), ([12, 0], tied()[:255], (3, 0)), ([], [], (2, 0)), ([12, 0], tied(), (4, 0)),
]

def tied_edges():
    for table, ties, right in NARROWINGS:
        yield narrow_of(table, ties, [9] * (len(table) // 2 + 2)), refused(*right) if isinstance(right, tuple) else "written " + a_list(right + [9, 9])
    yield narrow_of(CHOICE, tied(), [9] * 2), refused(3, 0)

ENDS = CHOICE + [4, 0, 9, 0, 11, 0]  # CHOICE; exit 0, in a trap
MOST_TRAPS = under(11, 62, [4, 61])
QUESTIONS = [  # node and code follow the table; what is expected was worked out by hand from F-12 of document 02
    # signal, suspend and loop pass the question on, and so does a trap for a code above 0; a loop looks no further for 0
    ([2, 0, 5, 3, 7, 4], 2, 1, (1, 3)), ([2, 0, 5, 3, 7, 4], 2, 0, (0, 3)), (W1, 3, 1, (1, 3)), (W1, 3, 0, (0, 1)), (W1, 2, 0, (0, 2)), (W1, 1, 0, (1, 1)),
    (ENDS, 5, 1, (1, 5)), (ENDS, 5, 2, (0, 6)), (MOST_TRAPS, 0, 63, (1, 1)), (MOST_TRAPS, 1, 62, (1, 2)), (MOST_TRAPS, 61, 2, (1, 62)), (MOST_TRAPS, 62, 1, (0, 63)),
    # a trap asked for 63 would pass 64 on
    (MOST_TRAPS, 62, 63, (0, 1)), (MOST_TRAPS, 62, 62, (0, 2)), (MOST_TRAPS, 62, 64, (0, 0)),
    # then, else, neither
    (CHOICE, 2, 0, (1, 2)), (CHOICE, 2, 1, (1, 3)), (CHOICE, 2, 2, (0, 3)),
    # the second of a sequence is asked if the first has 0 and, for a code above 0, lacks the code
    (ENDS, 4, 0, (0, 5)), (ENDS, 4, 1, (1, 4)), (ENDS, 4, 2, (1, 5)), ([2, 0] + CHOICE + [9, 0], 4, 0, (0, 2)), ([2, 0] + CHOICE + [9, 0], 4, 2, (0, 2)),
    # every node of a parallel, and of a trap asked for 0
    (CHOICE + [2, 0, 10, 0], 4, 1, (1, 5)), (CHOICE + [2, 0, 10, 0], 4, 0, (0, 5)), (ENDS, 5, 0, (1, 6)), ([1, 0, 11, 0], 1, 0, (1, 2)),
    # 21 comes before the rule on codes above 63, and after the table's own checks
    (W1, 4, 0, refused(21, 0)), (W1, 4, 64, refused(21, 0)), (W1, 2 ** 64 - 1, 0, refused(21, 0)), (W1, 0, 2 ** 64 - 1, (0, 0)), (CHOICE + [8, 0], 9, 0, refused(11, 3)),
    ([], 0, 0, refused(2, 0)), ([12, 0], 1, 0, refused(4, 0)), (W1, 0, 1, (1, 1)), (W1, 0, 64, (0, 0)),
]

def question_edges():
    for *asked, right in QUESTIONS:
        yield ask_of(*asked), right if isinstance(right, str) else "known {} {}".format(*right)

def nested(count):  # presents within each other: only with present each time does it pause
    return [2, 0] + [1, 0, 6, 5] * count

TRIALS = [  # the node follows the table; what is expected was worked out by hand from F-13 of document 02
    # the presents in the node, its own included, and no suspend; those of the rest of the table make no difference
    (CHOICE, 2, (3, 1)), (CHOICE, 0, (1, 0)), (CHOICE, 1, (2, 0)), (CHOICE + [7, 5], 3, (3, 1)), ([2, 0, 7, 5, 7, 5, 7, 5], 3, (2, 0)),
    (nested(3), 6, (3, 3)), (nested(13), 6, (3, 3)), (nested(13), 25, (1, 0)), (nested(14) + nested(1) + [9, 0], 31, (3, 1)),
    # 22 for more than 12; it comes after 21 and the table's own checks
    (nested(13), 26, refused(22, 0)), (nested(13), 27, refused(21, 0)), (nested(40), 26, refused(22, 0)), (nested(13) + [8, 0], 26, refused(11, 27)),
    (nested(6) + nested(7) + [9, 0], 28, refused(22, 0)), (nested(6) + nested(7) + [10, 0], 28, refused(22, 0)), (nested(13) + [7, 1], 27, refused(22, 0)),
    (W1, 4, refused(21, 0)), (W1, 2 ** 64 - 1, refused(21, 0)), ([], 0, refused(2, 0)), ([12, 0], 5, refused(4, 0)),
    # exits: beside each other, caught and handed on
    (ENDS, 4, (6, 1)), (ENDS, 5, (3, 1)), (MOST_TRAPS, 0, (2 ** 63, 0)), (MOST_TRAPS, 61, (4, 0)), (MOST_TRAPS, 62, (1, 0)), (W1, 3, (2, 0)),
]

def trial_edges():
    for *lent, right in TRIALS:
        yield trial_of(*lent), right if isinstance(right, str) else "gathered {} {}".format(*right)

STAYS = [1, 0, 2, 0, 9, 0, 1, 0, 6, 1]  # present 1 then nothing; pause else nothing: the most entries are with code 1
MOST = {  # what is expected was worked out by hand from the rules of document 01
    1: [[1, 0], [2, 0], [3, 9]],
    2: [[1, 0, 1, 0, 6, 0], [2, 0, 1, 0, 9, 0], [2, 0, 8, 0], [2, 0, 7, 3]],
    3: [W1, [1, 0, 1, 0, 9, 0], [1, 0, 2, 0, 10, 0]],
    4: [[4, 0, 1, 0, 10, 0, 11, 0], STAYS, [2, 0, 1, 0, 6, 0, 1, 0, 9, 0]],
    5: [STAYS + [2, 0, 9, 0]],
    8: [STAYS + [1, 0, 1, 0, 9, 0, 1, 0, 9, 0, 9, 0]],
    10: [STAYS + STAYS + [10, 0, 1, 0, 1, 0, 9, 0, 9, 0]],
}

def edge_theorems():
    edges = [(verdict(table, "figures"), refused(*key)) for key, tables in REFUSED.items() for table in tables]
    edges += [(verdict(table, "figures"), ok(*key)) for key, tables in ACCEPTED.items() for table in tables]
    edges += [(verdict(table), right) for table, right in LISTINGS] + [(call(*lent), right) for *lent, right in INSTANTS] + list(text_edges())
    edges += [(f"first_tick {a_list(table)} {len(key)}", f"tick {key[0]} {a_list(key[1:])}") for key, tables in TICKS.items() for table in tables]
    edges += [(most_of(table), f"made {most}") for most, tables in MOST.items() for table in tables]
    edges += [(ran_through(*lent), entered_twice(*right)) for *lent, right in ((table, steps, right) for table, steps, *right in RUNS)]
    edges += [*block_edges(), *tied_edges(), *question_edges(), *trial_edges()]
    return [Theorem(f"edge{at}", *edge) for at, edge in enumerate(edges, 1)]

TEXTS = [  # what is expected was worked out by hand from F-1 of document 02
    ("suspend pause;nothing when S", [2, 0, 1, 0, 9, 0, 7, 0]), ("suspend emit A when S", [3, 0, 7, 1]),
    ("present S then emit A end", [3, 1, 1, 0, 6, 0]), ("present S else pause end", [1, 0, 2, 0, 6, 0]),
    ("[pause||pause||nothing]", [2, 0, 2, 0, 10, 0, 1, 0, 10, 0]), ("pause;pause;nothing", [2, 0, 2, 0, 9, 0, 1, 0, 9, 0]),
    ("trap T in trap U in trap T in [exit T||exit U] end end end", [4, 0, 4, 1, 10, 0, 11, 0, 11, 0, 11, 0]),
    ("[pause]", 14), ("", 14), ("emit3", 14), ("[pause| |pause]", 14), ("pause\r", 14), ("suspend pause when S end", 14), ("exit T;[pause]", 14),
    ("emit " + "a" * 32, [3, 0]), ("emit " + "a" * 33, 14), ("trap T in pause end;exit T", 15), ("exit T;" * 3 + "pause", 15),
    (";".join(f"emit s{i}" for i in range(257)), 16), ("exit T;" + ";".join(f"emit s{i}" for i in range(257)), 15),
]

AWAIT = [2, 0, 4, 0, 1, 0, 6, 0, 9, 0, 8, 0]  # the await loop of signal 0
DIALECT = [  # likewise from F-9
    ("halt", [2, 0, 8, 0]), ("sustain S", [3, 0, 2, 0, 9, 0, 8, 0]), ("await S", AWAIT + [11, 0]),
    ("abort pause when S end", [2, 0, 7, 0, 4, 0, 9, 0] + AWAIT + [10, 0, 11, 0]),
    ("weak abort pause when S end", [2, 0, 4, 0, 9, 0] + AWAIT + [10, 0, 11, 0]),
    ("trap T in abort exit T when S end end", [4, 1, 7, 0, 4, 0, 9, 0] + AWAIT + [10, 0, 11, 0, 11, 0]),
    ("weak abort trap T in exit T end when S end", [4, 0, 11, 0, 4, 0, 9, 0] + AWAIT + [10, 0, 11, 0]),
    ("trap T in weak abort weak abort exit T when S end when S end end",
     [4, 2, 4, 0, 9, 0] + AWAIT + [10, 0, 11, 0, 4, 0, 9, 0] + AWAIT + [10, 0, 11, 0, 11, 0]),
]
PLACES = [  # a caret stands before the byte where the text is at fault
    ("emit ^case", 20), ("emit ^3", 20), ("emit ^3.5", 20), ("emit ^3a", 14), ("emit ^halt", 14), ("[pause ^| every", 14), ("await ^immediate S", 20),
    ("abort pause when S^", 14), ("pause; \n^", 14), ("^", 14), ("[pause||^|pause]", 14), ("weak ^loop", 14), ("^every", 20),
    ("abort suspend pause when S ^end", 14), ("present S ^007 end", 20), ("^?case", 14), ("exit ^T", 15), ("trap T in exit T end;\nexit ^U; exit V", 15),
    ("abort exit ^A when S end; exit B", 15), ("loop " * 300 + "^case", 20), (";".join(f"emit s{i}" for i in range(256)) + "; await ^last; emit more", 16),
]

def text_edges():
    for text, right in PLACES:
        before, after = text.split("^")
        yield f"read_place {a_list((before + after).encode())}", f"refused_at {right} {len(before)}"
    for text, right in DIALECT:
        yield f"read_text {a_list(text.encode())}", "written " + a_list(right)
    for text, right in TEXTS:
        yield f"read_text {a_list(text.encode())}", refused(right, 0) if isinstance(right, int) else "written " + a_list(right)
    flat = ";".join(["nothing"] * 257)  # the first statement is the deepest
    yield f"read_text {a_list(flat.encode())}", refused(8, 0)

def control_theorems():
    """A true theorem, then false ones, each off in one place: the checker must refuse these, and these alone."""
    lines = [(2, 0, 2, 3, 1, 1), (3, 7, 1, 1, 0, 0), (9, 0, 2, 3, 1, 1)]
    rights = [ok(4, 1, 8, lines + [(8, 0, 2, 2, 0, 0)]), ok(4, 1, 8, lines + [(8, 0, 2, 2, 1, 0)]), ok(4, 1, 8, lines), refused(11, 3)]
    edges = [(verdict(W1), right) for right in rights]
    rights = [ran(1, 0, 5, holding(0), [7]), ran(1, 0, 6, holding(0), [8]), ran(1, 0, 6, holding(), [7]), ran(1, 0, 6, holding(7), [7])]
    edges += [(call("resumed", W1, holding(0), []), right) for right in rights]
    edges += [(f"read_text {a_list(b'emit A;pause')}", "written " + a_list(right)) for right in ([3, 0, 2, 0, 9, 0, 9, 0], [3, 1, 2, 0, 9, 0])]
    edges += [(f"read_place {a_list(b'emit case')}", f"refused_at {right}") for right in ("20 4", "14 5")]
    edges += [("first_tick (1 ∷ 0 ∷ 2 ∷ 0 ∷ 6 ∷ 5 ∷ 8 ∷ 0 ∷ []) 2", f"tick {right}") for right in ("3 []", "3 (0 ∷ [])", "2 (1 ∷ [])")]
    edges += [(most_of(STAYS + [2, 0, 9, 0]), f"made {most}") for most in (4, 6)]
    edges += [(ran_through(LOCK, [[], []]), entered_twice(marks, twice)) for marks, twice in
              (([1, 0, 1, 0, 1, 1, 1, 0], [[], [0, 1, 2, 4, 5, 6]]), ([1, 1, 1, 0, 1, 1, 1, 0], [[], [0, 2, 4, 5, 6]]), ([1, 1, 1, 0, 1, 1, 1, 0], [[]]))]
    edges += [(fetch_of(bytes(FULL + SHORT_BLOCK), 7), right) for right in ("written " + a_list([5] * 502 + [9]), refused(18, 0))]
    edges += [(part_of(SHORT_BLOCK, 7, 2, 1), "written " + a_list(right)) for right in ([9], [])]
    edges += [(narrow_of(CHOICE, tied((5, 2)), [9] * 4), right) for right in ("written " + a_list([1, 2, 3, 9]), "written " + a_list([1, 2, 1]), refused(19, 0))]
    edges += [(ask_of(CHOICE, 2, 0), right) for right in ("known 1 3", "known 0 2", refused(21, 0))]
    edges += [(trial_of(CHOICE, 2), right) for right in ("gathered 2 1", "gathered 3 0", refused(22, 0))]
    return [Theorem(f"control{at}", *edge) for at, edge in enumerate(edges)]

# ---- the temporary repository

def types_only(source):
    """The types of a source file, which definitions may cite, with what their ghost fields cite, and without its functions, which would want proofs."""
    items = r"^(?:pub )?(?:(?:enum|struct) [^\n]*(?:;|\}|\{\n.*?^\})|(?:mod|const|type|(?:ghost )?use) .*?;)\n"
    return "".join(re.findall(items, source, re.M | re.S))

def copy_crates(repo, whole):
    for name in COPIED:
        for part in ("src", "specs", "proofs") if whole else ("src", "specs"):
            shutil.copytree(ROOT / "crates" / name / part, repo / "crates" / name / part)
        for file in () if whole else (repo / "crates" / name / "src").rglob("*.rt"):
            file.write_text(types_only(file.read_text()))

def write_crate(repo, name, theorems, a_file):
    folder = repo / "crates" / name
    parts = [theorems[i : i + a_file] for i in range(0, len(theorems), a_file)]
    texts = {"src/lib.rt": f"pub const THEOREMS: usize = {len(theorems)};\n", "proofs/Calls.antt": CALLS}
    texts["proofs/Lib.antt"] = "pub mod Calls\n" + "".join(f"pub mod Part{at}\n" for at in range(len(parts)))
    for at, part in enumerate(parts):
        proofs = (f"\n{x.name} : {x.left} ≡ {x.right}\n{UNFOLDING}\n{x.name} = refl\n" for x in part)
        texts[f"proofs/Part{at}.antt"] = HEAD.replace("CRATE", name) + "".join(proofs)
    for file, text in texts.items():
        (folder / file).parent.mkdir(parents=True, exist_ok=True)
        (folder / file).write_text(text)

def check(repo, name):
    """Whether the crate is proved, what the checker says of each declaration that it refuses, and all that it says."""
    done = subprocess.run(["rt", "check"], cwd=repo / "crates" / name, capture_output=True, text=True)
    said = done.stdout + done.stderr
    refusals = dict(re.findall(r"^.*\.antt:\d+:\d+: error: `(.+?)`: (.*(?:\n  .*)*)", said, re.M))
    return done.returncode == 0 and not refusals and "\nlogic=proved " in said, refusals, said

# ---- the report

def tally(what, theorems):
    count = collections.Counter(int(x.right.split()[1]) for x in theorems if x.right.startswith("refusal"))
    numbers = ", ".join(f"{number}{' (starved)' * (number == 13)}: {count[number]}" for number in sorted(count))
    print(f"{what}: {len(theorems)} run; {len(theorems) - count.total()} accepted; refused by number: {numbers or 'none'}")

def plain(text, most=300):  # lists without their signs
    text = text.replace(" ∷ ", " ").replace(" []", "").replace("([])", "()")
    return text if len(text) <= most else text[:most] + f" .. ({len(text) - most} more)"

def tell(theorem, message):
    # of the message, what says where the two sides differ once computed, if that is there; the two sides whole follow it
    message = message[max(message.find("computed as far"), 0) :].split("\n  expected type")[0]
    print(f"\nDIFFERENCE: {theorem.name}\n  {plain(theorem.left, 3000)}\n  expected: {plain(theorem.right)}\n  the checker says: {plain(message, 1500)}")

def run(repo, args):
    chance = random.Random(args.seed)
    listings = vectors(args.vectors / "listing7_open.jsonl", args.listings, chance, listing_theorem)
    instants = vectors(args.vectors / "packed_open.jsonl", args.instants, chance, instant_theorem)
    texts = vectors(args.vectors / "text_open.jsonl", args.texts, chance, text_theorem, is_of_f1)
    dialect = vectors(args.vectors / "dialect_open.jsonl", args.dialect, chance, lambda *vector: text_theorem(*vector, "dialect"))
    ticks = sum(vectors(args.vectors / "tick_open.jsonl", args.ticks, chance, lambda *vector: list(tick_theorems(*vector))), [])
    runs = vectors(args.vectors / "reentry_open.jsonl", args.runs, chance, run_theorem)
    blocks = vectors(args.vectors / "blocks_open.jsonl", args.blocks, chance, block_theorem)
    ties = vectors(args.vectors / "tied_open.jsonl", args.ties, chance, tied_theorem)
    first = vectors(args.vectors / "worst_open.jsonl", args.first, chance, most_theorem, is_tried)
    questions = vectors(args.vectors / "query_open.jsonl", args.questions, chance, question_theorem)
    trials = vectors(args.vectors / "trial_open.jsonl", args.trials, chance, trial_theorem, is_tried_whole)
    edges, controls = edge_theorems(), control_theorems()
    theorems = {x.name: x for x in edges + listings + instants + texts + dialect + ticks + runs + blocks + ties + first + questions + trials}
    copy_crates(repo, args.whole)
    write_crate(repo, "control", controls, 1)
    write_crate(repo, "vectors", list(theorems.values()), 250)
    (repo / "crates.txt").write_text(CRATES_TXT)
    for what, some in (("listings", listings), ("instants", instants), ("texts", texts), ("dialect", dialect), ("ticks", ticks), ("runs", runs), ("blocks", blocks), ("ties", ties), ("first ticks", first), ("questions", questions), ("trials", trials), ("edges", edges)):
        tally(what, some)

    proved, refusals, said = check(repo, "control")
    noticed = not proved and set(refusals) == {x.name for x in controls[1:]}
    print("control: refused as it should be" if noticed else f"control: FAILED; refused: {', '.join(refusals)}\n{said[:2000]}", flush=True)

    began = time.time()
    proved, refusals, said = check(repo, "vectors")
    print(f"the checker took {time.time() - began:.0f} s for {len(theorems)} theorems")
    if not proved and not set(refusals) & set(theorems):  # it stopped before them
        print(said[:4000])
    for name in filter(theorems.get, refusals):
        tell(theorems[name], refusals[name])
    print("no difference: logic=proved" if proved else f"\nFAILED: {len(refusals)} theorems refused")
    return 0 if proved and noticed else 1

def main():
    parser = argparse.ArgumentParser(description=__doc__, formatter_class=argparse.RawDescriptionHelpFormatter)
    parser.add_argument("--vectors", type=Path, default=ROOT / "../shared/vectors", metavar="DIR")
    parser.add_argument("--listings", type=int, metavar="N", help="how many, drawn by the seed (default: all)")
    parser.add_argument("--instants", type=int, metavar="N", help="likewise")
    parser.add_argument("--texts", type=int, metavar="N", help="likewise")
    parser.add_argument("--dialect", type=int, metavar="N", help="likewise")
    parser.add_argument("--ticks", type=int, metavar="N", help="likewise")
    parser.add_argument("--runs", type=int, metavar="N", help="likewise")
    parser.add_argument("--blocks", type=int, metavar="N", help="likewise")
    parser.add_argument("--ties", type=int, metavar="N", help="likewise")
    parser.add_argument("--first", type=int, metavar="N", help="likewise, of those that are tried")
    parser.add_argument("--questions", type=int, metavar="N", help="likewise")
    parser.add_argument("--trials", type=int, metavar="N", help="likewise, of those that are tried")
    parser.add_argument("--seed", type=int, default=random.randrange(10**6), metavar="S")
    parser.add_argument("--keep", action="store_true", help="keep the temporary repository")
    parser.add_argument("--whole", action="store_true", help="prove the copied crates whole first; else their definitions and types alone are read")
    args = parser.parse_args()
    print(f"seed {args.seed}")
    repo = Path(tempfile.mkdtemp(prefix="definitions-"))
    try:
        return run(repo, args)
    finally:
        if args.keep:
            print(f"kept: {repo}")
        else:
            shutil.rmtree(repo)

if __name__ == "__main__":
    sys.exit(main())
