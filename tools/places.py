#!/usr/bin/env python3
"""Counts the places in crates/*/src that today's Rattle would write in another form, by the seven points of
docs/DESIGN-PASS.md.

    python3 tools/places.py [POINT ..] [--list] [--rev REV]
    python3 tools/places.py --table [--rev REV]
    python3 tools/places.py --gone

Run at the top of the repository. Per point: how many places each crate has, and how many of each kind there are. --list
prints every place as file:line, kind and name. --rev reads the files of a commit (`git show REV:path`) in place of
those on disk, so that the counts at the commit at which the work began can be had again:
    python3 tools/places.py --rev c74ac5d
--table prints one table, a row for each crate and a column for each point. --gone prints the names of the lists below
that no item has any more: a function that was only given another name needs that name here, or it is no longer seen.

The text is read by patterns, with comments, `ghost` lines and what stands in texts and byte characters blanked. An
item is a `fn`, `struct`, `enum` or `const`; it ends at the `}` that is as far in as its first line (rt fmt sees to
that). A place is kept if a comment with `Kept:` stands on its line or right above it, or in it where it is a type; a
place in a function's body needs the comment there. Where many functions of a file keep the same, its head gives the
reason once (`Kept, WORDS: REASON`), and the comment beside each names WORDS and says so. A place is a declaration or a
loop, not each use of it. One place may count under more than one point, and once for each kind. Where no pattern tells
a place from others, its name stands in a list below; where a pattern can say so, it counts only while it has the old
form. A name is crate::item, or crate::file::item outside lib.rt and main.rt; a method's name is without its type.

Point 1, own enums, flags, numbers for kinds or refusals
  enum      an enum with a variant `Refused(..)` or `Judged(..)` or a bare variant of BARE; not those of REAL_ENUMS
  flag      a struct's field of type bool
  kind      a number for a kind: a constant of KIND_CONSTS, a struct's field of KIND_FIELDS, a parameter of KIND_PARAMS
            that is a u64, a `match` on a number with arms of numbers, a function of KIND_RESULTS that answers a number,
            an array of marks that are 0 or 1 (or a slot)
  refusal   a number for a refusal: a function of REFUSAL_NUMBERS, or an extern "C" one, that answers u64; a variant of
            a number in `Line`; a call of `refusal_number` outside the crates that define codes
  sentinel  a function of SENTINELS whose result is not an Option or a Result
  by hand   where `?` would stand: `let X::At(..) = .. else`, and an arm that hands a refusal on
  guard     `return X::Refused(Refusal::R)` for an R that three or more functions return so
Point 2, twins
  twins     FAMILIES, whose members differ in a type, a size, a constant or an end: as many places as a family has
            members that stand as separate items, less one; an item of two families counts once
  step      the same of STEPS, whose members differ in the test that they make or the step that they run
Point 3, loops that count by hand
  walk      a `while` along a chain (`more(..)`)
  index     any other `while` (a `while let` takes what a step gives, and counts nothing), but for
  search    one that counts nothing: it goes on until a value stays
  unrolled  a loop written out: five or more statements one after the other that call one function, or as many pairs
Point 4, equality, order, copying, conversion, printing by hand
  order     a function of ORDER with an `if`
  equal     a function of EQUAL with a `while`, a `!=` or a `refusal_number`
  copy      a function of COPY with a `while` or with places of a slice by their numbers
  convert   a function of CONVERT
  print     a function of PRINT
  fields    a function that makes a struct with fields copied from another one (`low: s.low`)
  pieces    a function that makes a text of pieces: two or more lines of `write_all`, `print!` or a printing function,
            one after the other
Point 5, parameters that travel together, facts said again
  together  a function with all parameters of a group of TOGETHER
  fact      a fact (a factor of `requires`) in the contract of a function, where three or more functions of the
            repository say it; `.now`, `.old`, `.entry` and outer brackets do not count
Point 6, buffers with a length beside, parallel arrays, searches of sorted lists, arenas
  length    a struct of LENGTHS, or a function that takes a slice and a size, or a slice and answers a size, or makes
            the buffer; a method of a type that holds the buffer counts nothing
  parallel  a function with the parameters of a group of PARALLEL, and what PARALLEL_ITEMS names
  numbered  an array of which constants name the places (NUMBERED)
  sorted    a function of SORTED, which searches a sorted chain by hand
  arena     a type of ARENA_TYPES, and a function with a parameter of such a type or of ARENA
Point 7, switches on which step to run
  bool      a parameter of type bool
  switch    a `match` on a call, a pick, a finish, an extent or a part, or a function of SWITCHES with `if` or `match`
  offset    a function of OFFSETS: a word's offset says what is tested
  pointer   `fn(..)` or `dyn` in a type: a table of functions
"""
import collections
import os
import re
import subprocess
import sys

# ---- Point 1

BARE = "Never Missing Malformed Broken Emptied Empty Free Done NoPoint".split()

# Real enums: more than a value or none, and not a value or a refusal.
REAL_ENUMS = {
    "types::Extent": "two flags of a call",
    "types::Pick": "three choices of a point",
    "types::Finish": "two flags of a call",
    "types::Call": "a sum of all calls",
    "types::Refusal": "the error enum itself",
    "types::Answer": "a sum of the replies of all calls",
    "replies::Line": "a sum of all lines that are printed; its numbers count as `refusal`",
    "refusals::Part": "three tables",
}

KIND_CONSTS = ("FREE OPEN COMMITTED ABORTED READ WRITE SETTLED NEW OWN AGAIN EMPTIED NOPOINT UNKNOWN").split()
KIND_CONST_CRATES = {"types", "telling", "sessions", "index"}
KIND_FIELDS = {
    "Lock.mode": "1 read, 2 write",
    "Asker.mode": "1 read, 2 write",
    "Lock.owner": "a slot, or 0 once settled",
    "Access.from": "the point read + 1, or 0",
    "Blocked.point": "high + 1 for none",
    "Blocked.by": "a slot, or 0 for frozen, or 64 for nobody",
    "Reach.top": "an end + 1, or 0 for no lock",
    "Reach.owner": "an owner, or 0 for settled and for no lock",
    "Reach.other": "an end + 1, or 0 for no lock",
    "Swept.joined": "an end + 1, or 0 for no lock",
    "Version.spare": "a word without meaning",
    "Row.code": "0, or a refusal, or another number",
}
KIND_PARAMS = "mode state kind part keep latest".split()
# functions whose `from` is the point read + 1, or 0
KIND_FROM = {"slot_clauses::row_stands", "slot_clauses::has_version", "slot_clauses::is_present"}
KIND_RESULTS = {
    "tables::reads::state_of": "a slot's state",
    "tables::views::state": "a slot's state",
    "tables::reads::access_mark": "0 or 1",
    "codes::mark": "0 or 1",
    "codes::bits": "0 for no value",
    "sessions::flag": "0 or 1",
    "writes::written_mark": "0 or 1",
    "writes::lock_tag": "mode and owner in one number",
    "damage::state::reads": "mode and owner in one number",
    "damage::state::writes": "mode and owner in one number",
    "record_clauses::lock_marks::own_mark": "0 or 1",
}
REFUSAL_NUMBERS = set(
    "types::refusal_number codes::refusal verdicts::format verdicts::write verdicts::abort verdicts::settle "
    "telling::point telling::begin telling::lock telling::read telling::commit telling::purge telling::view "
    "sessions::open sessions::read sessions::write sessions::commit".split()
)
COUNTING_EXPORTS = {"exports::zohetiwa_batch", "exports::zohetiwa_views"}  # they answer how many

SENTINELS = {
    "chains::next_of": "0 ends the chain", "chains::placed::link": "0 ends the chain",
    "chains::head_of": "0 for an empty chain",
    "chains::next_after": "0 ends the chain",
    "chains::partition::mark_chain": "0 where the check fails, else what is left + 1",
    "chains::queries::largest": "0 for no row",
    "chains::queries::first_with": "0 for no row",
    "chains::queries::find_place": "0 for the start of the chain",
    "chains::placed::find_place": "0 for the start of the chain",
    "updates::move_first": "0 for no row",
    "updates::insert_sorted": "0 for no row",
    "updates::unlink_turn": "0 for the start of the chain",
    "tables::reads::first_version": "0 for no row",
    "tables::reads::first_lock": "0 for no row",
    "tables::reads::first_access": "0 for no row",
    "tables::views::first": "0 for no row",
    "tables::reads::next_version": "0 for no row",
    "tables::reads::next_lock": "0 for no row",
    "tables::reads::next_access": "0 for no row",
    "writes::insert_version": "0 for no row",
    "writes::insert_lock": "0 for no row",
    "slots::take_access": "0 for no row",
    "changes::unlink_lock": "0 for the start of the chain",
    "trims::unlink_version": "0 for the start of the chain",
    "lookups::accesses::access_row": "0 for no row",
    "lookups::accesses::access_in": "an access of nothing for row 0",
    "index::access_row": "0 for no row",
    "lookups::edits::free_slot": "one more than there are",
    "lookups::versions::newest_below": "a version at 0 for none",
    "lookups::versions::newest_at": "a version at 0 for none",
    "lookups::versions::version_on": "a version at 0 for none",
    "blocking::first_free": "high + 1 for none",
    "blocking::nearest": "a blocked point high + 1 by nobody for none",
    "blocking::joined": "the same",
    "blocking::nearer": "the same",
    "blocking::first_blocked": "the same",
    "common::allowed::read_end": "LAST + 1 where nothing was read",
    "common::lifting::earlier": "LAST + 1 for none",
    "common::lifting::first_write": "LAST + 1 for none",
    "common::lifting::up_from": "LAST + 1 for none",
    "common::lifting::next_allowed": "LAST + 1 for none",
    "common::lifting::raise": "LAST + 1 for none",
    "common::lifting::lift": "LAST + 1 for none",
    "common::lifting::lift_next": "LAST + 1 for none",
    "common::lifting::earliest": "LAST + 1 for none",
    "common::sinking::later": "0 for none",
    "common::sinking::last_write": "0 for none",
    "common::sinking::down_from": "0 for none",
    "common::sinking::previous_allowed": "0 for none",
    "common::sinking::lower": "0 for none",
    "common::sinking::sink": "0 for none",
    "common::sinking::sink_next": "0 for none",
    "common::sinking::latest": "0 for none",
    "format::next_free": "0 after the last row",
    "format_room::words_for": "0 where there is no room",
    "fields::digit": "10 for no digit",
    "desk::closed": "an empty interval for an ended session",
    "opened::open": "false for the refusal 1",
    "calls::handle_at": "a handle of no edit for slot 0",
    "churn::begin": "handle 0 where Begin was refused",
    "churn::plus": "the first number where the sum is too large",
    "desks::desk_calls::told_open": "a session of no edit where opening was refused",
    "damage::state::small": "0 for a number out of range",
    "damage::state::before": "0 for row 0",
    "refusals::link_place": "the number of words for a row that there is not",
}

# ---- Point 2: what the members share, and the members

FAMILIES = [
    # types
    ("a value of a type, or a refusal", "types::PointReply types::FormatReply types::BeginReply types::WriteReply "
     "types::LockReply types::ReadReply types::CommitReply types::AbortReply types::SettleReply types::PurgeReply "
     "types::ViewReply store::SlotReply desk::OpenReply"),
    ("a field found, of a type", "fields::FoundNumber fields::FoundLetter fields::FoundExtent fields::FoundFinish "
     "fields::FoundPick"),
    ("a session and a report of a type", "desk::ReadStep desk::WriteStep desk::CommitStep"),
    ("three of a type", "chains::Tables chains::Cursors"),
    # words
    ("a word as a number of a type", "types::reading_of types::seat_of types::point_of_word types::handle_of_word"),
    ("a number of a type as a word", "types::word_of_point types::word_of_handle"),
    ("the smaller of two", "locks::smaller encoding::least desk::earlier"),
    ("the larger of two", "locks::larger desk::later"),
    ("the mark of a row for each row number", "chains::partition::MARKS record_clauses::lock_marks::MARKS"),
    ("how many slots", "types::SLOTS index::SLOTS"),
    ("the greatest u64", "fields::LARGEST desks::desk_calls::HIGHEST"),
    ("one more if a flag is set", "lookups::free_rows::count_if trims::with_turn"),
    ("a flag as 0 or 1", "writes::written_mark sessions::flag"),
    ("0 or another number as one of two", "codes::extent codes::finish"),
    # tables
    ("where a table lies", "tables::record_table tables::slot_table tables::version_table tables::lock_table "
     "tables::access_table"),
    ("where a table's heads lie", "tables::version_heads tables::lock_heads tables::access_heads"),
    ("a word of a row, by table", "tables::reads::record_word tables::reads::slot_word tables::reads::version_word "
     "tables::reads::lock_word tables::reads::access_word"),
    ("a word of a row, by offset", "tables::reads::floor_of tables::reads::state_of tables::reads::generation_of "
     "tables::reads::point_of tables::reads::lock_record tables::reads::access_mark tables::views::floor "
     "tables::views::state tables::views::generation tables::views::point"),
    ("a row by value", "tables::reads::version_at tables::reads::lock_at tables::reads::access_at"),
    ("the first row of a chain", "tables::reads::first_version tables::reads::first_lock tables::reads::first_access"),
    ("the row after a row", "tables::reads::next_version tables::reads::next_lock tables::reads::next_access"),
    ("a word stored, by table", "writes::set_slot_word writes::set_version_word writes::set_lock_word "
     "writes::set_access_word"),
    ("a word stored, by offset", "writes::put_floor writes::put_state writes::put_generation writes::put_point "
     "writes::put_low"),
    ("a row stored", "writes::put_version writes::put_lock writes::put_access"),
    ("a free row put in its order", "writes::insert_version writes::insert_lock"),
    ("a row added", "changes::add_lock changes::add_version slots::add_access"),
    ("a turn of unlinking", "changes::unlink_lock trims::unlink_version"),
    ("room in a table", "lookups::free_rows::lock_room lookups::free_rows::access_room "
     "lookups::free_rows::version_room"),
    ("whether a version stands on a point", "lookups::versions::version_stands slot_clauses::has_version"),
    # the common set from both ends
    ("ends of the common set: one lock", "common::lifting::earlier common::sinking::later"),
    ("ends of the common set: own write locks", "common::lifting::first_write common::sinking::last_write"),
    ("ends of the common set: what was written", "common::lifting::up_from common::sinking::down_from"),
    ("ends of the common set: one access", "common::lifting::next_allowed common::sinking::previous_allowed"),
    ("ends of the common set: one pass", "common::lifting::raise common::sinking::lower"),
    ("ends of the common set: to a point that stays", "common::lifting::lift common::sinking::sink"),
    ("ends of the common set: one access more", "common::lifting::lift_next common::sinking::sink_next"),
    ("ends of the common set", "common::lifting::earliest common::sinking::latest"),
    ("a commit at an end of the common set", "commits::commit_earliest commits::commit_latest"),
    ("a grant of points", "reading::read_grant locking::lock_grant"),
    # replies
    ("the number of `ok` or a refusal", "verdicts::format verdicts::write verdicts::abort verdicts::settle"),
    ("the line of `ok` or a refusal", "replies::line_of_format replies::line_of_write replies::line_of_abort "
     "replies::line_of_settle"),
    ("the line of values or a refusal", "value_replies::line_of_begin value_replies::line_of_lock "
     "value_replies::line_of_read value_replies::line_of_commit value_replies::line_of_purge "
     "value_replies::line_of_view"),
    ("the numbers of values or a refusal", "telling::point telling::begin telling::lock telling::read "
     "telling::commit telling::purge telling::view"),
    ("the row of values or a refusal", "encoding::of_begin encoding::of_lock encoding::of_read encoding::of_commit "
     "encoding::of_purge encoding::of_view"),
    ("what is made of the reply of any call", "rendering::line_of_answer encoding::row_of"),
    ("a row of words put at a place", "encoding::put_row asks::put_view"),
    # calls
    ("a call after the check", "store::begin store::would_begin store::write store::lock store::read store::commit "
     "store::abort store::settle store::purge store::view"),
    ("a call of a session that touches a record", "opened::write opened::lock opened::read"),
    ("a call of any kind", "store::perform opened::perform refusals::direct"),
    ("a view of words known to be sound or not", "asks::ask view::ask"),
] + [
    (f"a C function, checked or in a session: {n}", f"exports::zohetiwa_{n} exports::in_session::zohetiwa_in_{n}")
    for n in "begin write lock read commit_earliest commit_latest commit_at abort settle purge view".split()
] + [
    ("a C function that commits at an end", "exports::zohetiwa_commit_earliest exports::zohetiwa_commit_latest"),
    ("a C function of a session that commits at an end", "exports::in_session::zohetiwa_in_commit_earliest "
     "exports::in_session::zohetiwa_in_commit_latest"),
    ("what a desk's call tells C", "sessions::read sessions::write sessions::commit"),
    ("the check of words", "soundness::check view::check"),
    ("the call Point", "types::make_point store::point"),
    ("the call Format", "format::format store::format"),
    # lines and texts
    ("a flag of a line", "fields::extent fields::finish"),
    ("a flag of a field", "fields::extent_in fields::finish_in"),
    ("a line of a record and a point", "lines::parsing::purge lines::parsing::view"),
    ("a text and numbers", "texts::put_one texts::put_two texts::put_one_value texts::put_two_value"),
    ("the first bytes written", "script::output::flush script::output::finish"),
    ("the first bytes printed", "console::print_bytes console::print_out"),
    # desk
    ("a call on a lent session", "desk::read desk::write desk::commit"),
    ("a call on a copy of a session", "desks::lending::read desks::lending::write desks::lending::commit"),
    ("a desk's call by value and back: read", "desk::read_with desks::lending::read"),
    ("a desk's call by value and back: write", "desk::write_with desks::lending::write"),
    ("a desk's call by value and back: commit", "desk::commit_with desks::lending::commit"),
    ("what a desk told", "desks::desk_calls::told_read desks::desk_calls::told_write desks::desk_calls::told_commit"),
    ("a desk's call, printed", "desks::desk_calls::open desks::desk_calls::read desks::desk_calls::write "
     "desks::desk_calls::commit"),
    ("open on a store or on no word", "desks::desk_calls::open desks::open_empty"),
    ("read on a store or on no word", "desks::desk_calls::read desks::read_empty"),
    ("write on a store or on no word", "desks::desk_calls::write desks::write_empty"),
    ("commit on a store or on no word", "desks::desk_calls::commit desks::commit_empty"),
    ("a word before a call", "desks::first desks::second"),
    # programs
    ("a line of a script, done and printed", "desks::desk_calls::step generations::step generations::run "
     "refusals::step refusals::run"),
    ("the reply of `perform`", "generations::performed refusals::performed"),
    ("one of two texts", "desks::desk_calls::print_moved refusals::print_moved churn::print_verdict "
     "generations::print_verdict damage::print_verdict"),
    ("words with one changed", "damage::state::with_word refusals::with_word"),
    ("calls of an old or a new edit", "generations::step_old generations::step_new"),
    ("a call on words or on no word", "refusals::make refusals::make_empty"),
    ("a row of words", "damage::state::row4 damage::state::row5"),
    ("where a word stands", "damage::state::record damage::state::slot damage::state::version damage::state::lock "
     "damage::state::access"),
    ("a mode word", "damage::state::reads damage::state::writes"),
] + [
    (f"where a part of a program's store begins: {n}", f"damage::state::{n} refusals::{n}")
    for n in "RECORDS SLOTS VERSIONS LOCKS ACCESSES".split()
] + [
    ("a call, counted", "churn::begin churn::write churn::lock churn::read churn::commit churn::abort churn::settle "
     "churn::purge"),
]

STEPS = [
    ("whether a lock of a record passes", "common::allowed::write_on purges::locked_below slot_clauses::has_read_lock "
     "record_clauses::any_backs"),
    ("whether all rows of a chain pass", "chains::queries::all_with soundness::word_clauses::record_named "
     "soundness::word_clauses::slot_marked record_clauses::versions_backed common::allowed::all_allow"),
    ("the first row of a chain that passes", "chains::queries::first_with lookups::accesses::access_row "
     "lookups::versions::newest_below lookups::versions::version_on"),
    ("a fold along a chain", "chains::queries::largest common::ends::first_write common::lifting::first_write "
     "common::lifting::raise common::sinking::lower lookups::free_rows::written_count"),
    ("a step for each access of a slot", "commits::save_versions endings::leave_rows "
     "record_clauses::lock_marks::mark_slot"),
    ("rows of a chain freed and counted", "trims::trim_locks trims::cut_versions"),
    ("rows of a chain freed", "updates::unlink_if changes::drop_owner changes::freed::free_rows"),
    ("whether all records or slots pass", "record_clauses::all_pass record_clauses::records_sound_with "
     "slot_clauses::slots_sound_with soundness::word_clauses::locks_named soundness::word_clauses::marks_listed"),
    ("whether an edit is known or open", "lookups::edits::known lookups::edits::is_open"),
    ("a row of a list, answered", "asks::view_step batch::step"),
    ("the rows of a list, answered", "asks::views batch::steps"),
    ("a line of two fields", "lines::parsing::abort lines::parsing::purge lines::parsing::view"),
    ("a line of three fields", "lines::parsing::write lines::parsing::commit"),
]

# Members that are instances of one function once they call it.
INSTANCES = {"trims::trim_locks": "free_rows", "trims::cut_versions": "free_rows"}

# ---- Point 4

ORDER = {
    "locks::smaller": "min", "locks::larger": "max", "encoding::least": "min", "desk::earlier": "min",
    "desk::later": "max", "chains::queries::larger": "max", "locks::adjoins": "saturating sum", "churn::plus": "sum",
    "fields::room": "checked sum", "lookups::free_rows::count_if": "a flag as a number",
    "trims::with_turn": "a flag as a number", "chains::queries::precedes": "an order or its converse",
}
EQUAL = {
    "console::moved": "two slices", "desks::desk_calls::print_changed": "two sessions",
    "desk::refuse_ended": "a refusal, by its number",
}
COPY = {
    "texts::put_word": "a slice copied", "script::output::copy_line": "a slice copied", "format::clear": "filled",
    "index::forget": "filled", "index::wipe_all": "a run filled", "encoding::put_row": "a row copied",
    "asks::put_view": "a row copied", "encoding::call_at": "a row taken apart", "damage::state::row4": "a row copied",
    "damage::state::row5": "a row copied", "sessions::put_interval": "numbers copied",
    "sessions::put_session": "numbers copied",
}
CONVERT = {n: "" for n in (
    "types::reading_of types::seat_of types::point_of_word types::word_of_point types::handle_of_word "
    "types::word_of_handle types::refusal_number types::make_point types::make_handle chains::wide chains::word "
    "tables::header_word calls::slot codes::extent codes::finish codes::refusal codes::mark codes::bits "
    "writes::written_mark writes::lock_tag tables::reads::version_at tables::reads::lock_at tables::reads::access_at "
    "tables::rows::read tables::counts_of sessions::setting sessions::flag sessions::session_of sessions::open "
    "sessions::read "
    "sessions::write sessions::commit damage::state::reads damage::state::writes damage::counts encoding::call_of "
    "encoding::row_0 encoding::row_3 encoding::of_begin encoding::of_lock encoding::of_read encoding::of_commit "
    "encoding::of_purge encoding::of_view encoding::row_of telling::point telling::begin telling::lock telling::read "
    "telling::commit telling::purge telling::view verdicts::format verdicts::write verdicts::abort verdicts::settle "
    "replies::line_of_refusal replies::line_of_format replies::line_of_write replies::line_of_abort "
    "replies::line_of_settle value_replies::line_of_begin value_replies::line_of_lock value_replies::line_of_read "
    "value_replies::line_of_commit value_replies::line_of_purge value_replies::line_of_view "
    "rendering::line_of_answer fields::digit fields::number fields::extent fields::finish fields::pick "
    "fields::number_in fields::extent_in fields::finish_in fields::pick_in fields::named view::paired"
).split()}
PRINT = {n: "" for n in (
    "texts::put texts::put_word texts::put_number texts::put_value texts::put_one texts::put_two texts::put_one_value "
    "texts::put_two_value printing::print console::print_bytes console::print_out console::print_line "
    "damage::print damage::print_verdict damage::print_reply churn::print_refusals churn::print_tally "
    "churn::print_verdict generations::print_verdict refusals::print_moved desks::desk_calls::print_moved "
    "desks::desk_calls::print_session script::output::flush script::output::copy_line script::output::append "
    "script::output::put_line script::output::finish"
).split()}

# ---- Point 5: what the group is, and a pattern for each of its parameters

TOGETHER = [
    ("words and counts", r"\w+: &(mut )?\[u64\]", r"\w+: Counts"),
    ("words and table", r"\w+: &(mut )?\[u64\]", r"\w+: Tables?"),
    ("table and heads", r"\w+: Tables?", r"\w+: Heads"),
    ("chains a and b", r"a: usize", r"b: usize", r"h: Heads"),
    ("three marks", r"ma: .*", r"mb: .*", r"mc: .*"),
    ("three heads", r"ha: Heads", r"hb: Heads", r"hc: Heads"),
    ("words and index", r"(w|words): &(mut )?\[u64\]", r"(ix|index): &(mut )?\[u16\]"),
    ("index and slot", r"ix: &(mut )?\[u16\]", r"k: usize"),
    ("words and verdict", r"words: &(mut )?\[u64\]", r"good: bool"),
    ("list and replies", r"(list|calls|asks): &\[u64\]", r"replies: &mut \[u64\]"),
    ("low and high", r"low: u64", r"high: u64"),
    ("mode and slot", r"mode: u64", r"k: u64"),
    ("handle and record", r"h: Handle", r"rec: u64"),
    ("finish and index", r"finish: Finish", r"ix: .*"),
    ("words in use", r"words: &mut \[u64\]", r"used: usize"),
    ("line and position", r"line: &\[u8\]", r"at: usize"),
    ("out and position", r"out: &mut \[u8.*\]", r"(at|ready): usize"),
    ("out and length", r"(out|text): &(mut )?\[u8.*\]", r"(n|ready): usize"),
    ("script's words, line and out", r"words: .*", r"line: .*", r"out: .*"),
    ("words and tally", r"words: &mut \[u64; 128\]", r"tally: .*"),
    ("runtime and words", r"rt: .*", r"words: &mut \[u64.*\]"),
    ("runtime and state", r"rt: .*", r"(state|w): &?\[u64.*\]"),
    ("runtime and session", r"rt: .*", r"s: Session"),
    ("lent numbers of a read", r"kind: &mut u64", r"tr: &mut u64"),
    ("lent numbers of a view", r"point: &mut u64", r"written: &mut u64"),
    ("words and marks", r"w: &\[u64\]", r"(marks|stamps): &(mut )?\[u8; \w+\]"),
]
LEAST = 3  # functions that say a fact, or have a group of parameters, before it counts

# ---- Point 6

LENGTHS = {
    "texts::put": "out, at", "texts::put_word": "out, at", "texts::put_number": "out, at",
    "texts::put_value": "out, at", "texts::put_one": "out, the end answered", "texts::put_two": "out, the end answered",
    "texts::put_one_value": "out, the end answered", "texts::put_two_value": "out, the end answered",
    "printing::print": "out, the length answered", "console::print_bytes": "out, n", "console::print_out": "out, n",
    "console::print_line": "out, n", "script::output::flush": "out, ready", "script::output::copy_line": "text, n; "
    "out, at", "script::output::append": "text, n; out, ready", "script::output::put_line": "out, ready",
    "script::output::finish": "out, ready", "script::end_line": "line, held; out, ready; words, used",
    "script::take_byte": "line, held; out, ready; words, used", "script::take_block": "the same",
    "script::take_input": "the same; block, n", "script::take_all": "line, held; out, ready; words, used",
    "script::main": "the same", "script::Run": "three lengths", "gathering::gather": "line, held",
    "answers::run_format": "words, used", "answers::run_call": "words, used", "answers::answer": "words, used",
    "answers::Answered": "words, used", "fields::digit": "line, i", "fields::ends": "line, i",
    "fields::number": "line, at", "fields::letter": "line, at", "fields::extent": "line, at",
    "fields::finish": "line, at", "fields::named": "line, at", "fields::pick": "line, at",
    "lines::parsing::format": "line, at", "lines::parsing::begin": "line, at", "lines::parsing::write": "line, at",
    "lines::parsing::lock": "line, at", "lines::parsing::read": "line, at", "lines::parsing::commit": "line, at",
    "lines::parsing::abort": "line, at", "lines::parsing::purge": "line, at", "lines::parsing::view": "line, at",
    "lines::parsing::settle": "line, at", "lines::parsing::called": "line, at",
    "index::known": "a list of records and its length", "index::turns": "a list of records and its length",
    "index::turn": "a list of records and its length", "index::add": "a list of records and its length",
    "batch::steps": "list, n",
}
PARALLEL = [
    ("marks of three tables", r"ma: .*", r"mb: .*", r"mc: .*"),
    ("heads of three tables", r"ha: Heads", r"hb: Heads", r"hc: Heads"),
    ("list and replies", r"(list|calls|asks): &\[u64\]", r"replies: &mut \[u64\]"),
    ("marks beside rows", r"(marks|stamps): &(mut )?\[(u8|bool); \w+\]"),
]
PARALLEL_ITEMS = {
    "chains::partition::partitions_ok": "three arrays of marks", "record_clauses::records_sound": "marks beside rows",
    "slot_clauses::slots_sound": "stamps beside records",
}
NUMBERED = {
    "churn": "BEGUN WRITTEN LOCKED READS COMMITTED NO_POINT ABORTED SETTLED PURGED_VERSIONS PURGED_LOCKS",
    "sessions": "HANDLE LOW HIGH WIDTH LATEST",
}
SORTED = {
    "chains::queries::find_place": "the place in a sorted chain",
    "chains::placed::find_place": "the place in a sorted chain", "writes::insert": "put in its order",
    "updates::insert_sorted": "put in its order",
    "writes::insert_version": "put in its order", "writes::insert_lock": "put in its order",
    "blocking::first_free": "along rising locks", "blocking::nearest": "along rising locks",
    "lookups::versions::newest_below": "along falling versions",
    "lookups::versions::version_on": "along falling versions",
    "lookups::versions::version_stands": "along falling versions", "slot_clauses::has_version": "the same",
    "index::silent": "a set of records as marks",
}
ARENA_TYPES = "Table Heads Cursor Tables Cursors Placed Linked Pair".split()
ARENA = set(
    "tables::reads::first_version tables::reads::first_lock tables::reads::first_access tables::reads::next_version "
    "tables::reads::next_lock tables::reads::next_access tables::version_table tables::lock_table "
    "tables::access_table tables::version_heads tables::lock_heads tables::access_heads tables::views::first "
    "tables::parts::table tables::rows::heads writes::insert_version "
    "writes::insert_lock slots::take_access slots::empty_accesses changes::unlink_lock trims::unlink_version "
    "chains::more format::next_free refusals::link_place refusals::further refusals::last_row refusals::circle".split()
)

# ---- Point 7

SWITCHED = {"Call", "Pick", "Finish", "Extent", "Part"}
SWITCHES = {
    "encoding::call_of": "by a number", "lines::parsing::called": "by a letter", "encoding::row_of": "by the answer",
    "rendering::line_of_answer": "by the answer", "endings::leave_ended": "by the state",
    "changes::leave_settled": "by the mode", "locks::conflicts": "by the mode", "sweeps::agrees_now": "by the mode",
    "slots::set_access": "by the row", "index::wipe": "by whether the list is kept",
}
OFFSETS = {
    "chains::queries::larger", "chains::queries::largest", "chains::queries::all_with", "chains::queries::first_with",
    "chains::queries::find_place", "chains::placed::find_place", "updates::insert_sorted", "writes::insert",
    "updates::unlink_if",
}

# ---- The text

Item = collections.namedtuple("Item", "what name crate path line sig params result contract body fields")
Place = collections.namedtuple("Place", "crate path line kind what")


def sources(rev):
    """(path, text) of every crates/*/src/**/*.rt."""
    if rev:
        listed = subprocess.run(["git", "ls-tree", "-r", "--name-only", rev, "crates"], check=True,
                                capture_output=True, text=True).stdout.split()
        for p in sorted(listed):
            if re.match(r"crates/\w+/src/.*\.rt$", p):
                yield p, subprocess.run(["git", "show", f"{rev}:{p}"], check=True, capture_output=True,
                                        text=True).stdout
        return
    for folder, dirs, names in sorted(os.walk("crates")):
        dirs.sort()
        for n in sorted(names):
            p = os.path.join(folder, n)
            if re.match(r"crates/\w+/src/.*\.rt$", p):
                with open(p, encoding="utf-8") as f:
                    yield p, f.read()


def blanked(text):
    """The text with comments, ghost lines, texts and byte characters blanked; lines stay where they are."""
    text = re.sub(r'"([^"\\\n]|\\.)*"', lambda m: '"' + " " * (len(m[0]) - 2) + '"', text)
    text = re.sub(r"b'(\\.|[^'\\])'", "b' '", text)
    text = re.sub(r"//[^\n]*", "", text)
    # a struct's ghost field ends with its line, any other ghost line with `;`
    return re.sub(r"^\s*ghost (?:\w+: \{[^;\n]*\},(?=\n)|[^;]*;)", lambda m: "\n" * m[0].count("\n"), text, flags=re.M)


def split_at(text, mark):
    """The parts of a text between marks that stand in no bracket."""
    parts, depth, start, i = [], 0, 0, 0
    while i < len(text):
        ch = text[i]
        if ch in "([{⟨":
            depth += 1
        elif ch in ")]}⟩":
            depth -= 1
        elif depth == 0 and text.startswith(mark, i):
            parts.append(text[start:i])
            start = i + len(mark)
        i += 1
    parts.append(text[start:])
    return [p.strip() for p in parts if p.strip()]


def bracketed(text, at):
    """What stands in the bracket that opens at `at`, and where it ends."""
    depth = 0
    for i in range(at, len(text)):
        if text[i] in "([{":
            depth += 1
        elif text[i] in ")]}":
            depth -= 1
            if depth == 0:
                return text[at + 1:i], i + 1
    return text[at + 1:], len(text)


HEAD = re.compile(
    r"^(\s*)(?:pub(?:\([^)]*\))? )?(?:const |unsafe )?(extern \" *\" )?(fn|struct|enum|const|trait) (\w+)"
)


def items_of(path, text):
    crate = path.split("/")[1]
    stem = path.split("/src/")[1][:-3].replace("/", "::")
    prefix = crate if stem in ("lib", "main") else f"{crate}::{stem}"
    lines = text.split("\n")
    for n, line in enumerate(lines):
        m = HEAD.match(line)
        if not m:
            continue
        indent, extern, what, name = m.groups()
        if line.rstrip().endswith((";", "}")):
            end = n
        else:
            end = next((j for j in range(n + 1, len(lines)) if re.match(rf"{indent}(\}}|\]);?$", lines[j])), n)
        whole = "\n".join(lines[n:end + 1])
        if what != "fn":
            fields = []
            if what in ("struct", "enum") and "{" in whole:
                fields = split_at(bracketed(whole, whole.index("{"))[0], ",")
            yield Item(what, f"{prefix}::{name}", crate, path, n + 1, whole, [], "", "", "", fields)
            continue
        start = next((j for j in range(n, end + 1) if lines[j] == indent + "{"), None)
        if start is None:  # no contract: the body opens at the end of the signature
            start = next((j for j in range(n, end + 1) if lines[j].rstrip().endswith("{")), end)
            head = "\n".join(lines[n:start + 1]).rstrip().rstrip("{")
        else:
            head = "\n".join(lines[n:start])
        cut = re.search(r"^\s*(requires|ensures)\b", head, re.M)
        sig, contract = (head[:cut.start()], head[cut.start():]) if cut else (head, "")
        open_at = re.search(rf"fn {name}(<(?:[^()]|\([^()]*\))*?>)?\(", sig).end() - 1
        inside, after = bracketed(sig, open_at)
        arrow = sig[after:].strip()
        yield Item("extern" if extern else "fn", f"{prefix}::{name}", crate, path, n + 1, sig,
                   [re.sub(r"\s+", " ", p) for p in split_at(inside, ",")],
                   arrow[2:].strip() if arrow.startswith("->") else "", contract,
                   (start + 1, "\n".join(lines[start + 1:end])), [])


def is_fn(i):
    return i.what in ("fn", "extern")


def place(item, kind, what, line=None):
    return Place(item.crate, item.path, line or item.line, kind, what)


def lines_with(item, pattern):
    first, body = item.body
    for k, line in enumerate(body.split("\n")):
        if re.search(pattern, line):
            yield first + k + 1, line.strip()


def named(items, names, kind):
    """The places of a list of names."""
    for i in items:
        if i.name in names:
            note = names[i.name] if isinstance(names, dict) else ""
            yield place(i, kind, i.name + (f" ({note})" if note else ""))


# ---- The points

def is_kept(p, texts):
    lines = texts[p.path].split("\n")
    at = p.line - 1
    end = at
    if re.match(r"\s*(pub(\([^)]*\))? )?(struct|enum) .*\{$", lines[at]):
        end = next(k for k in range(at, len(lines)) if lines[k].strip() == "}")
    while at > 0 and re.match(r"\s*(//|#\[)", lines[at - 1]):
        at -= 1
    return any(re.search(r"//.*\bKept:", t) for t in lines[at:end + 1])


def point_1(items):
    for i in items:
        short = i.name.split("::")[-1]
        if i.what == "enum" and i.name not in REAL_ENUMS:
            bare = [f for f in i.fields if re.sub(r"#\[[^\]]*\]\s*", "", f) in BARE]
            if bare or any(re.match(r"(Refused|Judged)\(", f) for f in i.fields):
                yield place(i, "enum", i.name)
        if i.name == "replies::Line":
            for f in i.fields:
                if f in ("No(u64)", "Held(u64)"):
                    yield place(i, "refusal", f"Line::{f}")
        if i.what == "struct":
            for f in i.fields:
                m = re.search(r"(\w+): (\w+)$", f)
                if m and m[2] == "bool":
                    yield place(i, "flag", f"{i.name}.{m[1]}")
                elif m and m[2] == "u64" and f"{short}.{m[1]}" in KIND_FIELDS and (
                        short != "Blocked" or any(f.endswith("by: u64") for f in i.fields)):  # else a real point
                    yield place(i, "kind", f"{i.name}.{m[1]} ({KIND_FIELDS[f'{short}.{m[1]}']})")
        if i.what == "const" and short in KIND_CONSTS and i.crate in KIND_CONST_CRATES:
            yield place(i, "kind", f"const {i.name}")
        if not is_fn(i):
            continue
        for p in i.params:
            m = re.match(r"(\w+): u64$", p)
            if m and (m[1] in KIND_PARAMS or m[1] == "from" and i.name in KIND_FROM):
                yield place(i, "kind", f"{i.name}({m[1]})")
        for n, line in lines_with(i, r"^\s*0 => "):
            yield place(i, "kind", f"{i.name}: match on a number", n)
        if i.name in KIND_RESULTS and re.match(r"u(8|64)$", i.result):
            yield place(i, "kind", f"{i.name} ({KIND_RESULTS[i.name]})")
        for n, line in lines_with(i, r"\[0u8; (MARKS|MAX_RECORDS)\]"):
            yield place(i, "kind", f"{i.name}: marks as numbers", n)
        extern = i.what == "extern" and i.name not in COUNTING_EXPORTS
        if (extern or i.name in REFUSAL_NUMBERS) and i.result == "u64":
            yield place(i, "refusal", f"{i.name} answers a number")
        if i.crate not in ("types", "codes", "fields", "lines"):  # a field of a line has a number too
            for n, line in lines_with(i, r"\brefusal_number\(|\.number\(\)"):
                yield place(i, "refusal", f"{i.name}: a refusal by its number", n)
        optional = any("Option<" in p for p in i.params)  # the caller says what there is not
        if i.name in SENTINELS and not optional and not re.match(r"(io::Result<)?(Option|Result)\b", i.result):
            yield place(i, "sentinel", f"{i.name} ({SENTINELS[i.name]})")
        for n, line in lines_with(i, r"let \w+::\w+\(.*\) = .* else \{"):
            yield place(i, "by hand", f"{i.name}: {line}", n)
        for m in re.finditer(r"\w+::Refused\((\w+)\) => (\w+ \{[^}]*)?(\w|:|\()*(Refused\(\1\)|\b\1\b,?$)", i.body[1],
                             re.M):
            n = i.body[0] + i.body[1].count("\n", 0, m.start()) + 1
            yield place(i, "by hand", f"{i.name}: a refusal handed on", n)
    guards = collections.defaultdict(list)
    for i in items:
        if is_fn(i):
            for n, line in lines_with(i, r"return (?:\w+::Refused|Err)\(Refusal::\w+\)"):
                guards[re.search(r"Refusal::(\w+)", line)[1]].append((i, n))
    for r, there in guards.items():
        if len({i.name for i, _ in there}) >= LEAST:
            for i, n in there:
                yield place(i, "guard", f"{i.name}: {r}", n)


def calls_shared(i):
    """Whether a member of a family calls the one function that stands for all of them."""
    return i.name in INSTANCES and re.search(rf"\b{INSTANCES[i.name]}\(", i.body[1])


def point_2(items):
    by_name = {i.name: i for i in items}
    counted = set()
    for kind, families in (("twins", FAMILIES), ("step", STEPS)):
        for what, members in families:
            there = [by_name[m] for m in members.split() if m in by_name and not calls_shared(by_name[m])]
            for i in there[1:]:
                if i.name not in counted:
                    counted.add(i.name)
                    yield place(i, kind, f"{what}: {i.name} beside {there[0].name}")


def point_3(items):
    for i in items:
        if not is_fn(i):
            continue
        body = i.body[1]
        for n, line in lines_with(i, r"^\s*while (?!let\b)"):
            rest = body.split("\n")[n - i.body[0] - 1:]
            indent = re.match(r"\s*", rest[0])[0]
            loop = "\n".join(rest[:next((k for k, t in enumerate(rest) if t == indent + "}"), len(rest))])
            if re.search(r"\bmore\(", line):
                kind = "walk"
            elif re.search(r"[+-]= 1;", loop):
                kind = "index"
            else:
                kind = "search"
            yield place(i, kind, f"{i.name}: {line}", n)
        flat = re.sub(r"\(\s*\n([^;{}]*?)\n\s*\)", lambda m: "( )", body)
        calls = []  # of each statement: what it is bound to and what it calls
        for line in flat.split("\n"):
            if line.strip():
                m = re.match(r"\s*(?:let (?:mut )?(\w+) = )?([\w:.]+)\(.*\)\??;?$", line)
                calls.append((m[1], m[2]) if m else None)
        for step, least in ((1, 5), (2, 10)):
            run, best = step, 0
            for k in range(step, len(calls)):
                one, other = calls[k - step], calls[k]
                alike = one and other and one[1] == other[1] and (one[0] == other[0] or other[0] is None)
                run = run + 1 if alike else step
                best = max(best, run)
            if best >= least:
                yield place(i, "unrolled", f"{i.name}: {best} statements")
                break


def point_4(items):
    for kind, names, form in (
        ("order", ORDER, r"\bif "),
        ("equal", EQUAL, r"\bwhile |!=|\brefusal_number\("),
        ("copy", COPY, r"\bwhile |\b\w+\[[^\]]+\]"),
        ("convert", CONVERT, ""),
        ("print", PRINT, ""),
    ):
        yield from named([i for i in items if is_fn(i) and re.search(form, i.body[1])], names, kind)
    for i in items:
        if not is_fn(i):
            continue
        body = i.body[1]
        if re.search(r"^\s*(\w+): (\w+)\.\1,$", body, re.M) or re.search(r"\{ .*\b(\w+): (\w+)\.\1\b", body):
            yield place(i, "fields", i.name)
        piece = r"[^\n=]*(?:\bwrite_all\(|\bprint!\(|\bprint\(rt,|\bprint_line\(|\bprint_call\()[^\n]*\n?"
        if re.search(f"^{piece}^{piece}", body, re.M) and i.name not in PRINT:
            yield place(i, "pieces", i.name)


def facts_of(i):
    """The factors of a function's `requires`, in a form that does not say when."""
    for m in re.finditer(r"\brequires(?: \w+)? \{", i.contract):
        inside, _ = bracketed(i.contract, m.end() - 1)
        todo = [inside]
        while todo:
            text = re.sub(r"\s+", " ", todo.pop()).strip()
            parts = split_at(text, "×")
            if len(parts) > 1:
                todo += parts
                continue
            inner, end = bracketed(text, 0) if text.startswith("(") else ("", 0)
            if end == len(text) and inner:
                todo.append(inner)
                continue
            text = re.sub(r"\.(now|old|entry)\b", "", text)
            # a fact of a part of a struct is the fact of the part
            text = re.sub(r"\b(?:\w+\.)+(?=(?:counts|words|table|heads|stride|count|owners|records|edits)\b)", "", text)
            yield re.sub(r"\bwords\b", "w", re.sub(r"\bcounts\b", "c", text))


def point_5(items):
    fns = [i for i in items if is_fn(i)]
    for what, *patterns in TOGETHER:
        there = [i for i in fns if all(any(re.fullmatch(q, p) for p in i.params) for q in patterns)]
        if len(there) >= LEAST:
            for i in there:
                yield place(i, "together", f"{what}: {i.name}")
    saying = collections.defaultdict(list)
    for i in fns:
        for f in sorted(set(facts_of(i))):
            saying[f].append(i)
    for f, there in sorted(saying.items()):
        if len(there) >= LEAST:
            for i in there:
                yield place(i, "fact", f"{f} (said by {len(there)}): {i.name}")


def point_6(items):
    for i in items:
        slices = any("[" in p for p in i.params)
        sized = re.search(r"\b(usize|Run|Answered)\b", " ".join([i.result, *i.params]))
        method = (i.params or [""])[0].endswith("self")
        if i.what == "struct" or is_fn(i) and (sized and slices or "[0u" in i.body[1] and not method):
            yield from named([i], LENGTHS, "length")
    fns = [i for i in items if is_fn(i)]
    for what, *patterns in PARALLEL:
        for i in fns:
            if all(any(re.fullmatch(q, p) for p in i.params) for q in patterns):
                yield place(i, "parallel", f"{what}: {i.name}")
    yield from named([i for i in fns if re.search(r"\[0\w*; ", i.body[1])], PARALLEL_ITEMS, "parallel")
    for i in items:
        if i.what == "const" and i.name.split("::")[-1] in NUMBERED.get(i.crate, "").split():
            yield place(i, "numbered", i.name)
    yield from named(fns, SORTED, "sorted")
    for i in items:
        typed = any(re.search(r"\b(Tables?|Heads|Cursors?|Placed|Linked|Pair)\b(?!<)", p) for p in i.params)
        own = i.what == "struct" and i.crate in ("chains", "updates") and i.name.split("::")[-1] in ARENA_TYPES
        if own or is_fn(i) and (typed or i.name in ARENA):
            yield place(i, "arena", i.name)


def point_7(items):
    for i in items:
        if not is_fn(i):
            continue
        for p in i.params:
            if p.endswith(": bool"):
                yield place(i, "bool", f"{i.name}({p})")
        # a switch: a match with an arm of one of the enums, and not one that only names its cases
        if i.name in SWITCHES and re.search(r"\b(if|match) ", i.body[1]):
            yield place(i, "switch", f"{i.name} ({SWITCHES[i.name]})")
        else:
            arms = set(re.findall(r"^\s*(\w+)::\w+(?:\([^)]*\))? =>", i.body[1], re.M)) & SWITCHED
            if arms:
                yield place(i, "switch", f"{i.name} (by {', '.join(sorted(arms))})")
        if i.name in OFFSETS and any(p == "o: usize" for p in i.params):
            yield place(i, "offset", i.name)
        if re.search(r"\bdyn |: &?fn\(|-> fn\(", i.sig):
            yield place(i, "pointer", i.name)


POINTS = {1: point_1, 2: point_2, 3: point_3, 4: point_4, 5: point_5, 6: point_6, 7: point_7}


def gone(items):
    there = {i.name for i in items}
    lists = [REAL_ENUMS, KIND_FROM, KIND_RESULTS, REFUSAL_NUMBERS, COUNTING_EXPORTS, SENTINELS, ORDER, EQUAL, COPY,
             CONVERT, PRINT, LENGTHS, PARALLEL_ITEMS, SORTED, ARENA, SWITCHES, OFFSETS]
    lists += [members.split() for _, members in FAMILIES + STEPS]
    return sorted({n for names in lists for n in names} - there)


def table(items):
    found = {n: collections.Counter(p.crate for p in POINTS[n](items)) for n in POINTS}
    print("| crate | " + " | ".join(map(str, POINTS)) + " |")
    print("|---" * (len(POINTS) + 1) + "|")
    for crate in sorted({c for f in found.values() for c in f}):
        print(f"| {crate} | " + " | ".join(str(f[crate] or "") for f in found.values()) + " |")
    print("| total | " + " | ".join(str(sum(f.values())) for f in found.values()) + " |")


def main():
    args = sys.argv[1:]
    rev = args[args.index("--rev") + 1] if "--rev" in args else None
    texts = dict(sources(rev))
    items = [i for p, text in texts.items() for i in items_of(p, blanked(text))]
    if "--gone" in args:
        print("\n".join(gone(items)))
        return
    if "--table" in args:
        table(items)
        return
    for n in [int(a) for a in args if re.fullmatch("[1-7]", a)] or sorted(POINTS):
        found = list(POINTS[n](items))
        kept = [p for p in found if is_kept(p, texts)]
        print(f"point {n}: {len(found)}, of them {len(kept)} kept")
        kinds = collections.Counter(p.kind for p in found)
        print("  " + ", ".join(f"{k} {c}" for k, c in kinds.items()))
        if n == 5:
            said = collections.Counter(re.sub(r" \(said by.*|: .*", "", p.what) for p in found)
            for k, c in said.most_common():
                print(f"  - {k}: {c}")
        for crate, c in sorted(collections.Counter(p.crate for p in found).items()):
            print(f"  {crate:16} {c}")
        if "--list" in args:
            for p in sorted(found, key=lambda p: (p.path, p.line)):
                print(f"    {p.path}:{p.line}: {p.kind}: {p.what}" + (" [kept]" if p in kept else ""))


main()
