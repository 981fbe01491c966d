//! Which call a word makes.

use crate::call::Call;
use crate::error::CallError;
use crate::texts::all_texts;
use crate::{
    agree, deltas, desks, joins, kept, library, lines, maps, messages, moments, reports, rules,
    scripts, series, states, todos, views, worlds,
};
use std::alloc::Global;
use std::thread::Threads;

/// What the call of a line answers.
pub(crate) fn answer<R: AllocGlobal + Threads + Sync>(
    rt: &R,
    line: &str,
) -> Result<Vec<u8>, CallError> {
    let call = Call::of_line(rt.alloc(), line)?;
    match made(rt, call.word, &call.arguments) {
        Ok(answer) => Ok(answer),
        Err(error) => error.into_answer(rt.alloc()),
    }
}

fn made<R: AllocGlobal + Threads + Sync>(
    rt: &R,
    word: &str,
    arguments: &[Vec<u8>],
) -> Result<Vec<u8>, CallError> {
    let alloc = rt.alloc();
    match word {
        "read_lines"
        | "count_lines"
        | "write_lines"
        | "show_bad_line"
        | "show_no_memory_for_lines" => lines::answer(alloc, word, arguments),
        "read_message" | "items" | "read_all" | "parted" => messages::answer(rt, word, arguments),
        "read_moment" | "read_stamp" | "read_date" | "shift" | "cmp_moments" => {
            moments::answer(alloc, word, &all_texts(alloc, arguments)?)
        }
        "read_todo" => todos::answer(alloc, &all_texts(alloc, arguments)?),
        "read_rule" | "is_day" | "shape" => {
            rules::answer(alloc, word, &all_texts(alloc, arguments)?)
        }
        "occurrences" | "occurrences_of_todo" | "count_occurrences" | "count_all_occurrences" => {
            series::answer(alloc, word, &all_texts(alloc, arguments)?)
        }
        _ => made_of_what_is_kept(alloc, word, arguments),
    }
}

/// The same of the calls from joins to scripts.
fn made_of_what_is_kept(
    alloc: Global,
    word: &str,
    arguments: &[Vec<u8>],
) -> Result<Vec<u8>, CallError> {
    match word {
        "written" | "join" | "below" | "meet" | "end_in_any_order" => {
            joins::answer(alloc, word, arguments)
        }
        "changes" => maps::answer(alloc, arguments),
        "window" | "count_items" | "rows" | "rows_of" | "list" => {
            views::answer(alloc, word, arguments)
        }
        "report" => reports::answer(alloc, arguments),
        "takes"
        | "counts"
        | "in_orders"
        | "shown"
        | "shown_to"
        | "found_in"
        | "found_for"
        | "since" => desks::answer(alloc, word, arguments),
        "kept" | "parts" => kept::answer(alloc, word, arguments),
        "keeps" | "merge" | "part" | "state" | "copies" => states::answer(alloc, word, arguments),
        "agree" => agree::answer(alloc, arguments),
        "replies" | "desks" | "packets" | "packet" | "steps" => {
            worlds::answer(alloc, word, arguments)
        }
        "read_delta" | "read_back" => deltas::answer(alloc, word, arguments),
        "window_of"
        | "batch"
        | "cut"
        | "report_lines"
        | "read"
        | "item_of"
        | "item_with"
        | "todo_of"
        | "file_of"
        | "file_within"
        | "desk_in"
        | "load_records"
        | "progress_records"
        | "report_items"
        | "write_reply"
        | "write_refresh"
        | "write_cancel"
        | "write_onward"
        | "write_removal"
        | "write_request"
        | "write_resend" => { library::answer(alloc, word, arguments) }
        _ => scripts::answer(alloc, word, arguments),
    }
}
