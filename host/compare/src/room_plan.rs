//! Which calls are made on a room file.

use images::random::Random;
use images::room::{self, fits, numbers_of, offered, similar, sought, FORMS};

use crate::call::{count, refusal, Call};
use crate::comparison::Comparison;
use crate::plan::{into_outputs, output_room};

/// The editions that there are, and others.
const EDITIONS: [u32; 4] = [1, 2, 3, 4];
const ANY_EDITION: [u32; 10] = [0, 1, 2, 3, 4, 5, 6, 257, 260, u32::MAX];

/// A longer file is called on less often.
const LONG: usize = 16_384;

/// Every call on one room file, as two editions or as all, and once with any form and any edition.
pub fn on_room(compare: &mut Comparison, random: &mut Random, file: &[u8]) {
    let there = numbers_of(file);
    let mut editions = EDITIONS.to_vec();
    if !random.once_in(8) || file.len() > LONG {
        random.shuffle(&mut editions);
        editions.truncate(if file.len() > LONG { 1 } else { 2 });
    }
    for edition in editions {
        let board = there.first().copied().unwrap_or(0);
        let fetch = Call::fetch(1, edition, file, board);
        let (answer, _) = compare.call(&fetch);
        match refusal(answer) {
            0 => on_accepted(compare, random, &fetch, &there),
            22 if there.is_empty() => on_accepted(compare, random, &fetch, &there),
            _ => on_refused(compare, random, &fetch, &there),
        }
    }
    with_other_arguments(compare, random, file, &there);
}

/// Calls on a file that is refused, of boards that are there or not: 21, 22 or 23, or a stored body's own.
fn on_refused(compare: &mut Comparison, random: &mut Random, fetch: &Call, there: &[u32]) {
    let (format, body) = offered(random, 100);
    let length = fetch.read[0].len();
    for _ in 0..2 {
        let board = sought(random, there);
        let fetch = Call { board, ..*fetch };
        compare.call(&fetch);
        let mut room = || output_room(random, length + body.len());
        let rooms = [room(), room(), room()];
        compare.call(&fetch.add_board(format, &body, rooms[0]));
        compare.call(&fetch.replace_board(format, &body, rooms[1]));
        compare.call(&fetch.remove_board(rooms[2]));
    }
}

fn on_accepted(compare: &mut Comparison, random: &mut Random, fetch: &Call, there: &[u32]) {
    let with = |board| Call { board, ..*fetch };
    let few = match fetch.read[0].len() > LONG {
        true => 2,
        false => 5,
    };
    // The first, the last and some between, and what lies next to them.
    let first = random.below(there.len());
    let some = there[first..].iter().chain(&there[..first]).take(few);
    let ends = there.first().into_iter().chain(there.last());
    for &board in ends.chain(some) {
        compare.call(&with(board));
        let next = random.pick(&[board.wrapping_add(1), board.wrapping_sub(1)]);
        compare.call(&with(next));
    }
    compare.call(&with(sought(random, there)));

    let mut new = sought(random, there);
    while there.contains(&new) {
        new = sought(random, there);
    }
    adds(compare, random, &with(new), there);
    if !there.is_empty() {
        let sought = |random: &mut Random| match random.below(4) {
            0 => *there.first().unwrap_or(&0),
            1 => *there.last().unwrap_or(&0),
            _ => random.pick(there),
        };
        let board = sought(random);
        replaces(compare, random, &with(board));
        let board = sought(random);
        removes(compare, random, &with(board));
    }
    // Boards that are not there, and one that is, whatever else is given.
    let fetch = with(sought(random, there));
    let (format, body) = offered(random, 100);
    let room = output_room(random, fetch.read[0].len() + body.len());
    compare.call(&fetch.add_board(format, &body, room));
    compare.call(&fetch.replace_board(format, &body, room));
    compare.call(&fetch.remove_board(room));
}

/// An add, and what was added fetched, and removed again: the file that there was.
fn adds(compare: &mut Comparison, random: &mut Random, fetch: &Call, there: &[u32]) {
    let file = fetch.read[0];
    let (format, body) = offered(random, fits(file.len()));
    let add = fetch.add_board(format, &body, 0);
    if let Some(made) = into_outputs(compare, random, &add) {
        let made = &made[..];
        let fetch = Call::fetch(1, fetch.edition, made, fetch.board);
        holds(compare, &fetch, &body);
        others_stay(compare, random, file, &fetch, there);
        let remove = fetch.remove_board(file.len());
        back(compare, "what was added, removed", &remove, file);
    }
}

/// A replacement, and the old body put back: the file that there was.
fn replaces(compare: &mut Comparison, random: &mut Random, fetch: &Call) {
    let file = fetch.read[0];
    let there = numbers_of(file);
    let (format, old) = stored(file, fetch.board);
    let new_length = fits(file.len()) + room::ROW + old.len();
    let (new_format, body) = match random.below(4) {
        0 => (format, similar(random, format, old)),
        _ => offered(random, new_length),
    };
    let replace = fetch.replace_board(new_format, &body, 0);
    if let Some(made) = into_outputs(compare, random, &replace) {
        let fetch = Call::fetch(1, fetch.edition, &made, fetch.board);
        holds(compare, &fetch, &body);
        others_stay(compare, random, file, &fetch, &there);
        let replace = fetch.replace_board(format, old, file.len());
        back(compare, "what was replaced, put back", &replace, file);
    }
}

/// A removal, and the old body added again: the file that there was.
fn removes(compare: &mut Comparison, random: &mut Random, fetch: &Call) {
    let file = fetch.read[0];
    let there = numbers_of(file);
    let (format, old) = stored(file, fetch.board);
    if let Some(made) = into_outputs(compare, random, &fetch.remove_board(0)) {
        let fetch = Call::fetch(1, fetch.edition, &made, fetch.board);
        let (answer, _) = compare.call(&fetch);
        if answer != 22 << 59 {
            compare.wrong(&fetch, "what was removed is still there", answer);
        }
        others_stay(compare, random, file, &fetch, &there);
        let add = fetch.add_board(format, old, file.len());
        back(compare, "what was removed, added", &add, file);
    }
}

/// A call that undoes another makes the file that there was.
fn back(compare: &mut Comparison, what: &str, call: &Call, file: &[u8]) {
    compare.room_case(what, call, (file.len() as u64) << 32, file);
}

/// A fetch gives this body.
fn holds(compare: &mut Comparison, fetch: &Call, body: &[u8]) {
    let (answer, _) = compare.call(fetch);
    let place = (answer & 0xFFFF_FFFF) as usize;
    let part = fetch.read[0]
        .get(place..)
        .and_then(|rest| rest.get(..count(answer)));
    if refusal(answer) != 0 || part != Some(body) {
        compare.wrong(fetch, "the part is not the body that went in", answer);
    }
}

/// One of the other boards, fetched from what a change made, has the body that it had.
fn others_stay(
    compare: &mut Comparison,
    random: &mut Random,
    file: &[u8],
    fetch: &Call,
    there: &[u32],
) {
    if there.is_empty() {
        return;
    }
    let board = random.pick(there);
    if board != fetch.board {
        let (_, body) = stored(file, board);
        holds(compare, &Call { board, ..*fetch }, body);
    }
}

/// The format and the body of a board in a file whose contents are right.
fn stored(file: &[u8], board: u32) -> (u32, &[u8]) {
    let rows = &file[room::HEAD..];
    let mut place = room::HEAD + room::ROW * numbers_of(file).len();
    for row in rows.chunks_exact(room::ROW) {
        let length = usize::from(row[6]) << 8 | usize::from(row[7]);
        if row[..4] == board.to_be_bytes() {
            return (row[4].into(), &file[place..place + length]);
        }
        place += length;
    }
    (0, &[])
}

/// A call with any form and any edition.
fn with_other_arguments(compare: &mut Comparison, random: &mut Random, file: &[u8], there: &[u32]) {
    let form = match random.below(8) {
        0 => random.number() as u32,
        1..=3 => 1,
        _ => random.pick(&FORMS),
    };
    let edition = match random.below(8) {
        0 => random.number() as u32,
        _ => random.pick(&ANY_EDITION),
    };
    let fetch = Call::fetch(form, edition, file, sought(random, there));
    let (format, body) = offered(random, 100);
    let room = output_room(random, file.len() + body.len());
    match random.below(4) {
        0 => compare.call(&fetch),
        1 => compare.call(&fetch.add_board(format, &body, room)),
        2 => compare.call(&fetch.replace_board(format, &body, room)),
        _ => compare.call(&fetch.remove_board(room)),
    };
}

/// All calls on every beginning of a file.
pub fn on_beginnings(compare: &mut Comparison, file: &[u8]) {
    let there = numbers_of(file);
    let board = there.last().copied().unwrap_or(0);
    for length in 0..=file.len() {
        for edition in [2, 4] {
            let fetch = Call::fetch(1, edition, &file[..length], board);
            compare.call(&fetch);
            compare.call(&fetch.add_board(2, &[0x00], length + 9));
            compare.call(&fetch.replace_board(2, &[0x00], length));
            compare.call(&fetch.remove_board(length));
        }
    }
}
