//! The machine-room file: all boards of a room in one file (02, Machine-room file).
//!
//! A file is a head, one row of contents for each board, and the bodies in the order of their rows.
//! A body is an image of the format that its row says. All numbers are stored high byte first.

use crate::accept::accept;
use crate::formats::{not_too_long, Edition};
use crate::refusal::{Reason, Refusal};

/// What a file begins with.
const MAGIC: [u8; 2] = [0x52, 0x4D];
/// The form of a file: the byte after the magic, and what a call is told to expect.
const FORM: u8 = 1;
/// How many bytes the head has: magic, form, a zero, the count of boards in two bytes, two zeros.
const HEAD_LEN: usize = 8;
/// How many bytes a row has: the board's number in four, format, a zero, the body's length in two.
const ROW_LEN: usize = 8;

/// A board of a room.
struct Board<'a> {
    number: u32,
    format: u32,
    body: &'a [u8],
    /// Where the body lies in the file that it is stored in.
    place: usize,
}

/// Adds a board to a room file into a second buffer, and gives the new file's length.
///
/// All other bodies keep their bytes. Output bytes after the new file stay as they were.
pub fn room_add(
    form: u32,
    edition: u32,
    file: &[u8],
    board: u32,
    format: u32,
    body: &[u8],
    out: &mut [u8],
) -> Result<usize, Refusal> {
    let mut boards = open(form, edition, file, out.len())?;
    if position(&boards, board).is_ok() {
        return Err(Reason::BoardThere.at(0));
    }
    accept_stored(edition, &boards)?;
    boards.push(new_board(edition, board, format, body)?);
    boards.sort_by_key(|board| board.number);
    deliver(&boards, out)
}

/// Replaces the body of a board, and its format, into a second buffer, and gives the new file's length.
///
/// The body that goes has to be accepted too. All others keep their bytes, and output bytes after the
/// new file stay as they were.
pub fn room_replace(
    form: u32,
    edition: u32,
    file: &[u8],
    board: u32,
    format: u32,
    body: &[u8],
    out: &mut [u8],
) -> Result<usize, Refusal> {
    let mut boards = open(form, edition, file, out.len())?;
    let at = position(&boards, board)?;
    accept_stored(edition, &boards)?;
    boards[at] = new_board(edition, board, format, body)?;
    deliver(&boards, out)
}

/// Removes a board from a room file into a second buffer, and gives the new file's length.
///
/// The body that goes has to be accepted too. All others keep their bytes, and output bytes after the
/// new file stay as they were.
pub fn room_remove(
    form: u32,
    edition: u32,
    file: &[u8],
    board: u32,
    out: &mut [u8],
) -> Result<usize, Refusal> {
    let mut boards = open(form, edition, file, out.len())?;
    let at = position(&boards, board)?;
    accept_stored(edition, &boards)?;
    boards.remove(at);
    deliver(&boards, out)
}

/// Gives the body of a board as a part of the file: its place and its length.
///
/// All bodies have to be accepted.
pub fn room_fetch(
    form: u32,
    edition: u32,
    file: &[u8],
    board: u32,
) -> Result<(usize, usize), Refusal> {
    // There is no output.
    let boards = open(form, edition, file, 0)?;
    let at = position(&boards, board)?;
    accept_stored(edition, &boards)?;
    Ok((boards[at].place, boards[at].body.len()))
}

/// What every call refuses first, in its order: the edition, the lengths of file and output, then the
/// head and the contents. Gives the boards in the order of their rows.
fn open(form: u32, edition: u32, file: &[u8], room: usize) -> Result<Vec<Board<'_>>, Refusal> {
    Edition::from_number(edition)?;
    not_too_long(file.len())?;
    not_too_long(room)?;
    contents(form, file).ok_or(Reason::Contents.at(0))
}

/// The boards of a file, or nothing where it is not of the form told, its head or its contents are
/// wrong, or it does not end with its last body. The format of a row is left to the check of its body.
fn contents(form: u32, file: &[u8]) -> Option<Vec<Board<'_>>> {
    let (&head, after_head) = file.split_first_chunk::<HEAD_LEN>()?;
    let [first, second, stored_form, 0, high, low, 0, 0] = head else {
        return None;
    };
    if [first, second] != MAGIC || stored_form != FORM || form != u32::from(FORM) {
        return None;
    }
    let count = usize::from(u16::from_be_bytes([high, low]));
    let (rows, mut bodies) = after_head.split_at_checked(count * ROW_LEN)?;

    let mut boards: Vec<Board> = Vec::new();
    for row in rows.chunks_exact(ROW_LEN) {
        let &[a, b, c, d, format, 0, high, low] = row else {
            return None;
        };
        let number = u32::from_be_bytes([a, b, c, d]);
        if boards.last().is_some_and(|before| before.number >= number) {
            return None;
        }
        let length = usize::from(u16::from_be_bytes([high, low]));
        if length == 0 {
            return None;
        }
        let place = file.len() - bodies.len();
        let (body, after) = bodies.split_at_checked(length)?;
        boards.push(Board {
            number,
            format: format.into(),
            body,
            place,
        });
        bodies = after;
    }
    bodies.is_empty().then_some(boards)
}

/// Which of the boards has a number.
fn position(boards: &[Board], number: u32) -> Result<usize, Refusal> {
    boards
        .iter()
        .position(|board| board.number == number)
        .ok_or(Reason::NoBoard.at(0))
}

/// Refuses what the check of a stored body refuses, the first such body's. Its places count from the
/// file's first byte: where the body begins is added to each, a place 0 too.
fn accept_stored(edition: u32, boards: &[Board]) -> Result<(), Refusal> {
    for board in boards {
        accept(board.format, edition, board.body).map_err(|own| Refusal {
            place: own.place + board.place as u64,
            ..own
        })?;
    }
    Ok(())
}

/// A board with a new body, which its own check has to accept. Its places count in the body.
fn new_board(edition: u32, number: u32, format: u32, body: &[u8]) -> Result<Board<'_>, Refusal> {
    accept(format, edition, body)?;
    Ok(Board {
        number,
        format,
        body,
        place: 0,
    })
}

/// Puts a file of these boards out, where it fits, and gives its length.
fn deliver(boards: &[Board], out: &mut [u8]) -> Result<usize, Refusal> {
    let bodies: usize = boards.iter().map(|board| board.body.len()).sum();
    let length = HEAD_LEN + boards.len() * ROW_LEN + bodies;
    let made = out.get_mut(..length).ok_or(Reason::NoRoom.at(0))?;

    // An output has at most 65,536 bytes, so in a file that fits all counts and lengths have two
    // bytes. An accepted format has one.
    let mut file = MAGIC.to_vec();
    file.extend([FORM, 0]);
    file.extend((boards.len() as u16).to_be_bytes());
    file.extend([0, 0]);
    for board in boards {
        file.extend(board.number.to_be_bytes());
        file.extend([board.format as u8, 0]);
        file.extend((board.body.len() as u16).to_be_bytes());
    }
    for board in boards {
        file.extend(board.body);
    }
    made.copy_from_slice(&file);
    Ok(length)
}
