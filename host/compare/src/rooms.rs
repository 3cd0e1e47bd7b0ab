//! What a room call makes of a file or gives of it, put together from the file's bytes by 02 alone, for holding
//! the library to it without the second reader (02, Machine-room file).

use images::room::{head, row, Board, HEAD, ROW};

use crate::call::{count, refusal, Call, Kind};

/// What is wrong with a room call that is not refused, or is refused 12, if anything: every other row and body
/// stays byte for byte, the count is right, what follows the new file stays, and it is refused 12 only where it
/// would not fit.
pub fn wrong(call: &Call, answer: u64, before: &[u8], out: &[u8]) -> Option<String> {
    let number = refusal(answer);
    if !call.is_of_room() || !matches!(number, 0 | 12) {
        return None;
    }
    let Some(rows) = Rows::of(call.read[0]) else {
        return Some("the call has to be refused 21".to_string());
    };
    if call.kind == Kind::RoomFetch {
        let place = (answer & 0xFFFF_FFFF) as usize;
        let given = place..place + count(answer);
        return match rows.body(rows.below(call.board)) {
            Some(body) if rows.has(call.board) && body == given => None,
            _ => Some("the part is not the board's body".to_string()),
        };
    }
    let Some(made) = made(call, &rows) else {
        return Some("the call has to be refused 22 or 23".to_string());
    };
    let fits = made.len() <= out.len();
    if number == 12 {
        return fits.then(|| format!("the new file has {} bytes, and fits", made.len()));
    }
    if !fits || count(answer) != made.len() {
        return Some(format!("the new file has {} bytes", made.len()));
    }
    let right = [&made, &before[made.len()..]].concat();
    let place = (0..right.len()).find(|&place| out[place] != right[place])?;
    Some(format!(
        "byte {place} of out has to be {:02X}",
        right[place]
    ))
}

/// The file that an add, a replacement or a removal makes, where the board is there as it has to be.
fn made(call: &Call, rows: &Rows) -> Option<Vec<u8>> {
    let file = call.read[0];
    let (adding, removing) = (call.kind == Kind::RoomAdd, call.kind == Kind::RoomRemove);
    if rows.has(call.board) == adding {
        return None;
    }
    let below = rows.below(call.board);
    // The row and the body that go, where one does.
    let row_place = HEAD + ROW * below;
    let after_row = row_place + if adding { 0 } else { ROW };
    let body_place = rows.bodies + rows.lengths[..below].iter().sum::<usize>();
    let after_body = body_place + if adding { 0 } else { rows.lengths[below] };
    let new = Board::new(call.board, call.format as u8, call.read[1]);
    let (new_row, new_body) = match removing {
        true => (Vec::new(), &[][..]),
        false => (row(&new), call.read[1]),
    };
    let boards = rows.numbers.len() + usize::from(adding) - usize::from(removing);
    let parts = [
        &head(boards)[..],
        &file[HEAD..row_place],
        &new_row,
        &file[after_row..rows.bodies],
        &file[rows.bodies..body_place],
        new_body,
        &file[after_body..],
    ];
    Some(parts.concat())
}

/// The rows of a file that lie in it: numbers and lengths of bodies, and where the first body begins.
struct Rows {
    numbers: Vec<u32>,
    lengths: Vec<usize>,
    bodies: usize,
}

impl Rows {
    fn of(file: &[u8]) -> Option<Rows> {
        let count = usize::from(file.get(4).copied()?) << 8 | usize::from(file.get(5).copied()?);
        let bodies = HEAD + ROW * count;
        let rows = || file.get(HEAD..bodies).map(|rows| rows.chunks_exact(ROW));
        let number = |row: &[u8]| row[..4].iter().fold(0, |sum, &b| sum << 8 | u32::from(b));
        let length = |row: &[u8]| usize::from(row[6]) << 8 | usize::from(row[7]);
        let numbers: Vec<u32> = rows()?.map(number).collect();
        let lengths: Vec<usize> = rows()?.map(length).collect();
        let is_whole = bodies + lengths.iter().sum::<usize>() == file.len();
        let is_rising = numbers.windows(2).all(|pair| pair[0] < pair[1]);
        let is_right = is_whole && is_rising && !lengths.contains(&0);
        is_right.then_some(Rows {
            numbers,
            lengths,
            bodies,
        })
    }

    fn has(&self, board: u32) -> bool {
        self.numbers.contains(&board)
    }

    /// How many boards have a lower number.
    fn below(&self, board: u32) -> usize {
        self.numbers
            .iter()
            .filter(|&&number| number < board)
            .count()
    }

    /// Where the body of a row lies.
    fn body(&self, row: usize) -> Option<std::ops::Range<usize>> {
        let place = self.bodies + self.lengths[..row].iter().sum::<usize>();
        Some(place..place + self.lengths.get(row)?)
    }
}
