//! Times the exports of libboardid.a against the second reader, call by call.
//!
//!     bench [--seconds N] [--edition E]
//!
//! The calls are made with edition 2, and those of ONIE and of a room with ONIE boards with edition 3, or all with
//! the edition given: from edition 4 on, records have the lengths of their frames. Images and rooms of a format
//! that it does not have are left out. Each row is timed for N seconds (default 0.5), library and second reader in turn, and gives the
//! median time of a round. Buffers are made before the clock starts and are not cleared between calls.

mod subjects;

use std::hint::black_box;
use std::process::ExitCode;
use std::time::{Duration, Instant};

use subjects::{Board, Room, Subject};

const RECORD: usize = 64;
const BLOCK: usize = 48;

/// The names of the calls that not every image has a row of.
const WRITE: &str = "write";
const VENDOR_READ: &str = "vendor read";
const VENDOR_WRITE: &str = "vendor write";
const ROOM_FETCH: &str = "room fetch";
const ROOM_REMOVE: &str = "room remove";

/// A call with format and edition on one board or room, into memory that is lent for it: the answer.
type Call<T> = fn(u32, u32, &T, &mut [u8]) -> u64;

/// A row's call: its name, how much memory it is lent, and how library and second reader make it.
struct Timed<T> {
    name: &'static str,
    room: fn(&T) -> usize,
    library: Call<T>,
    second: Call<T>,
}

// The pointers and lengths of the library's calls come from slices, and `out` overlaps none of them.
const CALLS: [Timed<Board>; 9] = [
    Timed {
        name: "check",
        room: |_| 0,
        library: |format, edition, board, _| {
            let image = &board.image;
            unsafe { exports::boardid_check(format, edition, image.as_ptr(), image.len()) }
        },
        second: |format, edition, board, _| second::bytes::check(format, edition, &board.image),
    },
    Timed {
        name: "list",
        room: |board| board.entries * RECORD,
        library: |format, edition, board, out| {
            let image = &board.image;
            let (image, length) = (image.as_ptr(), image.len());
            let (out, room) = (out.as_mut_ptr(), out.len());
            unsafe { exports::boardid_list(format, edition, image, length, out, room) }
        },
        second: |format, edition, board, out| {
            second::bytes::list(format, edition, &board.image, out)
        },
    },
    Timed {
        name: "entry in the middle",
        room: |_| RECORD,
        library: |format, edition, board, out| {
            let (image, length) = (board.image.as_ptr(), board.image.len());
            let (out, room) = (out.as_mut_ptr(), out.len());
            let n = board.middle;
            unsafe { exports::boardid_entry(format, edition, image, length, n, out, room) }
        },
        second: |format, edition, board, out| {
            second::bytes::entry(format, edition, &board.image, board.middle, out)
        },
    },
    Timed {
        name: "edit",
        room: |board| board.image.len(),
        library: |format, edition, board, out| {
            let (image, length) = (board.image.as_ptr(), board.image.len());
            let (value, value_length) = (board.value.as_ptr(), board.value.len());
            let (out, room) = (out.as_mut_ptr(), out.len());
            let n = board.middle;
            unsafe {
                exports::boardid_edit(
                    format,
                    edition,
                    image,
                    length,
                    n,
                    value,
                    value_length,
                    out,
                    room,
                )
            }
        },
        second: |format, edition, board, out| {
            let (image, value) = (&board.image, &board.value);
            second::bytes::edit(format, edition, image, board.middle, value, out)
        },
    },
    Timed {
        name: WRITE,
        room: |board| board.image.len(),
        library: |format, edition, board, out| {
            let (fields, fields_length) = (board.fields.as_ptr(), board.fields.len());
            let (values, values_length) = (board.values.as_ptr(), board.values.len());
            let (out, room) = (out.as_mut_ptr(), out.len());
            unsafe {
                exports::boardid_write(
                    format,
                    edition,
                    fields,
                    fields_length,
                    values,
                    values_length,
                    out,
                    room,
                )
            }
        },
        second: |format, edition, board, out| {
            second::bytes::write(format, edition, &board.fields, &board.values, out)
        },
    },
    Timed {
        name: "add",
        room: |board| board.length,
        library: |format, edition, board, out| {
            let (image, length) = (board.without.as_ptr(), board.without.len());
            let (field, field_length) = (board.field.as_ptr(), board.field.len());
            let (values, values_length) = (board.field_values.as_ptr(), board.field_values.len());
            let (out, room) = (out.as_mut_ptr(), out.len());
            unsafe {
                exports::boardid_add(
                    format,
                    edition,
                    image,
                    length,
                    field,
                    field_length,
                    values,
                    values_length,
                    out,
                    room,
                )
            }
        },
        second: |format, edition, board, out| {
            let (image, field, values) = (&board.without, &board.field, &board.field_values);
            second::bytes::add(format, edition, image, field, values, out)
        },
    },
    Timed {
        name: "remove",
        room: |board| board.without_length,
        library: |format, edition, board, out| {
            let (image, length) = (board.image.as_ptr(), board.image.len());
            let (out, room) = (out.as_mut_ptr(), out.len());
            let n = board.removed;
            unsafe { exports::boardid_remove(format, edition, image, length, n, out, room) }
        },
        second: |format, edition, board, out| {
            second::bytes::remove(format, edition, &board.image, board.removed, out)
        },
    },
    Timed {
        name: VENDOR_READ,
        // The buffer for the payload, and the block.
        room: |board| board.payload + BLOCK,
        library: |format, edition, board, out| {
            let (image, length) = (board.image.as_ptr(), board.image.len());
            let (payload, block) = out.split_at_mut(board.payload);
            let (payload, payload_length) = (payload.as_mut_ptr(), payload.len());
            let (block, block_length) = (block.as_mut_ptr(), block.len());
            unsafe {
                exports::boardid_vendor_read(
                    format,
                    edition,
                    image,
                    length,
                    payload,
                    payload_length,
                    block,
                    block_length,
                )
            }
        },
        second: |format, edition, board, out| {
            let (payload, block) = out.split_at_mut(board.payload);
            second::bytes::vendor_read(format, edition, &board.image, payload, block)
        },
    },
    Timed {
        name: VENDOR_WRITE,
        room: |board| board.payload + 5 * (board.pieces.len() / 4),
        library: |format, edition, board, out| {
            let (serial, serial_length) = (board.serial.as_ptr(), board.serial.len());
            let (pieces, pieces_length) = (board.pieces.as_ptr(), board.pieces.len());
            let (out, room) = (out.as_mut_ptr(), out.len());
            unsafe {
                exports::boardid_vendor_write(
                    format,
                    edition,
                    serial,
                    serial_length,
                    board.offsets,
                    pieces,
                    pieces_length,
                    out,
                    room,
                )
            }
        },
        second: |format, edition, board, out| {
            let (serial, offsets, pieces) = (&board.serial, board.offsets, &board.pieces);
            second::bytes::vendor_write(format, edition, serial, offsets, pieces, out)
        },
    },
];

// The format of a room call is that of its new body.
const ROOM_CALLS: [Timed<Room>; 4] = [
    Timed {
        name: ROOM_FETCH,
        room: |_| 0,
        library: |_, edition, room, _| {
            let (file, length) = (room.file.as_ptr(), room.file.len());
            unsafe { exports::boardid_room_fetch(1, edition, file, length, room.fetched) }
        },
        second: |_, edition, room, _| {
            second::bytes::room_fetch(1, edition, &room.file, room.fetched)
        },
    },
    Timed {
        name: "room add",
        room: |room| room.with_new,
        library: |format, edition, room, out| {
            let (file, length) = (room.file.as_ptr(), room.file.len());
            let (body, body_length) = (room.body.as_ptr(), room.body.len());
            let (out, out_length) = (out.as_mut_ptr(), out.len());
            unsafe {
                exports::boardid_room_add(
                    1,
                    edition,
                    file,
                    length,
                    room.new,
                    format,
                    body,
                    body_length,
                    out,
                    out_length,
                )
            }
        },
        second: |format, edition, room, out| {
            second::bytes::room_add(1, edition, &room.file, room.new, format, &room.body, out)
        },
    },
    Timed {
        name: "room replace",
        room: |room| room.with_replaced,
        library: |format, edition, room, out| {
            let (file, length) = (room.file.as_ptr(), room.file.len());
            let (body, body_length) = (room.body.as_ptr(), room.body.len());
            let (out, out_length) = (out.as_mut_ptr(), out.len());
            unsafe {
                exports::boardid_room_replace(
                    1,
                    edition,
                    file,
                    length,
                    room.removed,
                    format,
                    body,
                    body_length,
                    out,
                    out_length,
                )
            }
        },
        second: |format, edition, room, out| {
            let (file, body) = (&room.file, &room.body);
            second::bytes::room_replace(1, edition, file, room.removed, format, body, out)
        },
    },
    Timed {
        name: ROOM_REMOVE,
        room: |room| room.without,
        library: |_, edition, room, out| {
            let (file, length) = (room.file.as_ptr(), room.file.len());
            let (out, out_length) = (out.as_mut_ptr(), out.len());
            let board = room.removed;
            unsafe {
                exports::boardid_room_remove(1, edition, file, length, board, out, out_length)
            }
        },
        second: |_, edition, room, out| {
            second::bytes::room_remove(1, edition, &room.file, room.removed, out)
        },
    },
];

/// Whether a room has a row of a call. In a full one nothing is added or replaced.
fn room_has_row(room: &Room, timed: &Timed<Room>) -> bool {
    matches!(timed.name, ROOM_FETCH | ROOM_REMOVE) || !room.is_full()
}

/// Whether a subject has a row of a call. Amplifiers have those of the vendor calls and no others.
fn has_row(subject: &Subject, timed: &Timed<Board>) -> bool {
    match timed.name {
        VENDOR_READ => subject.is_amplifier(),
        VENDOR_WRITE => subject.is_amplifier() && subject.has_pieces(),
        WRITE => !subject.is_amplifier() && subject.is_written(),
        _ => !subject.is_amplifier(),
    }
}

struct Options {
    seconds: f64,
    edition: Option<u32>,
}

/// What the command line asks for, or nothing where it is not understood.
fn options() -> Option<Options> {
    let mut options = Options {
        seconds: 0.5,
        edition: None,
    };
    let mut words = std::env::args().skip(1);
    while let Some(option) = words.next() {
        let number = words.next()?;
        match option.as_str() {
            "--seconds" => options.seconds = number.parse().ok()?,
            "--edition" => options.edition = Some(number.parse().ok()?),
            _ => return None,
        }
    }
    (options.seconds > 0.0 && options.seconds < 3600.0).then_some(options)
}

fn main() -> ExitCode {
    let Some(Options { seconds, edition }) = options() else {
        eprintln!("usage: bench [--seconds N] [--edition E]");
        return ExitCode::from(2);
    };

    println!("| image | entries | call | library | second | library/second |");
    println!("|---|---:|---|---:|---:|---:|");
    let limit = Duration::from_secs_f64(seconds);
    for subject in subjects::all() {
        let edition = edition.unwrap_or(subject.edition());
        if !subject.format.editions().contains(&edition) {
            continue;
        }
        let numbers = (subject.format.number(), edition);
        let head = (subject.name, subject.entries());
        for timed in CALLS.iter().filter(|timed| has_row(&subject, timed)) {
            if !print_row(head, &subject.boards, numbers, timed, limit) {
                return ExitCode::FAILURE;
            }
        }
    }
    for room in subjects::rooms() {
        let edition = edition.unwrap_or(room.edition);
        if edition < room.edition {
            continue;
        }
        let head = (room.name, room.entries);
        for timed in ROOM_CALLS.iter().filter(|timed| room_has_row(&room, timed)) {
            let numbers = (room.format, edition);
            if !print_row(head, std::slice::from_ref(&room), numbers, timed, limit) {
                return ExitCode::FAILURE;
            }
        }
    }
    println!("Medians of a round, both built for release; buffers are not cleared between calls.");
    ExitCode::SUCCESS
}

/// Times a row and prints it, or says that it could not be timed.
fn print_row<T>(
    (name, entries): (&str, usize),
    boards: &[T],
    numbers: (u32, u32),
    timed: &Timed<T>,
    limit: Duration,
) -> bool {
    let Some((library, second)) = row(boards, numbers, timed, limit) else {
        println!("bench: {name}, {}: refused or not alike", timed.name);
        return false;
    };
    println!(
        "| {name} | {entries} | {} | {} | {} | {:.2} |",
        timed.name,
        shown(library),
        shown(second),
        library / second
    );
    true
}

/// The median times of a row with format and edition, library and second reader, in seconds. Nothing where
/// the two give different answers or leave different memory, or a call is refused.
fn row<T>(
    boards: &[T],
    (format, edition): (u32, u32),
    timed: &Timed<T>,
    limit: Duration,
) -> Option<(f64, f64)> {
    let rooms = || -> Vec<Vec<u8>> {
        let boards = boards.iter();
        boards.map(|board| vec![0; (timed.room)(board)]).collect()
    };
    let (mut of_library, mut of_second) = (rooms(), rooms());
    for (board, (a, b)) in boards.iter().zip(of_library.iter_mut().zip(&mut of_second)) {
        let answer = (timed.library)(format, edition, board, a);
        if answer >> 59 != 0 || answer != (timed.second)(format, edition, board, b) || a != b {
            return None;
        }
    }

    let once = |call: Call<T>, rooms: &mut [Vec<u8>]| {
        for (board, room) in boards.iter().zip(rooms) {
            black_box(call(format, edition, black_box(board), black_box(room)));
        }
    };
    let mut library = Series::new(|| once(timed.library, &mut of_library));
    let mut second = Series::new(|| once(timed.second, &mut of_second));
    let started = Instant::now();
    while started.elapsed() < limit || library.times.len() < 5 {
        library.sample();
        second.sample();
    }
    Some((library.median(), second.median()))
}

/// Timed rounds of one call.
struct Series<F: FnMut()> {
    round: F,
    /// How many rounds are timed together, so that the clock's own time does not count.
    together: u32,
    times: Vec<f64>,
}

impl<F: FnMut()> Series<F> {
    fn new(mut round: F) -> Series<F> {
        let mut together = 1;
        loop {
            let started = Instant::now();
            for _ in 0..together {
                round();
            }
            if started.elapsed() > Duration::from_micros(200) {
                break;
            }
            together *= 2;
        }
        Series {
            round,
            together,
            times: Vec::new(),
        }
    }

    fn sample(&mut self) {
        let started = Instant::now();
        for _ in 0..self.together {
            (self.round)();
        }
        let time = started.elapsed().as_secs_f64();
        self.times.push(time / f64::from(self.together));
    }

    fn median(mut self) -> f64 {
        self.times.sort_by(f64::total_cmp);
        self.times[self.times.len() / 2]
    }
}

/// A time with a fitting unit.
fn shown(seconds: f64) -> String {
    match seconds {
        s if s < 1e-6 => format!("{:.0} ns", s * 1e9),
        s if s < 1e-3 => format!("{:.2} µs", s * 1e6),
        s => format!("{:.2} ms", s * 1e3),
    }
}
