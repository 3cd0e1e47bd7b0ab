//! Compares every export of libboardid.a with the second reader.
//!
//!     compare [--seed N] [--inputs N] [--format F | --rooms] [--first N] [--exact] [--threads N]
//!
//! An input is an image, a field list, a vendor write or a room file, and each is put through many calls.
//! Of every call, the answer and every byte of all lent memory are compared. The fixed cases come first,
//! then N generated inputs of each format and N room files. A generated input depends on the seed, its
//! format and its number alone, so that `--first` makes any of them again. A run of all formats and room
//! files and of the default size or more also fails where a number that a call can give back never came up.

mod call;
mod cases;
mod changes;
mod comparison;
mod crash;
mod frames;
mod lent;
mod plan;
mod room_plan;
mod rooms;

use std::process::ExitCode;
use std::sync::atomic::{AtomicUsize, Ordering};
use std::sync::Mutex;
use std::thread;
use std::time::{Duration, Instant};

use cases::GROUPS;
use comparison::{Comparison, Tally};
use crash::Input;
use images::image::{Format, FORMATS, LONGEST};
use images::random::Random;
use images::{damage, fields, generate, room, vendor};
use lent::Layout;

/// How many inputs of one format, or room files, a thread takes at a time.
const CHUNK: u64 = 32;

/// How many inputs of each format, and room files, a run has by itself.
const DEFAULT: u64 = 20_000;

struct Options {
    seed: u64,
    inputs: u64,
    first: Option<u64>,
    sources: Vec<Source>,
    layout: Layout,
    threads: usize,
}

/// What generated inputs are: images and what is written as one, of a format, or room files.
#[derive(Clone, Copy, PartialEq, Eq)]
enum Source {
    Format(Format),
    Rooms,
}

impl Source {
    fn all() -> Vec<Source> {
        let formats = FORMATS.into_iter().map(Source::Format);
        formats.chain([Source::Rooms]).collect()
    }

    /// The format's number. Room files have one that is no format's.
    fn number(self) -> u32 {
        match self {
            Source::Format(format) => format.number(),
            Source::Rooms => 0,
        }
    }
}

/// What a thread does at a time: one group of fixed cases, or some inputs of one source.
#[derive(Clone, Copy)]
enum Task {
    Fixed { group: usize },
    Generated { source: Source, from: u64, to: u64 },
}

/// What came of a task.
struct Outcome {
    task: usize,
    tally: Tally,
    /// The first difference, with the number of inputs that the task took to find it.
    difference: Option<(u64, String)>,
}

fn main() -> ExitCode {
    let options = match options() {
        Ok(options) => options,
        Err(wrong) => {
            eprintln!("compare: {wrong}");
            eprintln!("usage: compare [--seed N] [--inputs N] [--format 1|2|3|4 | --rooms] [--first N] [--exact] [--threads N]");
            return ExitCode::from(2);
        }
    };
    crash::report_crashes(options.seed);
    let started = Instant::now();
    let mut outcomes = run(&options);
    outcomes.sort_by_key(|outcome| outcome.task);

    let mut tally = Tally::default();
    let mut first = None;
    for outcome in outcomes {
        if let (None, Some((inputs, text))) = (&first, outcome.difference) {
            first = Some((tally.inputs + inputs, text));
        }
        tally.add(&outcome.tally);
    }

    println!("{}", tally.table());
    println!("{}", tally.records());
    println!(
        "seed {}, {} calls, {:.1} s",
        options.seed,
        tally.calls(),
        started.elapsed().as_secs_f64()
    );
    if let Some((inputs, text)) = &first {
        println!(
            "first difference, at input {inputs} of this run, seed {}:\n{text}",
            options.seed
        );
        println!("{}", tally.classes());
    }
    let never_given = match is_whole(&options) {
        true => tally.never_given(),
        false => Vec::new(),
    };
    if !never_given.is_empty() {
        println!("never given back: {}", never_given.join(", "));
    }
    println!(
        "compare: {} inputs, {} differences",
        tally.inputs, tally.differences
    );
    match first.is_none() && never_given.is_empty() {
        true => ExitCode::SUCCESS,
        false => ExitCode::FAILURE,
    }
}

/// Whether a run is large enough that every call must have given back every number that it can.
fn is_whole(options: &Options) -> bool {
    let has_all = options.sources == Source::all();
    options.first.is_none() && options.inputs >= DEFAULT && has_all
}

fn options() -> Result<Options, String> {
    let mut options = Options {
        seed: 1,
        inputs: DEFAULT,
        first: None,
        sources: Source::all(),
        layout: Layout::Guarded,
        threads: thread::available_parallelism().map_or(1, |threads| threads.get()),
    };
    let mut words = std::env::args().skip(1);
    while let Some(word) = words.next() {
        let mut number = || -> Result<u64, String> {
            let text = words.next().ok_or(format!("{word} wants a number"))?;
            text.parse().map_err(|_| format!("{text} is no number"))
        };
        match word.as_str() {
            "--seed" => options.seed = number()?,
            "--inputs" => options.inputs = number()?,
            "--first" => options.first = Some(number()?),
            "--threads" => options.threads = number()?.clamp(1, 64) as usize,
            "--exact" => options.layout = Layout::Exact,
            "--rooms" => options.sources = vec![Source::Rooms],
            "--format" => {
                let asked = number()?;
                let mut formats = FORMATS.into_iter();
                let format = formats.find(|format| u64::from(format.number()) == asked);
                let format = format.ok_or(format!("there is no format {asked}"))?;
                options.sources = vec![Source::Format(format)];
            }
            _ => return Err(format!("{word} is no option")),
        }
    }
    Ok(options)
}

/// The fixed cases, unless the run starts at a given input, and then the inputs of all formats and the
/// room files in turn.
fn tasks(options: &Options) -> Vec<Task> {
    let mut tasks = Vec::new();
    if options.first.is_none() {
        tasks.extend((0..GROUPS.len()).map(|group| Task::Fixed { group }));
    }
    let first = options.first.unwrap_or(0);
    let end = first + options.inputs;
    for from in (first..end).step_by(CHUNK as usize) {
        let to = end.min(from + CHUNK);
        for &source in &options.sources {
            tasks.push(Task::Generated { source, from, to });
        }
    }
    tasks
}

fn run(options: &Options) -> Vec<Outcome> {
    let tasks = tasks(options);
    let next = AtomicUsize::new(0);
    let ended = AtomicUsize::new(0);
    let outcomes = Mutex::new(Vec::new());
    // A memory checker makes everything slower.
    let limit = Duration::from_secs(match options.layout {
        Layout::Guarded => 60,
        Layout::Exact => 600,
    });
    let work = |number| {
        crash::this_is_thread(number);
        loop {
            let task = next.fetch_add(1, Ordering::Relaxed);
            let Some(&what) = tasks.get(task) else { break };
            let outcome = perform(options, task, what);
            outcomes.lock().expect("no thread panics").push(outcome);
        }
        crash::now_at_none();
        ended.fetch_add(1, Ordering::Relaxed);
    };
    thread::scope(|scope| {
        for number in 0..options.threads {
            let work = &work;
            scope.spawn(move || work(number));
        }
        crash::watch(|| ended.load(Ordering::Relaxed) == options.threads, limit);
    });
    outcomes.into_inner().expect("no thread panics")
}

fn perform(options: &Options, task: usize, what: Task) -> Outcome {
    let mut compare = Comparison::new(options.layout);
    match what {
        Task::Fixed { group } => {
            compare.start_group(group);
            let (_, cases) = GROUPS[group];
            cases(&mut compare);
        }
        Task::Generated { source, from, to } => {
            for number in from..to {
                let mut random = Random::of_input(options.seed, source.number(), number);
                match source {
                    Source::Format(format) => {
                        compare.next_input(Input::Generated {
                            format: format.number(),
                            number,
                        });
                        generated(&mut compare, &mut random, format);
                    }
                    Source::Rooms => {
                        compare.next_input(Input::Room { number });
                        generated_room(&mut compare, &mut random);
                    }
                }
            }
        }
    }
    Outcome {
        task,
        difference: compare.difference.take(),
        tally: compare.tally,
    }
}

/// Draws one input of a format and makes the calls on it.
fn generated(compare: &mut Comparison, random: &mut Random, format: Format) {
    // Of ONIE there are vendor blocks besides.
    let kinds = match format {
        Format::Onie => 1_300,
        _ => 1_000,
    };
    // A full image of 65,536 bytes takes long.
    let full_once_in = match format {
        Format::Fboss | Format::Vpd => 15,
        Format::Tiny | Format::Onie => 1,
    };
    match random.below(kinds) {
        0 | 1 => {
            let image = generate::large(random, format).bytes();
            plan::on_image(compare, random, format, &image);
        }
        2 | 3 => {
            let list = fields::large(random, format);
            plan::on_fields(compare, random, format, &list.bytes(), &list.values);
        }
        4 => {
            let image = generate::valid(random, format).bytes();
            plan::on_beginnings(compare, format, &image[..image.len().min(300)]);
        }
        5..=29 => {
            let image = damage::noise(random, format);
            plan::on_image(compare, random, format, &image);
        }
        30..=44 if random.once_in(full_once_in) => {
            let image = generate::nearly_full(random, format).bytes();
            plan::on_image(compare, random, format, &image);
        }
        30..=299 => {
            let image = generate::valid(random, format).bytes();
            plan::on_image(compare, random, format, &image);
        }
        300..=679 => {
            let image = generate::valid(random, format);
            let image = damage::damaged(random, image);
            plan::on_image(compare, random, format, &image);
        }
        680..=999 => {
            let edition = random.pick(format.editions());
            let list = fields::list(random, format, edition);
            plan::on_fields(compare, random, format, &list.bytes(), &list.values);
        }
        1_000..=1_149 => {
            let image = vendor::amplifier(random).bytes();
            plan::on_image(compare, random, format, &image);
        }
        1_150..=1_199 => {
            let image = vendor::amplifier(random);
            let image = damage::damaged(random, image);
            plan::on_image(compare, random, format, &image);
        }
        _ => {
            let writing = vendor::writing(random);
            plan::on_writing(compare, random, &writing);
        }
    }
}

/// Draws one room file and makes the calls on it.
fn generated_room(compare: &mut Comparison, random: &mut Random) {
    let file = match random.below(1_000) {
        0..=3 => {
            let mut file = room::file(&room::large(random));
            if random.once_in(8) {
                file.resize(LONGEST + 1, 0x00);
            }
            file
        }
        4 | 5 => {
            let mut file = room::file(&room::boards(random));
            file.truncate(400);
            return room_plan::on_beginnings(compare, &file);
        }
        6..=29 => room::noise(random),
        30..=499 => room::file(&room::boards(random)),
        _ => {
            let boards = room::boards(random);
            room::damaged(random, boards)
        }
    };
    room_plan::on_room(compare, random, &file);
}
