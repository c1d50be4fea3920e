//! The package `readings` against the lister: whole searches, and outputs that are too short; the cycles that it shows; its tables of word
//! lists against the tree; and its sheets against the layout.
use readings::lending::{self, Run};
use readings::{Answer, Faces, Refusal, Search, StartRefused, Table, Task, limits};
use readings_check::compare::page::Page;
use readings_check::draw::{self, Asked, lists};
use readings_check::engine::Sheets;
use readings_check::idle;
use readings_check::lister;
use readings_check::model::Model;
use readings_check::random::Random;
use readings_check::words;

const TASKS: [Task; 3] = [Task::Recognition, Task::Synthesis, Task::Analysis];

/// A table, a task, words and a ceiling whose whole search is short, with its readings.
struct Case {
    table: Table,
    task: Task,
    ceiling: u32,
    upper: Vec<u8>,
    lower: Vec<u8>,
    readings: Vec<Vec<u8>>,
}

fn draw(random: &mut Random) -> Option<Case> {
    let task = *random.pick(&TASKS);
    let number = task as u32;
    let table = draw::table(random, number, true);
    let Asked {
        upper,
        lower,
        ceiling,
    } = draw::asked(random, &table, number);
    let listing = lister::list_under(&table, number, ceiling, &upper, &lower, 20_000);
    let readings = listing.readings.into_iter().map(|r| r.letters).collect();
    listing.whole.then(|| Case {
        table: Table::from_cells(&table.cells()).expect("a table that keeps the rules"),
        task,
        ceiling,
        upper,
        lower,
        readings,
    })
}

fn series(seed: u64, mut see: impl FnMut(Case)) {
    let cases = (0..2_000).filter_map(|case| draw(&mut Random::of_case(seed, case)));
    let mut readings = 0;
    for asked in cases {
        readings += asked.readings.len();
        see(asked);
    }
    assert!(readings > 5_000, "only {readings} readings");
}

#[test]
fn a_search_lists_the_readings() {
    series(0x5EA2C4, |asked| {
        let Case { table, task, .. } = &asked;
        let search = Search::start_under(table, *task, asked.ceiling, &asked.upper, &asked.lower);
        let listed: Vec<Vec<u8>> = search.expect("no idle cycle").collect();
        assert_eq!(listed, asked.readings);
    });
}

/// Every reading over an output that is empty until a call is refused, and then has as many letters as frames are in use.
fn stretched(asked: &Case) -> (Vec<Vec<u8>>, usize) {
    let (cells, upper, lower) = (asked.table.cells(), &asked.upper, &asked.lower);
    let frames = limits::stack_cells(upper.len() + lower.len(), asked.table.states());
    let (mut run, mut stack) = (
        Run::under(asked.task as u32, asked.ceiling),
        vec![0; frames],
    );
    let (mut readings, mut refused) = (Vec::new(), 0);
    let (mut output, mut allowance) = (Vec::new(), u32::MAX);
    loop {
        let reply = lending::next(
            cells,
            upper,
            lower,
            &mut run,
            &mut stack,
            allowance,
            &mut output,
        );
        match reply.answer() {
            Answer::Found { length, .. } => {
                readings.push(output[..length].to_vec());
                (output, allowance) = (Vec::new(), u32::MAX);
            }
            Answer::Refused { refusal, .. } => {
                assert_eq!((refusal, allowance), (Refusal::OutputFull, u32::MAX));
                (output, allowance) = (vec![0; run.depth as usize], 1);
                refused += 1;
            }
            Answer::Ended { .. } => return (readings, refused),
            Answer::Paused { .. } => panic!("the refused step is the next one"),
        }
    }
}

#[test]
fn after_23_as_many_letters_as_frames_are_enough() {
    let mut refused = 0;
    series(0x0023, |asked| {
        let (readings, times) = stretched(&asked);
        let written = readings.iter().filter(|letters| !letters.is_empty());
        assert_eq!(times, written.count());
        assert_eq!(readings, asked.readings);
        refused += times;
    });
    assert!(refused > 1_000, "only {refused} refusals");
}

#[test]
fn a_refused_start_shows_its_cycle() {
    let mut refused = 0;
    for case in 0..2_000 {
        let random = &mut Random::of_case(0x12C7, case);
        let task = *random.pick(&TASKS);
        let drawn = draw::knotted(random, task as u32);
        let table = Table::from_cells(&drawn.cells()).expect("a table that keeps the rules");
        let told = Search::start(&table, task, &[], &[]).err();
        let shown = idle::shown(&drawn, task as u32);
        refused += usize::from(shown.is_some());
        let expected = shown.map(|cycle| StartRefused {
            refusal: Refusal::IdleCycle,
            cycle,
        });
        assert_eq!(told, expected, "on {drawn:?}");
    }
    assert!(refused > 1_000, "only {refused} cycles");
}

/// Good lists, and with words of any length in any place.
#[test]
fn a_table_of_words_is_as_the_tree_has_it() {
    let mut refused = [0; 33];
    for case in 0..4_000 {
        let random = &mut Random::of_case(0x3025, case);
        let mut list = lists::any(random);
        for _ in 0..random.below(3) {
            let at = random.below(list.len() + 1);
            let length = *random.pick(&[0, 1, 2, 64, 65, 255, 256, 257, 300]);
            list.insert(at, vec![random.within(1, 3) as u8; length]);
        }
        let spelled: Vec<Vec<u8>> = list
            .iter()
            .map(|word| word[..word.len().min(255)].to_vec())
            .collect();
        let expected = words::parse(&words::packed(&spelled)).map(|table| table.cells());
        let made = Table::from_words(&list).map(|table| table.cells().to_vec());
        let made = made.map_err(|refusal| refusal as u32);
        refused[*made.as_ref().err().unwrap_or(&0) as usize] += 1;
        assert_eq!(made, expected, "on {list:?}");
    }
    let seen = [0, 30, 31, 32].map(|number| refused[number]);
    assert!(seen.iter().all(|count| *count > 200), "only {seen:?}");
}

#[test]
fn a_sheet_is_as_the_layout_has_it() {
    for case in 0..2_000 {
        let random = &mut Random::of_case(0x53EE7, case);
        let page = Page {
            faces: draw::faces(random),
            ended: random.below(2) as u32,
            ..Page::new(draw::readings(random))
        };
        let mut expected = vec![0; page.size()];
        let answer = Model.sheet(page.sheet(&page.lent()), &mut expected);
        assert!(!answer.is_refused(), "{answer:?} on {page:?}");
        let faces = Faces::new(&page.faces).expect("faces that keep the rules");
        let sheet = readings::sheet(&page.list, &faces, page.ended != 0);
        assert_eq!(sheet.map(String::into_bytes), Ok(expected), "on {page:?}");
    }
}
