//! Tables and searches that own their memory, on document 01's table K.
use readings::{Answer, Refusal, Search, Table, Task, limits};
use std::thread;

const K: &str = "010003000100020005\n020000\n030001\n030002\n\
                 04000001010001\n04000002020002\n04000102020002\n\
                 04000100030000\n04000200030000\n050009\n";

/// The cells of the classes, none of them defined.
const NO_CLASSES: [u16; limits::MOST_CLASSES * limits::CLASS_LETTERS] = [0; 128];

fn k() -> Table {
    Table::read(K).expect("table K")
}

fn all(search: Search) -> Vec<Vec<u8>> {
    search.collect()
}

#[test]
fn every_task_lists_its_readings() {
    let k = k();
    let two = [vec![1, 2], vec![1, 3, 2]];
    assert_eq!(all(k.synthesis(&[1, 2]).unwrap()), two);
    assert_eq!(all(k.analysis(&[1, 3, 2]).unwrap()), [[1, 2]]);
    assert_eq!(all(k.recognition(&[1, 2], &[1, 3, 2]).unwrap()), [[]]);
    assert!(all(k.synthesis(&[]).unwrap()).is_empty());
}

#[test]
fn a_call_makes_the_steps_that_it_tells() {
    let k = k();
    let mut search = k.synthesis(&[1, 2]).unwrap();
    assert_eq!(search.advance(0), Answer::Paused { steps: 0 });
    let found = Answer::Found {
        steps: 3,
        length: 2,
    };
    assert_eq!(search.advance(3), found);
    assert_eq!(search.reading(), [1, 2]);
    assert_eq!(search.advance(7), Answer::Paused { steps: 7 });
    let mut place = search.clone();
    assert_eq!(place.next(), Some(vec![1, 3, 2]));
    assert_eq!(place.next(), None);
    assert_eq!(place.next(), None);
    let found = Answer::Found {
        steps: 1,
        length: 3,
    };
    assert_eq!(search.advance(7), found);
    assert_eq!(search.reading(), [1, 3, 2]);
    assert_eq!(search.advance(9), Answer::Ended { steps: 9 });
    assert_eq!(search.advance(9), Answer::Ended { steps: 0 });
}

#[test]
fn a_start_tells_why_it_is_refused() {
    let refused = |table: &Table, task, upper: &[u8], lower: &[u8]| {
        let refused = Search::start(table, task, upper, lower).unwrap_err();
        (refused.refusal, refused.cycle)
    };
    let k = k();
    let unread = refused(&k, Task::Analysis, &[1], &[1]);
    assert_eq!(unread, (Refusal::TaskFault, vec![]));
    let long = refused(&k, Task::Synthesis, &[1; limits::MOST_WORD + 1], &[]);
    assert_eq!(long, (Refusal::WordFault, vec![]));
    let high = refused(&k, Task::Synthesis, &[limits::MOST_LETTER + 1], &[]);
    assert_eq!(high, (Refusal::WordFault, vec![]));
    // States 1, which is initial, and 2 lead to each other and read nothing above.
    let cells = [
        &[3, 1, 0, 2],
        &NO_CLASSES[..],
        &[1, 1, 0, 5, 2, 0, 2, 0, 0, 1, 0],
    ];
    let table = Table::from_cells(&cells.concat()).unwrap();
    let round = refused(&table, Task::Synthesis, &[], &[]);
    assert_eq!(round, (Refusal::IdleCycle, vec![1, 2]));
    assert!(table.analysis(&[]).is_ok());
}

/// Arcs that read nothing, from state 0 first to one state and then to another, and back from both.
#[test]
fn the_order_of_arcs_does_not_decide_which_cycle_is_shown() {
    for (one, other) in [(1, 2), (2, 1)] {
        let cells = [
            [3, 1, 0, 4].as_slice(),
            &NO_CLASSES,
            &[0],
            &[0, 0, 5, one, 0],
            &[0, 0, 5, other, 0],
            &[1, 0, 0, 0, 0],
            &[2, 0, 0, 0, 0],
        ];
        let table = Table::from_cells(&cells.concat()).unwrap();
        assert_eq!(table.synthesis(&[]).unwrap_err().cycle, [0, 1]);
    }
}

#[test]
fn tables_are_read_and_written() {
    let k = k();
    assert_eq!(k.text(), K);
    assert_eq!(k.states(), 3);
    assert_eq!(k.cells()[..4], [3, 1, 2, 5]);
    assert_eq!(k.cells()[4..132], NO_CLASSES);
    assert_eq!(k.cells()[132..135], [0, 1, 2]);
    let mut cells = k.cells().to_vec();
    cells.push(7);
    assert_eq!(Table::from_cells(&cells).unwrap(), k);
    cells.truncate(k.cells().len() - 1);
    assert_eq!(Table::from_cells(&cells), Err(Refusal::LoadedTable));
    assert_eq!(Table::from_cells(&[]), Err(Refusal::LoadedTable));
}

/// Classes 1 and 7, and an arc of each.
#[test]
fn classes_are_read_and_written() {
    let text = "010001000100010002\n06010203\n0607013F\n020000\n030000\n04000041410000\n04000047470000\n050007\n";
    let table = Table::read(text).unwrap();
    assert_eq!(table.text(), text);
    let row = |class: usize| &table.cells()[4 + 16 * class..][..16];
    assert_eq!(row(1), [&[2, 3], &[0; 14][..]].concat());
    assert_eq!(row(7), [&[1, 63], &[0; 14][..]].concat());
    for class in [0, 2, 3, 4, 5, 6] {
        assert_eq!(row(class), [0; 16]);
    }
    assert_eq!(table.cells()[134..], [0, 65, 65, 0, 0, 0, 71, 71, 0, 0]);
    assert_eq!(Table::from_cells(table.cells()).as_ref(), Ok(&table));
    let word = [3, 63, 2, 1];
    assert_eq!(all(table.synthesis(&word).unwrap()), [word]);
    assert_eq!(all(table.analysis(&word).unwrap()), [word]);
    assert!(all(table.synthesis(&[4]).unwrap()).is_empty());
    assert_eq!(
        table.synthesis(&[65]).unwrap_err().refusal,
        Refusal::WordFault
    );
}

/// Table K, where the arcs that write 03 have penalties 7 and 255.
#[test]
fn penalties_are_read_and_written() {
    let text = K
        .replace("04000100030000", "0700010003000007")
        .replace("04000200030000", "07000200030000FF");
    let table = Table::read(&text).unwrap();
    assert_eq!(table.text(), text);
    let arcs = &table.cells()[135..];
    let penalties: Vec<u16> = arcs.iter().skip(4).step_by(5).copied().collect();
    assert_eq!(penalties, [0, 0, 0, 7, 255]);
    let under = |ceiling| Search::start_under(&table, Task::Synthesis, ceiling, &[1, 2], &[]);
    assert_eq!(all(under(6).unwrap()), [[1, 2]]);
    assert_eq!(all(under(7).unwrap()), [vec![1, 2], vec![1, 3, 2]]);
    assert_eq!(all(table.analysis(&[1, 3, 2]).unwrap()), [[1, 2]]);
    let over = under(limits::MOST_CEILING + 1).unwrap_err();
    assert_eq!((over.refusal, over.cycle), (Refusal::CeilingLimit, vec![]));
    assert_eq!(
        Table::read(text.replace("03000007", "03000000")),
        Err(Refusal::Misplaced)
    );
    let mut cells = table.cells().to_vec();
    *cells.last_mut().unwrap() = 256;
    assert_eq!(Table::from_cells(&cells), Err(Refusal::LoadedTable));
}

#[test]
fn a_text_is_refused_by_name() {
    let end = |arcs: &str, lines| format!("01000200010000{arcs}\n020000\n05000{lines}\n");
    assert!(Table::read(end("0000", 2)).is_ok());
    for (text, refusal) in [
        ("x\n".to_string(), Refusal::Malformed),
        (String::new(), Refusal::Misplaced),
        (end("0401", 2), Refusal::CountLimit),
        (
            end("0000", 2).replace("020000", "020002"),
            Refusal::StateNumber,
        ),
        (end("0001\n040000400000", 3), Refusal::Misplaced),
        (end("0000", 3), Refusal::LineCount),
        (K.replace("04000001", "04000048"), Refusal::LetterLimit),
        (K.replace("04000001", "04000040"), Refusal::ClassFault),
        (K.replace("030002", "030001"), Refusal::StateOrder),
        (
            K.replace("04000200030000", "04000000030000"),
            Refusal::SourceOrder,
        ),
        (
            K.replace("04000002020002", "04000001010001"),
            Refusal::ArcRepeated,
        ),
    ] {
        assert_eq!(Table::read(&text), Err(refusal), "{text}");
    }
}

#[test]
fn refusals_have_numbers_and_meanings() {
    let numbers: Vec<u32> = Refusal::ALL.iter().map(|r| *r as u32).collect();
    let expected: Vec<u32> = (1..=12).chain(20..=24).chain(30..=34).chain([39]).collect();
    assert_eq!(numbers, expected);
    for number in 0..100 {
        let named = Refusal::of(number).map(|refusal| refusal as u32);
        assert_eq!(named, expected.contains(&number).then_some(number));
    }
    let said = Refusal::StackFull.to_string();
    assert!(said.starts_with("the stack is full"), "{said}");
}

#[test]
fn threads_share_a_table() {
    let k = k();
    thread::scope(|scope| {
        let search = || all(k.synthesis(&[1, 2]).unwrap());
        let threads: Vec<_> = (0..4).map(|_| scope.spawn(search)).collect();
        for thread in threads {
            let readings = thread.join().expect("a search");
            assert_eq!(readings, [vec![1, 2], vec![1, 3, 2]]);
        }
    });
}
