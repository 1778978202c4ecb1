//! The model meets document 01's worked cases; so it is the document that the compiled functions are compared with.

use host::model::charges::{charge, w};
use host::model::table::{plan, Columns, Figures, Job, Planned, Request};
use host::model::{call, file, tree, HIGHEST_LIMIT};

fn main() {
    case_1();
    case_2();
    cases_3_4_and_8();
    cases_5_and_6();
    case_7();
    case_9();
    case_10();
    println!("worked cases: the model meets cases 1 to 10");
}

fn filled(counts: &[u32], divisors: &[u32], model: u32, limit: u64) -> (Planned, Columns) {
    let n = counts.len() as u32;
    let mut figures = Figures {
        counts: counts.to_vec(),
        divisors: divisors.to_vec(),
    };
    let mut table = Columns::zeros(n);
    let planned = plan(
        Request::Fill,
        Job { n, model, limit },
        &mut figures,
        &mut table,
    );
    (planned, table)
}

fn done(cost: u64, size: u32) -> Planned {
    Planned {
        number: 0,
        cost,
        size,
    }
}

fn printed(n: u32, table: &Columns) -> String {
    let mut room = vec![0; tree::needed(n)];
    let printed = tree::print(n, &table.costs, &table.lefts, &mut room);
    assert_eq!((printed.number, printed.length), (0, room.len()));
    String::from_utf8(room).expect("the tree is text")
}

fn case_1() {
    let (planned, table) = filled(&[10], &[], 0, 0);
    assert_eq!(planned, done(0, 10));
    assert_eq!(printed(1, &table), "1;");
}

fn case_2() {
    let widest = [u32::MAX; 2];
    let held = u64::from(u32::MAX);
    assert_eq!(filled(&widest, &[1], 0, held).0, done(held, u32::MAX));
    assert_eq!(filled(&widest, &[1], 0, held - 1).0.number, 7);
}

fn cases_3_4_and_8() {
    let mut figures = Figures {
        counts: vec![10, 20, 30],
        divisors: vec![10, 1, 7],
    };
    let job = Job {
        n: 3,
        model: 0,
        limit: HIGHEST_LIMIT,
    };
    let mut table = Columns::zeros(3);
    let planned = plan(Request::Fill, job, &mut figures, &mut table);
    assert_eq!(planned, done(106, 86));
    assert_eq!(table.sizes, [0, 10, 20, 20, 30, 300, 86, 86]);
    assert_eq!(printed(3, &table), "((1,2),3);");
    let short = tree::print(3, &table.costs, &table.lefts, &mut [0; 9]);
    assert_eq!((short.number, short.length), (9, 0));

    let edit = Request::EditCount { k: 2, value: 2_000 };
    assert_eq!(
        plan(edit, job, &mut figures, &mut table),
        done(8_872, 8_572)
    );
    assert_eq!(printed(3, &table), "(2,(1,3));");
}

fn cases_5_and_6() {
    assert_eq!([w(0), w(1), w(200), w(8_000)], [0, 1, 1_600, 104_000]);
    assert_eq!(charge(2, 10, 20, 200), 42);
    assert_eq!(charge(2, 0, 5, 0), 0);
}

fn case_7() {
    assert_eq!(filled(&[0, 5], &[1], 0, HIGHEST_LIMIT).0, done(0, 0));
}

fn after_line_1(rest: &str) -> Vec<u8> {
    [file::HEADING, b"\n", rest.as_bytes()].concat()
}

fn case_9() {
    let missing = file::read(&after_line_1("2 2 1\n1 1 10\n"));
    assert_eq!((missing.number, missing.place), (12, 64));
    let outside = file::read(&after_line_1("2 2 2\n1 1 10\n1 2 5\n"));
    assert_eq!((outside.number, outside.place), (14, 64));
}

fn case_10() {
    let text = after_line_1("4 4 4\n1 1 10\n2 2 20\n3 3 30\n4 4 40\n");
    for (model, cost) in [(0, 241_000), (1, 10_130), (2, 48_270)] {
        let (planned, _) = filled(&[10, 20, 30, 40], &[1; 6], model, HIGHEST_LIMIT);
        assert_eq!(planned, done(cost, 240_000));
        let mut room = [0; 64];
        let answer = call::plan_text(&text, model, HIGHEST_LIMIT, &mut room);
        assert_eq!(answer, 1_014);
        assert_eq!(&room[..14], b"((2,3),(1,4));");
    }
}
