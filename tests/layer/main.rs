//! The library beside the reference, on random lists of calls over right and damaged tables.
//! After every call the answer, the request area and, by the list in docs/MEMORY.md, the working
//! memory must be as the reference says. So too over memories that no list of calls has left: the
//! reference then goes on from the state that is stored there, or refuses with 6. A group is one
//! of the calls; its status list must be as the reference says, and single sends must leave the
//! same. So are begins and drains of journey sheets; sheet and text must be as the reference says,
//! single receives must leave the same memory, and journeys.rs works out all numbers anew. Of an
//! object with filter 14 the row of filterings must be as rows.rs says, and the bits of readings
//! that overlap as kept.rs says; in most tables some do. Half of the objects are signed. Arguments,
//! both optional: the seed, the least number of calls. With `--cfg own` a second copy of the
//! reference stands in for the library, to try the test alone.

mod act;
mod call;
mod cases;
mod events;
mod group;
mod group_cases;
mod journeys;
mod kept;
mod library;
mod list;
mod make;
mod make_group;
mod make_sheet;
mod memories;
mod met;
mod met_group;
mod met_sheet;
mod met_signed;
mod ranges;
mod records;
mod reference;
mod rows;
mod sheet;
mod sheet_cases;
mod signed_cases;
mod stored;
#[allow(dead_code)]
#[path = "../table.rs"]
mod table;

use act::Act;
use call::Call;
use list::{Lent, List};
use make_sheet::act;
use met::Met;
use reference::Layer;
use table::Run;

struct Test {
    seed: u64,
    run: Run,
    right_tables: u64,
    overlapping: u64,
    wrong_tables: u64,
    calls: u64,
    met: Met,
    last_memory: Vec<u8>,
    last_sheets: Vec<Vec<u8>>,
}

impl Test {
    fn right_table(&mut self, table: &[u8]) {
        self.right_tables += 1;
        self.run.compare(table);
        self.met.note_signed_objects(table);
        let lent = self.lent();
        let (m, a) = (lent.0.len(), lent.1.len());
        let mut list = List::new(table, lent);
        self.overlapping += records::overlap(&list.reference.objects) as u64;
        for _ in 0..self.run.below(3) {
            let made = act(&mut self.run, &list.reference, 0);
            list.over(self, &made, list.memory.clone());
        }
        list.compare(self, &Act::Call(Call::Start), m, a);
        self.begin_sheets(&mut list);
        self.journey(&mut list);
        self.filter_often(&mut list);
        self.compare_often(&mut list);
        let style = self.run.below(4);
        for _ in 0..50 + self.run.below(500) {
            let made = act(&mut self.run, &list.reference, style);
            list.step(self, &made);
        }
        self.met.note_judged(&list.reference.objects);
        self.last_memory = list.memory;
        self.last_sheets = list.sheets;
    }

    /// Begins most sheets of a list, where the table has a queue.
    fn begin_sheets(&mut self, list: &mut List) {
        for sheet in 0..list.sheets.len() {
            let queued = list.reference.objects.iter().any(|o| o.depth > 0);
            if queued && self.run.below(4) > 0 {
                let made = Act::Sheet(make_sheet::begin(&mut self.run, &list.reference, sheet));
                list.step(self, &made);
            }
        }
    }

    /// In most lists that have a queue, a sheet of few objects with many arrivals.
    fn journey(&mut self, list: &mut List) {
        let queued = list.reference.objects.iter().any(|o| o.depth > 0);
        if !queued || list.reference.stopped || self.run.below(3) == 0 {
            return;
        }
        let begin = make_sheet::short_begin(&mut self.run, &list.reference, 0);
        list.compare(self, &Act::Sheet(begin.clone()), list.memory.len(), 256);
        let (objects, drains) = (begin.objects(&list.sheets), self.run.pick(&[1, 1, 6]));
        for _ in 0..100 + self.run.below(100) {
            let made = make_sheet::on_the_way(&mut self.run, &list.reference, &objects, drains);
            list.step(self, &made);
        }
    }

    /// In one of five lists that have an object with filter 14, hundreds of its filterings.
    fn filter_often(&mut self, list: &mut List) {
        let object = make::often_filtered(&mut self.run, &list.reference);
        if let (Some(object), 0) = (object, self.run.below(5)) {
            for _ in 0..300 + self.run.below(300) {
                let made = make_group::filtering(&mut self.run, &list.reference, object);
                list.step(self, &made);
            }
        }
    }

    /// In a list with signed objects whose filters compare, some filterings of a few of them.
    fn compare_often(&mut self, list: &mut List) {
        for _ in 0..self.run.below(10) {
            let object = make::signed::comparing(&mut self.run, &list.reference);
            for object in object.iter().cycle().take(16) {
                let made = make::signed::compare(&mut self.run, &list.reference, *object);
                list.step(self, &Act::Call(made));
            }
        }
    }

    /// The check alone, on tables that have a wrong order.
    fn wrong_orders(&mut self, right: &[u8]) {
        for _ in 0..4 {
            let mut table = right.to_vec();
            make::signed::wrong_order(&mut self.run, &mut table);
            self.run.compare(&table);
            self.met.note_wrong_order(&table);
        }
    }

    /// With a wrong table every call, start too, answers 5, whatever else is wrong.
    fn wrong_table(&mut self, right: &[u8]) {
        let (table, layer) = (make::wrong(&mut self.run, right), Layer::new(right));
        self.wrong_tables += 1;
        self.run.compare(&table);
        let lent = self.lent();
        let mut list = List::new(&table, lent);
        list.step(self, &Act::Call(Call::Start));
        for n in 0..self.run.below(20) {
            let made = match n {
                0 => Act::Sheet(make_sheet::begin(&mut self.run, &layer, 0)),
                _ => act(&mut self.run, &layer, 0),
            };
            list.step(self, &made);
        }
    }

    /// A memory with anything in it, or as the last right table has left it; an area; sheets.
    fn lent(&mut self) -> Lent {
        let mut memory = make::memory(&mut self.run);
        if self.run.below(3) == 0 {
            memory = self.last_memory.clone();
        }
        let mut area = vec![0; 256 + self.run.below(40)];
        make::scramble(&mut self.run, &mut area);
        let sheets = make_sheet::sheets(&mut self.run, &self.last_sheets);
        (memory, area, sheets)
    }
}

fn main() {
    let mut arguments = std::env::args().skip(1).map(|a| a.parse::<u64>().expect("a number"));
    let (seed, least) = (arguments.next().unwrap_or(1), arguments.next().unwrap_or(100_000));
    cases::run();
    group_cases::run();
    sheet_cases::run();
    signed_cases::run();
    let random = seed.wrapping_mul(0x9E37_79B9_7F4A_7C15) | 1;
    let run = Run { random, counts: [0; 4] };
    let (last_memory, last_sheets) = ([0xA5; 8192].to_vec(), Vec::new());
    let (right_tables, overlapping, wrong_tables, calls, met) = (0, 0, 0, 0, Met::new());
    let mut test = Test {
        seed,
        run,
        right_tables,
        overlapping,
        wrong_tables,
        calls,
        met,
        last_memory,
        last_sheets,
    };
    while test.calls < least {
        let table = make::right(&mut test.run);
        test.right_table(&table);
        test.wrong_orders(&table);
        test.wrong_table(&table);
    }
    print!("layer: {} right and {} wrong tables, ", test.right_tables, test.wrong_tables);
    println!("in {} readings overlap, {} calls agree", test.overlapping, test.calls);
    test.met.print();
    let mut missing = test.met.missing();
    if 2 * test.overlapping <= test.right_tables {
        missing.push(String::from("most tables with readings that overlap"));
    }
    if !missing.is_empty() {
        println!("layer: never met: {}", missing.join(", "));
        std::process::exit(1);
    }
}
