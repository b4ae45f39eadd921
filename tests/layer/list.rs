//! One table with the library and the reference over it, and the calls that are played on both.

use crate::act::Act;
use crate::call::Call;
use crate::group::Group;
use crate::journeys::Journeys;
use crate::kept::Latest;
use crate::library::Library;
use crate::make_sheet::act;
use crate::met::Event;
use crate::reference::Layer;
use crate::rows::Rows;
use crate::sheet::{OnSheet, What};
use crate::table::Answer;
use crate::{make, make_sheet, memories, ranges, stored, Test};

/// The most calls over one changed memory.
const CHANGED_CALLS: usize = 8;

/// Working memory, request area and sheets.
pub type Lent = (Vec<u8>, Vec<u8>, Vec<Vec<u8>>);

/// One table with the two layers over it and what is lent to the library.
pub struct List<'a> {
    table: &'a [u8],
    pub reference: Layer,
    library: Library,
    pub memory: Vec<u8>,
    area: Vec<u8>,
    pub sheets: Vec<Vec<u8>>,
    /// The text of the last drain.
    text: Vec<u8>,
    /// The bytes of the memory that docs/MEMORY.md names; empty where the table is wrong.
    named: Vec<bool>,
    rows: Rows,
    latest: Latest,
    journeys: Journeys,
    /// Whether the memory is one that no list of calls need have left.
    changed: bool,
}

impl List<'_> {
    pub fn new(table: &[u8], (memory, area, sheets): Lent) -> List<'_> {
        let reference = Layer::new(table);
        let named = if reference.table_right { ranges::named(table) } else { Vec::new() };
        let (library, rows, changed) = (Library::new(table), Rows::new(&reference), false);
        let (latest, journeys) = (Latest::new(&reference), Journeys::new(sheets.len()));
        List {
            table,
            reference,
            library,
            memory,
            area,
            sheets,
            text: Vec::new(),
            named,
            rows,
            latest,
            journeys,
            changed,
        }
    }

    fn differ(&self, test: &Test, act: &Act, what: &str) -> ! {
        let at = format!("seed {}, call {}", test.seed, test.calls);
        let over = if self.changed { "over a changed memory: " } else { "" };
        println!("layer: {at}: {act:?}: {over}{what}");
        let hex: Vec<String> = self.table.iter().map(|b| format!("{b:02X}")).collect();
        println!("table, {} bytes: {}", self.table.len(), hex.join(" "));
        std::process::exit(1)
    }

    /// One call on both sides, with the first `m` bytes of memory and the first `a` of the area,
    /// and the document's answer. The reference is told whether the memory is in its ranges.
    fn both(&mut self, test: &Test, act: &Act, m: usize, a: usize, in_range: bool) -> Answer {
        let before = (self.memory.clone(), self.area.clone());
        let (mut area, mut list) = (self.area.clone(), act.lists(&self.sheets));
        let mut lists = list.clone();
        let ours = act.by_reference(&mut self.reference, m, in_range, &mut area[..a], &mut list);
        let lent = (&mut self.memory[..m], &mut self.area[..a]);
        let theirs = act.by_library(&mut self.library, self.table, lent.0, lent.1, &mut lists);
        if theirs != ours {
            self.differ(test, act, &format!("document {ours:?}, library {theirs:?}"));
        }
        let at = (0..area.len()).find(|&i| area[i] != self.area[i]);
        let in_area = at.map(|at| (String::from("area"), at, area[at], self.area[at]));
        if let Some((name, at, ours, theirs)) = in_area.or_else(|| list.difference(&lists)) {
            let what = format!("byte {at} of the {name}: document {ours}, library {theirs}");
            self.differ(test, act, &what);
        }
        self.look_at_memory(test, act, act.refused_by(ours.number), &before.0);
        match act {
            Act::Group(group) if theirs.number != 2 => {
                self.look_at_sends(test, group, theirs, &lists.statuses, before, (m, a));
            }
            Act::Sheet(on) if theirs.number == 0 => self.look_at_receives(test, on, before.0),
            _ => {}
        }
        self.sheets = lists.sheets;
        self.text = lists.text;
        ours
    }

    /// After a group that was not refused for its form: the library's single sends, over memory
    /// and area as they were before, answer and leave the same; all are refused where it was.
    fn look_at_sends(
        &self,
        test: &Test,
        group: &Group,
        answer: Answer,
        statuses: &[u8],
        (mut memory, mut area): (Vec<u8>, Vec<u8>),
        (m, a): (usize, usize),
    ) {
        let (mut library, mut word, mut numbers) = (self.library.clone(), 0, Vec::new());
        for pair in group.pairs() {
            let lent = (&mut memory[..m], &mut area[..a]);
            let single = library.call(self.table, lent.0, &pair.send(), lent.1);
            word |= single.value;
            numbers.push(single.number as u8);
        }
        let refused = vec![answer.number as u8; numbers.len()];
        let wanted = if answer.number == 0 { &statuses[..group.lent] } else { &refused };
        for (name, same) in [
            ("status", numbers == wanted),
            ("word", word == answer.value),
            ("memory", memory == self.memory),
            ("area", area == self.area),
        ] {
            if !same {
                let act = Act::Group(group.clone());
                self.differ(test, &act, &format!("single sends have another {name}"));
            }
        }
    }

    /// After a drain that was done: the library's own receives, marks and clear marks, over the
    /// memory as it was before, leave the same; a begin leaves it as it was.
    fn look_at_receives(&self, test: &Test, on: &OnSheet, mut memory: Vec<u8>) {
        let mut library = self.library.clone();
        let mut ask = |call: Call| library.call(self.table, &mut memory, &call, &mut []);
        if let What::Drain(..) = on.what {
            for object in on.objects(&self.sheets) {
                // A queue has at most sixteen values.
                let _ = (0..17).any(|_| ask(Call::Receive { object }).number == 4);
                if ask(Call::Marks { object }).value & 4 == 4 {
                    ask(Call::ClearMarks { object });
                }
            }
        }
        // The stand-in puts each changed queue from its first place on.
        if memory != self.memory && !cfg!(own) {
            self.differ(test, &Act::Sheet(on.clone()), "single receives have another memory");
        }
    }

    /// One call on both sides, after a start or as the first one: the memory is in its ranges, or
    /// a start is all that is done.
    pub fn compare(&mut self, test: &mut Test, act: &Act, m: usize, a: usize) {
        let (before, mut sheets) = (self.reference.clone(), self.sheets.clone());
        let ours = self.both(test, act, m, a, true);
        if act.is_start() && !act.refused_by(ours.number) {
            self.start_again(test, act);
        }
        test.calls += 1;
        test.met.note_answer(act, ours, &before, &self.reference);
        for event in self.follow(test, act, ours, &before, &sheets) {
            test.met.note(event, 1);
        }
        if let Act::Sheet(on) = act {
            let (was, is) = (on.of(&mut sheets), on.of(&mut self.sheets));
            let due = before.refusals(on, m, true, was);
            test.met.note_sheet(on, ours, &due, &before, (was, is));
        } else if (ours.number, m < 8192) == (6, false) {
            let event = match act {
                Act::Call(Call::Tick) => Event::ShortAreaTick,
                Act::Group(_) => Event::GroupShortArea,
                _ => Event::ShortAreaSend,
            };
            test.met.note(event, 1);
        }
    }

    /// The rows of filterings, the values kept last and what the sheets got, after a call, with the
    /// layer and the sheets before it; gives what it has met.
    fn follow(
        &mut self,
        test: &Test,
        act: &Act,
        answer: Answer,
        before: &Layer,
        sheets: &[Vec<u8>],
    ) -> Vec<Event> {
        if act.refused_by(answer.number) {
            return Vec::new();
        }
        let rows = self.rows.follow(act, before, &self.reference);
        let latest = self.latest.follow(act, before, &self.reference);
        let journeys = self.journeys.follow(act, before, (sheets, &self.sheets), &self.text);
        let all = rows.and_then(|met| Ok([met, latest?, journeys?].concat()));
        all.unwrap_or_else(|what| self.differ(test, act, &what))
    }

    /// The memory after a call, with `before` as it was.
    fn look_at_memory(&self, test: &Test, act: &Act, refused: bool, before: &[u8]) {
        let changed = |from: usize| (from..before.len()).find(|&i| self.memory[i] != before[i]);
        let kept_from = match act {
            _ if refused => 0,
            Act::Call(Call::Status { .. } | Call::Marks { .. }) => 0,
            Act::Sheet(OnSheet { what: What::Begin(_), .. }) => 0,
            Act::Call(Call::Stop) => 1,
            _ => 8192,
        };
        if let Some(at) = changed(kept_from) {
            self.differ(test, act, &format!("byte {at} of the memory was changed"));
        }
        if refused {
            return;
        }
        for i in 0..8192 {
            let kept = if act.is_start() { 0 } else { before[i] };
            if !self.named[i] && self.memory[i] != kept {
                self.differ(test, act, &format!("byte {i} of the memory, which has no name"));
            }
        }
        if !ranges::in_range(self.table, &self.memory) {
            self.differ(test, act, "a stored number is out of its range");
        }
        if let Some(what) = stored::difference(&self.reference, &self.memory) {
            self.differ(test, act, &format!("stored otherwise: {what}"));
        }
    }

    /// After an accepted start: one over another memory gives the same 8,192 bytes. Then the
    /// bytes without a name may get noise, which no other call may look at or change.
    fn start_again(&mut self, test: &mut Test, act: &Act) {
        let mut other: Vec<u8> = self.memory.iter().map(|b| !b).collect();
        if test.run.below(2) == 0 {
            make::scramble(&mut test.run, &mut other);
        }
        self.library.clone().call(self.table, &mut other, &Call::Start, &mut []);
        if let Some(at) = (0..8192).find(|&i| self.memory[i] != other[i]) {
            self.differ(test, act, &format!("byte {at} depends on the memory before"));
        }
        if test.run.below(2) == 0 {
            for i in 0..8192 {
                if !self.named[i] {
                    self.memory[i] = test.run.below(256) as u8;
                }
            }
        }
    }

    /// A call over another memory, one that was never started or a changed copy, and now and then
    /// more calls. The reference goes on from the state that is stored there. Where a number is
    /// out of its range, it answers 6 up to a start, whatever its state.
    pub fn over(&self, test: &mut Test, first: &Act, memory: Vec<u8>) {
        let mut in_range = ranges::in_range(self.table, &memory);
        let mut count_alone = memories::count_alone(&self.reference, &self.memory, &memory);
        let mut list = List::new(self.table, (memory, self.area.clone(), self.sheets.clone()));
        list.reference = self.reference.clone();
        list.library = self.library.clone();
        list.changed = true;
        if in_range {
            stored::read(&mut list.reference, &list.memory);
        }
        let (m, a) = (list.memory.len(), list.area.len());
        let mut made = first.clone();
        for _ in 0..test.run.pick(&[1, 1, 1, CHANGED_CALLS]) {
            let (before, mut sheets) = (list.reference.clone(), list.sheets.clone());
            let by_sheet = matches!(&made, Act::Sheet(on)
                if before.refusals(on, m, true, on.of(&mut sheets)).contains(&6));
            let zeros = memories::is_zeros(&list.memory) && !by_sheet;
            let ours = list.both(test, &made, m, a, in_range);
            if zeros {
                list.over_zeros(test, &made, ours, in_range);
            }
            test.met.note_changed(&made, ours, in_range, &before);
            if let Some((object, count)) = count_alone.take() {
                test.met.note_count(&made, ours, object, count);
            }
            list.follow(test, &made, ours, &before, &sheets);
            in_range |= made.is_start();
            made = act(&mut test.run, &list.reference, 0);
        }
    }

    /// A call over memory of zeros, which is never that of a running layer: a start alone is done.
    fn over_zeros(&self, test: &mut Test, act: &Act, answer: Answer, in_range: bool) {
        let (event, number) = match (act.is_start(), in_range) {
            (true, _) => (Event::StartOverZeros, 0),
            (_, true) => (Event::ZerosStopped, 7),
            (_, false) => (Event::ZerosOutOfRange, 6),
        };
        if answer.number != number {
            self.differ(test, act, &format!("memory of zeros: {answer:?}, not {number}"));
        }
        test.met.note(event, 1);
    }

    /// A call, now and then with too little memory, too small an area, other contents of the
    /// area, a changed sheet, or first over a changed copy of the memory.
    pub fn step(&mut self, test: &mut Test, act: &Act) {
        let run = &mut test.run;
        let (mut m, mut a) = (self.memory.len(), 256 + run.below(self.area.len() - 255));
        let seldom = if act.is_start() { 4 } else { 50 };
        if run.below(seldom) == 0 {
            let any = run.below(8192);
            m = run.pick(&[0, 1, 16, 8191, any]);
        }
        if run.below(40) == 0 {
            let any = run.below(256);
            a = run.pick(&[0, 8, 255, any]);
        }
        if run.below(30) == 0 {
            make::scramble(run, &mut self.area);
        }
        if self.reference.table_right && run.below(5) == 0 {
            let memory = memories::changed(run, &self.reference, &self.memory);
            self.over(test, act, memory);
        }
        let mut restored = None;
        let seldom = if self.reference.stopped { 2 } else { 4 };
        if let (Act::Sheet(on), 0) = (act, test.run.below(seldom)) {
            let (n, sheets) = (on.number(self.sheets.len()), self.sheets.clone());
            if !make_sheet::damage(&mut test.run, &self.reference, &mut self.sheets[n]) {
                restored = Some(sheets);
            }
        }
        self.compare(test, act, m, a);
        if let (Some(sheets), Act::Sheet(OnSheet { what: What::Drain(..), .. })) = (restored, act) {
            self.sheets = sheets;
        }
    }
}
