//! Files that are no script or no table, empty and very long ones, and files through a pipe.

use crate::known::case_12;
use crate::lines;
use crate::make;
use crate::met::{Event, PIECES};
use crate::program::Piped;
use crate::script;
use crate::table::{ipdu, join, object};
use crate::Test;

/// As many bytes as the longest right table has.
const LONGEST: usize = 16 + 16 * 32 + 32 * 128;

impl Test {
    /// Random bytes, of a few bytes or of many.
    fn noise(&mut self) -> Vec<u8> {
        let most = self.run.pick(&[1, 4, 30, 300, 5000, 70_000]);
        let mut bytes = vec![0; 1 + self.run.below(most)];
        make::scramble(&mut self.run, &mut bytes);
        bytes
    }

    pub fn files(&mut self) {
        for _ in 0..60 {
            let (table, noise) = (make::right(&mut self.run), self.noise());
            self.compare(&table, &noise);
            self.met.note(Event::RandomScript);
            let calls = lines::calls(&mut self.run, &mut script::stopped(&table), 20);
            let (text, table) = (lines::text(&mut self.run, &calls), self.noise());
            self.refused_by_5(&table, &text, 20);
            self.met.note(Event::RandomTable);
            self.compare(&table, b"");
            self.met.note(Event::EmptyScript);
            self.compare(&table, &[&text[..], &noise].concat());
        }
        let ipdus = [ipdu(1, 4, 0, [0, 0, 3, 10, 0]); 32];
        let longest = join(&ipdus, &[object(&[2, 255, 255, 0, 32, 0, 0, 4]); 128]);
        assert_eq!(longest.len(), LONGEST);
        let text = b"tick\nstart\nsend 0 1\nreceive 0\nindication 0 1 00\n";
        self.compare(&longest, text);
        for more in [1, 2, 16, 32, 4096 - LONGEST % 4096, 1 << 20] {
            self.refused_by_5(&[&longest[..], &vec![0; more]].concat(), text, 5);
            self.refused_by_5(&[case_12(), vec![0; more]].concat(), text, 5);
            self.refused_by_5(&vec![0; LONGEST + more], text, 5);
            self.met.note(Event::TooLongTable);
        }
        for cut in [1, 15, 16, 17, 63, LONGEST - 1] {
            self.refused_by_5(&longest[..cut], text, 5);
        }
        self.refused_by_5(b"", text, 5);
        self.compare(b"", b"");
        self.compare(b"", b"start\nstop \n");
        self.met.note(Event::EmptyTable);
    }

    /// With a wrong table each readable line prints 5, a start too.
    fn refused_by_5(&mut self, table: &[u8], text: &[u8], lines: usize) {
        let printed = self.compare(table, text);
        assert_eq!(printed, b"5\n".repeat(lines));
    }

    /// The script, then the table, through a pipe in pieces; the script ends well, in a line that
    /// can't be read, in the middle of a line, or has such a line in the middle.
    pub fn pipes(&mut self) {
        for size in PIECES {
            let count = if size < 100 { 150 } else { 10_000 };
            for end in ["", "tick \n", "tic", "tick"] {
                let table = make::right(&mut self.run);
                let calls = lines::calls(&mut self.run, &mut script::stopped(&table), count);
                let text = [&lines::text(&mut self.run, &calls), end.as_bytes()].concat();
                self.compare_by(&table, &text, Some(Piped::Script(size)));
                self.met.note_piped(Piped::Script(size));
                self.compare_by(&table, &text, Some(Piped::Table(size)));
                self.met.note_piped(Piped::Table(size));
                let broken = [&text[..text.len() / 2], b"\n\n", &text].concat();
                self.compare_by(&table, &broken, Some(Piped::Script(size)));
            }
            let long = lines::write(&lines::long_indication(&mut self.run, 3 * size.min(50_000)));
            let text = [&long[..], b"\nstart\n", &long, b"\n"].concat();
            self.compare_by(&case_12(), &text, Some(Piped::Script(size)));
            let table = [case_12(), vec![0; 5000]].concat();
            self.compare_by(&table, &text, Some(Piped::Table(size)));
        }
    }

    /// A million lines over one small table, in one run, and then one that can't be read.
    pub fn million(&mut self) {
        let table = loop {
            let table = make::right(&mut self.run);
            let layer = script::stopped(&table);
            let placed = |sends: bool| {
                layer.objects.iter().filter(|o| o.sends == sends && o.ipdu.is_some()).count()
            };
            let queued = layer.objects.iter().any(|o| o.depth > 0);
            if layer.objects.len() < 10 && placed(true) > 1 && placed(false) > 1 && queued {
                break table;
            }
        };
        let calls = lines::calls(&mut self.run, &mut script::stopped(&table), 1_000_000);
        let text = lines::text(&mut self.run, &calls);
        let printed = self.compare(&table, &[&text[..], b"tick \n"].concat());
        assert!(printed.ends_with(b"\n9 1000001\n"));
        self.met.note(Event::Million);
    }
}
