//! Lines, scripts and tables whose output is known without the reference.

use crate::script;
use crate::table::{ipdu, join, object, set_filter};
use crate::Test;

/// Case 12's table.
pub fn case_12() -> Vec<u8> {
    let mut record = object(&[1, 0, 255, 13, 12]);
    set_filter(&mut record, 5, [0, 0, 0]);
    join(&[ipdu(1, 4, 0, [0, 0, 3, 10, 0])], &[record])
}

/// Each line with what it prints over case 12's table, one after the other.
const RIGHT: [(&str, &str); 48] = [
    ("tick", "7"),
    ("send 0 1", "7"),
    ("stop", "7"),
    ("marks 4294967295", "7"),
    ("start", "0"),
    ("send 0 2748", "0 req 0 00805701"),
    ("send 0 2748", "0"),
    ("marks 0", "0 val 0"),
    ("confirm 0 1", "0"),
    ("confirm 0 0", "8"),
    ("marks 0", "0 val 2"),
    ("send 0 0", "0"),
    ("tick", "0"),
    ("tick", "0"),
    ("tick", "0 req 0 00000000"),
    ("confirm 0 0", "0"),
    ("marks 0", "0 val 10"),
    ("clear_marks 0", "0"),
    ("marks 0", "0 val 0"),
    ("initialise 0 4294967295", "0"),
    ("send 0 6844", "0 req 0 00805701"),
    ("confirm 0 0", "0"),
    ("initialise 0 -1", "0"),
    ("send 0 -1", "0"),
    ("send 0 4294967295", "0"),
    ("send 0 -2", "0 req 0 00C0FF01"),
    ("send 0 -2147483648", "0"),
    ("confirm 0 0", "0"),
    ("tick", "0 req 0 00000000"),
    ("send 0 2147483648", "0"),
    ("send 0 -4294967", "0"),
    ("send 1 -1", "1"),
    ("initialise 255 -2147483648", "1"),
    ("initialise 0 -10", "0"),
    ("send 4294967295 4294967295", "1"),
    ("send 256 0", "1"),
    ("initialise 1 0", "1"),
    ("receive 0", "1"),
    ("status 0", "1"),
    ("clear_marks 10", "1"),
    ("start_periodic", "0"),
    ("stop_periodic", "0"),
    ("indication 0 1 00000000", "1"),
    ("indication 0 0", "1"),
    ("indication 4294967295 1 0123456789ABCDEF00", "1"),
    ("confirm 1 1", "1"),
    ("stop", "0"),
    ("receive 0", "7"),
];

/// In the byte of I-PDU 0: object 0, signed, and with queues of two 1, not signed, and 2, signed.
/// What object 3 sends goes to 4, signed, and to 5, not signed.
const SIGNED: [(&str, &str); 34] = [
    ("start", "0"),
    ("receive 0", "0 val 0"),
    ("indication 0 1 80", "0"),
    ("receive 0", "0 val -128"),
    ("receive 1", "0 val 128"),
    ("receive 2", "0 val -128"),
    ("receive 2", "4"),
    ("indication 0 1 FF", "0"),
    ("indication 0 1 7F", "0"),
    ("indication 0 1 FE", "0"),
    ("receive 0", "0 val -2"),
    ("receive 1", "3 val 255"),
    ("status 2", "3"),
    ("receive 2", "3 val -1"),
    ("receive 2", "0 val 127"),
    ("indication 0 0", "0"),
    ("marks 2", "0 val 5"),
    ("initialise 0 -1000", "0"),
    ("receive 0", "0 val -1000"),
    ("initialise 0 4294966296", "0"),
    ("receive 0", "0 val -1000"),
    ("initialise 0 1000", "0"),
    ("receive 0", "0 val 1000"),
    ("send 3 -2147483648", "0"),
    ("receive 4", "0 val -2147483648"),
    ("receive 5", "0 val 2147483648"),
    ("send 3 4294967295", "0"),
    ("receive 4", "0 val -1"),
    ("receive 5", "0 val 4294967295"),
    ("send 3 2147483647", "0"),
    ("receive 4", "0 val 2147483647"),
    ("initialise 5 -1", "0"),
    ("receive 5", "0 val 4294967295"),
    ("receive 3", "1"),
];

#[rustfmt::skip]
const WRONG: [&[u8]; 143] = [
    b"", b" ", b"  ", b"\t", b"\r", b"\0", b"\xFF", b"0", b"9", b"9 1", b"#", b"# start", b"// tick", b"tick;", b"tick;tick",
    b"start ", b" start", b"start\r", b"start\t", b"start\0", b"\0start", b"\xEF\xBB\xBFstart", b"star", b"tart", b"startt",
    b"Start", b"START", b"starT", b"start 0", b"start start", b"start_", b"start_periodic 0", b"start periodic",
    b"start-periodic", b"startperiodic", b"start_Periodic", b"stopp", b"stop 1", b"stop_period", b"tic", b"tick 1", b"ticks",
    b"tick\x0B", b"tick\x0C", b"send", b"send 0", b"send 0 ", b"send  0 1", b"send 0  1", b"send 0 1 ", b" send 0 1",
    b"send 0 1 2", b"send 00 1", b"send 0 01", b"send 0 00", b"send +0 1", b"send 0 +1", b"send -1 1", b"send -0 1", b"send 0 -0",
    b"send -1 0", b"send -1 -1", b"send 0 -01", b"send 0 -00", b"send 0 -", b"send 0 --1", b"send 0 --", b"send 0 -+1", b"send 0 +-1",
    b"send 0 - 1", b"send 0 1-", b"send 0 1-1", b"send 0 -1 ", b"send 0 -1-", b"send 0 -1 -1", b"send 0-1", b"send 0 -1.0", b"send 0 -A",
    b"send 0 -0x1", b"send 0 -2147483649", b"send 0 -4294967295", b"send 0 -4294967296", b"send 0 -18446744073709551615",
    b"send 0 \xE2\x88\x921", b"initialise -1 0", b"initialise 0 -0", b"initialise 0 -", b"initialise 0 --1", b"initialise 0 -2147483649",
    b"receive -1", b"receive -0", b"status -1", b"marks -1", b"clear_marks -1", b"confirm -1 1", b"confirm 0 -0", b"indication -1 1",
    b"indication 0 -1", b"indication 0 1 -1", b"tick -1", b"-1",
    b"send 0 4294967296", b"send 4294967296 1", b"send 0 4294970044", b"send 0 18446744073709551617", b"send\t0 1", b"send 0\t1",
    b"send 0,1", b"send 0 1.0", b"send 0 1e3", b"send 0 0x1", b"send 0 A", b"send 0 1_0", b"send0 1", b"send 0 \xB2",
    b"initialise 0", b"initialize 0 0", b"receive", b"receive ", b"receive 0 0", b"status", b"marks", b"marks 0 0", b"mark 0",
    b"clear_marks", b"clear marks 0", b"clearmarks 0", b"confirm", b"confirm 0", b"confirm 0 2", b"confirm 0 01", b"confirm 0 1 1",
    b"confirm 0 -1", b"confirm 0 true", b"indication 0", b"indication 0 2", b"indication 0 1 ", b"indication 0 1 0",
    b"indication 0 1 0a", b"indication 0 1 00 00", b"indication 0 1 000", b"indication 0 1 0G", b"indication 0 1 0x00",
];

impl Test {
    /// Compares, and the output is known.
    fn expect(&mut self, table: &[u8], text: &[u8], known: &str) {
        let printed = self.compare(table, text);
        if printed != known.as_bytes() {
            self.differ(table, text, known.as_bytes(), &printed);
        }
    }

    pub fn known(&mut self) {
        let table = case_12();
        self.expect(&table, b"", "");
        self.expect(&table, b"start\nsend 0 2748\n", "0\n0 req 0 00805701\n");
        let [mut text, mut known] = [String::new(), String::new()];
        for (line, prints) in RIGHT {
            text += &format!("{line}\n");
            known += &format!("{prints}\n");
            // Also as the last line, without its line feed.
            let cut = format!("start\n{line}");
            self.expect(&table, cut.as_bytes(), "0\n9 2\n");
        }
        self.expect(&table, text.as_bytes(), &known);
        for line in WRONG {
            assert!(script::read(line).is_none(), "{}", line.escape_ascii());
            let text = [b"start\n", line, b"\nsend 0 2748\ntick\n"].concat();
            self.expect(&table, &text, "0\n9 2\n");
            self.expect(&table[1..], &text, "5\n9 2\n");
        }
        self.lines_apart();
        self.signed();
    }

    /// Signed objects beside others, each line with what it prints.
    fn signed(&mut self) {
        let objects = [
            object(&[2, 0, 255, 0, 8, 2]),
            object(&[2, 0, 255, 0, 8, 0, 0, 2]),
            object(&[2, 0, 255, 0, 8, 3, 0, 2]),
            object(&[1, 255, 255, 0, 32]),
            object(&[2, 255, 3, 0, 32, 2]),
            object(&[2, 255, 3, 0, 32]),
        ];
        let table = join(&[ipdu(2, 1, 0, [0; 5])], &objects);
        let [text, known] = [0, 1].map(|n| {
            let lines = SIGNED.iter().map(|both| if n == 0 { both.0 } else { both.1 });
            lines.map(|line| format!("{line}\n")).collect::<String>()
        });
        self.expect(&table, text.as_bytes(), &known);
    }

    /// A line feed ends a line wherever it stands.
    fn lines_apart(&mut self) {
        let table = case_12();
        for (text, known) in [
            ("\n", "9 1\n"),
            ("\n\n", "9 1\n"),
            ("start", "9 1\n"),
            ("start\n\n", "0\n9 2\n"),
            ("start\n\nsend 0 2748\n", "0\n9 2\n"),
            ("start\r\nsend 0 2748\r\n", "9 1\n"),
            ("start\nsend 0\n2748\n", "0\n9 2\n"),
            ("start\nsend\n0 2748\n", "0\n9 2\n"),
            ("start\nsend 0 27\n48\n", "0\n0 req 0 00600300\n9 3\n"),
            ("start tick\n", "9 1\n"),
            ("start\ntick\ntick\n ", "0\n0\n0\n9 4\n"),
            ("stop\nstart\nstart\nstop\nstop\nstart\n", "7\n0\n0\n0\n7\n0\n"),
        ] {
            self.expect(&table, text.as_bytes(), known);
        }
    }
}
