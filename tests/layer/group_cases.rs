//! Groups with answers worked out by hand, in both forms, on the library and the reference.

use crate::act::Act;
use crate::call::Call;
use crate::cases::Case;
use crate::group::{Form, Group, Pair};
use crate::table::{ipdu, object, set_filter};

/// What stands in a status list before, and behind it.
const NOISE: u8 = 0xA5;

#[derive(Clone, Copy)]
enum As {
    Bytes,
    Records,
}
const FORMS: [As; 2] = [As::Bytes, As::Records];

fn form(form: As, pairs: &[(u32, u32)]) -> Form {
    let pairs = pairs.iter().map(|&(object, value)| Pair { object, value });
    match form {
        As::Bytes => Form::Bytes(pairs.flat_map(Pair::bytes).collect()),
        As::Records => Form::Records(pairs.collect()),
    }
}

impl Case {
    /// The answer to a group that is lent so many statuses, and these; the 8 bytes behind stay.
    fn lent(&mut self, form: Form, lent: usize) -> ((u32, u32), Vec<u8>) {
        let group = Group { form, statuses: vec![NOISE; lent + 8], lent };
        let (answer, lists) = self.play(&Act::Group(group));
        let mut statuses = lists.statuses;
        assert_eq!(statuses.split_off(lent), [NOISE; 8]);
        (answer, statuses)
    }

    /// A group with a status for each pair, which is done: the word and the statuses.
    fn group(&mut self, as_form: As, pairs: &[(u32, u32)]) -> (u32, Vec<u8>) {
        let ((number, word), statuses) = self.lent(form(as_form, pairs), pairs.len());
        assert_eq!(number, 0);
        (word, statuses)
    }

    /// A group that is refused with this number: its statuses stay.
    fn refuses(&mut self, form: Form, lent: usize, number: u32) {
        assert_eq!(self.lent(form, lent), ((number, 0), vec![NOISE; lent]));
    }

    fn slot(&self, k: usize) -> &[u8] {
        &self.area[8 * k..][..8]
    }

    fn confirm_all(&mut self, ipdus: u32) {
        for ipdu in 0..ipdus {
            assert_eq!(self.ask(Call::Confirm { ipdu, good: true }), (0, 0));
        }
    }
}

/// A frame with zeros to 8.
fn frame(bytes: &[u8]) -> Vec<u8> {
    let mut frame = bytes.to_vec();
    frame.resize(8, 0);
    frame
}

/// A direct I-PDU with no minimum delay.
fn direct(length: u8) -> [u8; 16] {
    ipdu(1, length, 0, [0, 0, 0, 10, 0])
}

/// I-PDU 0 with object 0, triggered, and object 1, pending, a byte each; I-PDU 1 with object 2;
/// object 3 receives from object 0 into a queue of two.
fn lamps() -> Case {
    let objects = [
        object(&[1, 0, 255, 0, 8, 0, 0]),
        object(&[1, 0, 255, 8, 8, 0, 1]),
        object(&[1, 1, 255, 0, 32, 0, 0]),
        object(&[2, 255, 0, 0, 32, 0, 0, 2]),
    ];
    Case::started_with(&[direct(2), direct(4)], &objects)
}

/// One I-PDU with one triggered object of 12 bits from bit 13 on, with this filter.
fn filtered(filter: u8, words: [u32; 3]) -> Case {
    let mut reading = object(&[1, 0, 255, 13, 12]);
    set_filter(&mut reading, filter, words);
    Case::started_with(&[direct(4)], &[reading])
}

pub fn run() {
    for form in FORMS {
        order(form);
        wrong_objects(form);
        filters(form);
        queue(form);
        refusals(form);
    }
    cut_pairs();
    large_records();
}

/// A pending value is in the frame that an earlier pair asks for only where it comes before.
fn order(form: As) {
    let mut case = lamps();
    let pairs = [(0, 0x11), (1, 0x22), (2, 0x1234_5678)];
    assert_eq!(case.group(form, &pairs), (0b11, vec![0, 0, 0]));
    assert_eq!(case.slot(0), frame(&[0x11, 0]));
    assert_eq!(case.slot(1), frame(&[0x78, 0x56, 0x34, 0x12]));
    assert_eq!(case.area[16..], [0xA5; 240]);
    case.confirm_all(2);
    assert_eq!(case.group(form, &[(1, 0x33), (0, 0x44)]), (0b01, vec![0, 0]));
    assert_eq!(case.slot(0), frame(&[0x44, 0x33]));
    assert_eq!(case.group(form, &[(1, 0x55)]), (0, vec![0]));
    assert_eq!(case.group(form, &[]), (0, vec![]));
}

/// Objects 4 and 255 are none, and object 3 receives: the rest go on.
fn wrong_objects(form: As) {
    let mut case = lamps();
    let pairs = [(4, 1), (0, 2), (255, 3), (3, 4), (2, 5), (128, 6)];
    assert_eq!(case.group(form, &pairs), (0b11, vec![1, 0, 1, 1, 0, 1]));
    assert_eq!(case.slot(0), frame(&[2]));
    assert_eq!(case.slot(1), frame(&[5]));
    assert_eq!(lamps().group(form, &[(3, 0)]), (0, vec![1]));
}

/// Cases 6 and 7 of document 01, each in one group. The first value that passes is requested;
/// the second is postponed, and goes at the tick after the confirm.
fn filters(form: As) {
    let mut differs = filtered(5, [0, 0, 0]);
    assert_eq!(differs.group(form, &[(0, 0), (0, 5), (0, 5), (0, 0)]), (1, vec![0; 4]));
    assert_eq!(differs.slot(0), frame(&[0x00, 0xA0]));
    differs.confirm_all(1);
    assert_eq!(differs.group(form, &[(0, 0), (0, 0)]), (0, vec![0; 2]));
    assert_eq!(differs.ask(Call::Tick), (0, 1));
    assert_eq!(differs.slot(0), frame(&[]));

    let mut one_in_three = filtered(14, [0, 3, 1]);
    let six: Vec<(u32, u32)> = (1..=6).map(|value| (0, value)).collect();
    assert_eq!(one_in_three.group(form, &six), (1, vec![0; 6]));
    assert_eq!(one_in_three.slot(0), frame(&[0x00, 0x40]));
    one_in_three.confirm_all(1);
    assert_eq!(one_in_three.ask(Call::Tick), (0, 1));
    assert_eq!(one_in_three.slot(0), frame(&[0x00, 0xA0]));
}

/// Case 8 of document 01, with the arrivals from inside.
fn queue(form: As) {
    let mut case = lamps();
    assert_eq!(case.group(form, &[(0, 7), (0, 8), (0, 0x1_0009)]), (1, vec![0; 3]));
    let receive = || Call::Receive { object: 3 };
    assert_eq!([(); 3].map(|_| case.ask(receive())), [(3, 7), (0, 8), (4, 0)]);
    case.confirm_all(1);
    assert_eq!(case.ask(Call::Tick), (0, 1));
    assert_eq!(case.slot(0), frame(&[9, 0]));
    assert_eq!(case.group(form, &[(0, 0x1_000A)]), (0, vec![0]));
    assert_eq!(case.ask(receive()), (0, 0x1_000A));
}

/// Sixteen pairs are done, and seventeen refused; so is a status list one shorter or longer. Of a
/// stopped layer all are refused with 7.
fn refusals(as_form: As) {
    let mut case = lamps();
    let pairs: Vec<(u32, u32)> = (1..=17).map(|value| (0, value)).collect();
    for (count, lent) in [(17, 17), (17, 16), (16, 15), (16, 17), (1, 0), (0, 1), (272, 272)] {
        let pairs: Vec<(u32, u32)> = pairs.iter().cycle().take(count).copied().collect();
        case.refuses(form(as_form, &pairs), lent, 2);
    }
    assert_eq!(case.group(as_form, &pairs[..16]), (1, vec![0; 16]));
    assert_eq!(case.slot(0), frame(&[1]));
    case.confirm_all(1);
    assert_eq!(case.ask(Call::Tick), (0, 1));
    assert_eq!(case.slot(0), frame(&[16]));
    assert_eq!(case.ask(Call::Stop), (0, 0));
    for (count, lent) in [(17, 17), (16, 16), (16, 15), (0, 0)] {
        case.refuses(form(as_form, &pairs[..count]), lent, 7);
    }
}

/// Bytes of one more pair, one to four of them, behind none, three and sixteen pairs.
fn cut_pairs() {
    let mut case = lamps();
    for (pairs, more) in [0, 3, 16].into_iter().flat_map(|n| (1..5).map(move |more| (n, more))) {
        for lent in [pairs, pairs + 1] {
            case.refuses(Form::Bytes(vec![0; 5 * pairs + more]), lent, 2);
        }
    }
}

/// A record's number is compared whole: 256 is not object 0.
fn large_records() {
    let mut case = lamps();
    let pairs = [(256, 1), (1, 0x22), (65536, 3), (0, 0x11), (0xFFFF_FF02, 5)];
    assert_eq!(case.group(As::Records, &pairs), (1, vec![1, 0, 1, 0, 1]));
    assert_eq!(case.slot(0), frame(&[0x11, 0x22]));
    assert_eq!(case.slot(1), [0xA5; 8]);
}
