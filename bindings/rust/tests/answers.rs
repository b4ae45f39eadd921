//! Each number that comes back from the layer is met once, as its error or its result.

use birnenschloss::{Area, Error, IpduNumber, Layer, Memory, ObjectNumber, Outcome, Received};
use birnenschloss::{Status, Table, WrongRecord, AREA_SIZE, MEMORY_SIZE};

const SENT: IpduNumber = IpduNumber(0);
const ARRIVING: IpduNumber = IpduNumber(1);
const READING: ObjectNumber = ObjectNumber(0);
const QUEUED: ObjectNumber = ObjectNumber(1);

/// I-PDU 0 is sent, of 4 bytes, with 12 bits of READING; I-PDU 1 arrives, of 2 bytes, with 8
/// bits of QUEUED, whose queue has one place.
fn table_bytes() -> [u8; 112] {
    let mut bytes = [0; 112];
    bytes[..10].copy_from_slice(&[2, 0, 2, 0, 16, 0, 48, 0, 112, 0]);
    bytes[16..28].copy_from_slice(&[1, 4, 0, 0, 0, 0, 0, 0, 3, 0, 10, 0]);
    bytes[32..34].copy_from_slice(&[2, 2]);
    bytes[48..57].copy_from_slice(&[1, 0, 255, 13, 12, 0, 0, 0, 0]);
    bytes[80..88].copy_from_slice(&[2, 1, 255, 8, 8, 0, 0, 1]);
    bytes
}

fn with_started(test: impl FnOnce(&mut Layer, &mut Area)) {
    let (bytes, mut memory) = (table_bytes(), [0xA5; MEMORY_SIZE]);
    let table = Table::check(&bytes).unwrap();
    let mut layer = Layer::new(table, Memory::from(&mut memory));
    layer.start().unwrap();
    test(&mut layer, &mut [0xA5; AREA_SIZE]);
}

#[test]
fn the_errors_have_their_numbers() {
    with_started(|layer, area| {
        let mut met = vec![
            layer.send(area, QUEUED, 1).unwrap_err(),
            layer.indication(ARRIVING, Outcome::Good, &[1, 2, 3]).unwrap_err(),
            layer.receive(QUEUED).unwrap_err(),
            Table::check(&[]).unwrap_err().into(),
            never_started(),
            layer.confirm(SENT, Outcome::Good).unwrap_err(),
            layer.begin_sheet(&[QUEUED, QUEUED]).unwrap_err(),
        ];
        layer.stop().unwrap();
        met.push(layer.tick(area).unwrap_err());
        let errors = [
            (Error::Id, 1),
            (Error::Length, 2),
            (Error::NoMessage, 4),
            (Error::Table, 5),
            (Error::Memory, 6),
            (Error::NoRequest, 8),
            (Error::Followed, 10),
            (Error::Stopped, 7),
        ];
        assert_eq!(met, errors.map(|(error, _)| error));
        assert_eq!(errors.map(|(error, _)| error.number()), errors.map(|(_, number)| number));
        assert_eq!(*area, [0xA5; AREA_SIZE]);
    });
}

/// The texts of birnenschloss_number_text, from 0 on; the last is that of any other number.
fn texts() -> Vec<&'static str> {
    let header = include_str!("../../../include/birnenschloss.h");
    let (_, function) = header.split_once("birnenschloss_number_text(uint32_t number)\n").unwrap();
    let (body, _) = function.split_once("\n}\n").unwrap();
    body.split('"').skip(1).step_by(2).collect()
}

#[test]
fn the_errors_say_what_the_header_says() {
    let texts = texts();
    assert_eq!(texts.len(), 12);
    assert_eq!(texts[9], texts[11]); // no call answers 9
    for error in [
        Error::Id,
        Error::Length,
        Error::NoMessage,
        Error::Table,
        Error::Memory,
        Error::Stopped,
        Error::NoRequest,
        Error::Followed,
    ] {
        assert_eq!(error.to_string(), texts[error.number() as usize]);
    }
}

fn never_started() -> Error {
    let (bytes, mut memory) = (table_bytes(), [0xA5; MEMORY_SIZE]);
    let mut layer = Layer::new(Table::check(&bytes).unwrap(), Memory::from(&mut memory));
    let error = layer.tick(&mut [0; AREA_SIZE]).unwrap_err();
    assert_eq!(memory, [0xA5; MEMORY_SIZE]);
    error
}

/// Number 3: a lost value is told and is no error.
#[test]
fn overflow_is_no_error() {
    with_started(|layer, _| {
        layer.indication(ARRIVING, Outcome::Good, &[0, 7]).unwrap();
        assert_eq!(layer.status(QUEUED), Ok(Status::Waiting));
        layer.indication(ARRIVING, Outcome::Good, &[0, 8]).unwrap();
        assert_eq!(layer.status(QUEUED), Ok(Status::Overflowed));
        assert_eq!(layer.receive(QUEUED), Ok(Received { value: 7, overflowed: true }));
        assert_eq!(layer.receive(QUEUED), Err(Error::NoMessage));
        layer.indication(ARRIVING, Outcome::Good, &[0, 9]).unwrap();
        assert_eq!(layer.receive(QUEUED), Ok(Received { value: 9, overflowed: false }));
    });
}

#[test]
fn the_check_names_the_record() {
    for (at, byte, wrong, place) in [
        (10, 1, WrongRecord::Header, 65535),
        (17, 9, WrongRecord::Ipdu(0), 0),
        (33, 0, WrongRecord::Ipdu(1), 1),
        (52, 33, WrongRecord::Object(0), 256),
        (87, 17, WrongRecord::Object(1), 257),
    ] {
        let mut bytes = table_bytes();
        bytes[at] = byte;
        assert_eq!(Table::check(&bytes), Err(wrong));
        assert_eq!(wrong.place(), place);
    }
}

#[test]
fn the_four_marks() {
    with_started(|layer, area| {
        let four = |layer: &Layer, object| {
            let marks = layer.marks(object).unwrap();
            [marks.arrived(), marks.sent(), marks.receive_error(), marks.send_error()]
        };
        assert_eq!(four(layer, QUEUED), [false, false, false, false]);
        layer.indication(ARRIVING, Outcome::Good, &[1, 2]).unwrap();
        assert_eq!(four(layer, QUEUED), [true, false, false, false]);
        layer.clear_marks(QUEUED).unwrap();
        layer.indication(ARRIVING, Outcome::NotGood, &[]).unwrap();
        assert_eq!(four(layer, QUEUED), [false, false, true, false]);
        assert!(layer.send(area, READING, 5).unwrap().contains(SENT));
        layer.confirm(SENT, Outcome::Good).unwrap();
        assert_eq!(four(layer, READING), [false, true, false, false]);
        layer.clear_marks(READING).unwrap();
        for _ in 0..3 {
            assert!(layer.tick(area).unwrap().is_empty());
        }
        assert!(layer.send(area, READING, 6).unwrap().contains(SENT));
        layer.confirm(SENT, Outcome::NotGood).unwrap();
        assert_eq!(four(layer, READING), [false, false, false, true]);
    });
}

#[test]
fn the_frame_of_a_request() {
    with_started(|layer, area| {
        let requests = layer.send(area, READING, 0xABC).unwrap();
        let table = layer.table();
        assert_eq!(requests.word(), 1);
        assert!(requests.iter().eq([SENT]));
        assert!(requests.into_iter().eq([SENT]));
        let frame: &[u8] = &[0x00, 0x80, 0x57, 0x01];
        assert_eq!(requests.frame(area, table, SENT), Some(frame));
        assert!(requests.frames(area, table).eq([(SENT, frame)]));
        for other in [1, 2, 31, 32, u32::MAX] {
            assert!(!requests.contains(IpduNumber(other)));
            assert_eq!(requests.frame(area, table, IpduNumber(other)), None);
        }
    });
}

/// I-PDUs 0, 30 and 31 of 32 are due together: the highest slot ends with the area.
#[test]
fn requests_of_the_highest_ipdu() {
    let mut bytes = [0; 16 + 32 * 16];
    bytes[..10].copy_from_slice(&[32, 0, 0, 0, 16, 0, 16, 2, 16, 2]);
    for (k, record) in bytes[16..].chunks_mut(16).enumerate() {
        let offset = if [0, 30, 31].contains(&k) { 2 } else { 9 };
        record[..12].copy_from_slice(&[1, 8, 1, 0, 20, 0, offset, 0, 0, 0, 5, 0]);
    }
    let (mut memory, mut area) = ([0xA5; MEMORY_SIZE], [0xA5; AREA_SIZE]);
    let table = Table::check(&bytes).unwrap();
    let mut layer = Layer::new(table, Memory::from(&mut memory));
    layer.start().unwrap();
    layer.start_periodic().unwrap();
    assert!(layer.tick(&mut area).unwrap().is_empty());
    let requests = layer.tick(&mut area).unwrap();
    let zeros: &[u8] = &[0; 8];
    let wanted = [0, 30, 31].map(|k| (IpduNumber(k), zeros));
    assert!(requests.frames(&area, table).eq(wanted));
}
