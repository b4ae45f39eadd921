//! The firmware loop of a board in a climate van, on a simulated bus: a timer ticks the layer,
//! readings are sent, frames arrive and are confirmed. It prints a line for each event.

use birnenschloss::{Area, Error, IpduNumber, Layer, Memory, ObjectNumber, Outcome, Requests};
use birnenschloss::{Table, AREA_SIZE, MEMORY_SIZE};

const COMMAND: IpduNumber = IpduNumber(2);

const HUMIDITY: ObjectNumber = ObjectNumber(0);
const DOOR: ObjectNumber = ObjectNumber(1);
const SETPOINT: ObjectNumber = ObjectNumber(2);
const STEPS: ObjectNumber = ObjectNumber(3);

/// Humidity goes out every 4 ticks, the door when it changes, at most every 3 ticks. Commands
/// arrive at least every 6 ticks, with a setpoint and steps for the fan, which are queued.
#[rustfmt::skip]
const TABLE: [u8; 192] = [
    // 3 I-PDUs from byte 16 on, 4 objects from byte 64 on, 192 bytes
    3, 0, 4, 0, 16, 0, 64, 0, 192, 0, 0, 0, 0, 0, 0, 0,
    // climate: send, 2 bytes, periodic; period 4, offset 2, deadline 5
    1, 2, 1, 0, 4, 0, 2, 0, 0, 0, 5, 0, 0, 0, 0, 0,
    // alarm: send, 1 byte, direct; minimum delay 3, deadline 2
    1, 1, 0, 0, 0, 0, 0, 0, 3, 0, 2, 0, 0, 0, 0, 0,
    // command: receive, 3 bytes; deadline 6, first deadline 9
    2, 3, 0, 0, 0, 0, 0, 0, 0, 0, 6, 0, 9, 0, 0, 0,
    // humidity: send in climate, 12 bits from bit 0 on, pending, always
    1, 0, 255, 0, 12, 0, 1, 0, 0, 0, 0, 0, 0, 0, 0, 0, 0, 0, 0, 0, 0, 0, 0, 0, 0, 0, 0, 0, 0, 0, 0, 0,
    // door: send in alarm, 1 bit, triggered, when it differs
    1, 1, 255, 0, 1, 0, 0, 0, 5, 0, 0, 0, 0, 0, 0, 0, 0, 0, 0, 0, 0, 0, 0, 0, 0, 0, 0, 0, 0, 0, 0, 0,
    // setpoint: receive in command, 12 bits, big, from bit 12 on, first 500
    2, 2, 255, 12, 12, 1, 0, 0, 0, 0, 0, 0, 244, 1, 0, 0, 0, 0, 0, 0, 0, 0, 0, 0, 0, 0, 0, 0, 0, 0, 0, 0,
    // steps: receive in command, 8 bits from bit 16 on, a queue of 2
    2, 2, 255, 16, 8, 0, 0, 2, 0, 0, 0, 0, 0, 0, 0, 0, 0, 0, 0, 0, 0, 0, 0, 0, 0, 0, 0, 0, 0, 0, 0, 0,
];

/// What happens at which tick of the timer.
const EVENTS: [(u32, Event); 11] = [
    (1, Event::Humidity(0x1F4)),
    (3, Event::Door(1)),
    (4, Event::Door(1)),
    (5, Event::Door(0)),
    (5, Event::Frame(Outcome::Good, &[0x1F, 0x40, 1])),
    (6, Event::Frame(Outcome::Good, &[0x20, 0x80, 2])),
    (7, Event::Frame(Outcome::Good, &[0x20, 0x80, 3])),
    (9, Event::Frame(Outcome::NotGood, &[])),
    (10, Event::Humidity(0x20C)),
    (11, Event::BusFails),
    (12, Event::Door(1)),
];
const END: u32 = 16;
/// Steps are fetched from their queue this often.
const FETCH_PERIOD: u32 = 4;

#[derive(Clone, Copy)]
enum Event {
    Humidity(u32),
    Door(u32),
    Frame(Outcome, &'static [u8]),
    BusFails,
}

/// The bus sends a frame between two ticks. Once it fails it loses every frame.
struct Bus {
    fails: bool,
    sent: Vec<IpduNumber>,
}

impl Bus {
    fn take(&mut self, requests: Requests, area: &Area, table: Table) {
        for (ipdu, frame) in requests.frames(area, table) {
            println!("  I-PDU {} to the bus: {frame:02X?}", ipdu.0);
            if !self.fails {
                self.sent.push(ipdu);
            }
        }
    }
}

struct Board<'t, 'm> {
    layer: Layer<'t, 'm>,
    area: Area,
    bus: Bus,
}

impl Board<'_, '_> {
    fn tick(&mut self, now: u32) -> Result<(), Error> {
        println!("tick {now}");
        for ipdu in std::mem::take(&mut self.bus.sent) {
            println!("  I-PDU {} confirmed", ipdu.0);
            self.layer.confirm(ipdu, Outcome::Good)?;
        }
        for (_, event) in EVENTS.iter().filter(|(at, _)| *at == now) {
            self.meet(*event)?;
        }
        if now % FETCH_PERIOD == 0 {
            self.fetch()?;
        }
        let requests = self.layer.tick(&mut self.area)?;
        self.bus.take(requests, &self.area, self.layer.table());
        self.report()
    }

    fn meet(&mut self, event: Event) -> Result<(), Error> {
        match event {
            Event::Humidity(value) => {
                println!("  humidity {value}");
                self.send(HUMIDITY, value)
            }
            Event::Door(value) => {
                println!("  door {}", if value == 0 { "closed" } else { "open" });
                self.send(DOOR, value)
            }
            Event::Frame(outcome, bytes) => {
                println!("  I-PDU {} arrives, {outcome:?}: {bytes:02X?}", COMMAND.0);
                self.layer.indication(COMMAND, outcome, bytes)
            }
            Event::BusFails => {
                println!("  the bus fails");
                self.bus.fails = true;
                Ok(())
            }
        }
    }

    fn send(&mut self, object: ObjectNumber, value: u32) -> Result<(), Error> {
        let requests = self.layer.send(&mut self.area, object, value)?;
        self.bus.take(requests, &self.area, self.layer.table());
        Ok(())
    }

    /// Takes all steps from their queue, and the setpoint.
    fn fetch(&mut self) -> Result<(), Error> {
        loop {
            match self.layer.receive(STEPS) {
                Ok(steps) if steps.overflowed => println!("  steps {}, some lost", steps.value),
                Ok(steps) => println!("  steps {}", steps.value),
                Err(Error::NoMessage) => break,
                Err(error) => return Err(error),
            }
        }
        println!("  setpoint {}", self.layer.receive(SETPOINT)?.value);
        Ok(())
    }

    /// Tells of the marks of errors, and clears them.
    fn report(&mut self) -> Result<(), Error> {
        for (name, object) in [("humidity", HUMIDITY), ("door", DOOR), ("setpoint", SETPOINT)] {
            let marks = self.layer.marks(object)?;
            if marks.send_error() {
                println!("  {name}: send error");
            }
            if marks.receive_error() {
                println!("  {name}: receive error");
            }
            self.layer.clear_marks(object)?;
        }
        Ok(())
    }
}

fn main() -> Result<(), Error> {
    let table = Table::check(&TABLE)?;
    let mut memory = [0xA5; MEMORY_SIZE];
    let layer = Layer::new(table, Memory::from(&mut memory));
    let bus = Bus { fails: false, sent: Vec::new() };
    let mut board = Board { layer, area: [0xA5; AREA_SIZE], bus };
    board.layer.start()?;
    board.layer.start_periodic()?;
    println!("started: {} I-PDUs, {} objects", table.ipdus(), table.objects());
    for now in 1..=END {
        board.tick(now)?;
    }
    board.layer.stop()?;
    println!("stopped");
    Ok(())
}
