//! Writes examples/beacon.bin to standard output, the recorded line that README shows a monitor on:
//! station 5 at 200 bits a second, a byte lost, a stretch with all bits turned over, a silence of a
//! minute, and then some frames that say the station is not working.

use rtcm2::{Correction, Frame, Header, Issue, Null, Position, Refusal, Writer};
use std::error::Error;
use std::io::{self, Write};

/// The station's hour: where its Z count is, and how many frames it has sent.
struct Station {
    writer: Writer,
    sent: u16,
    health: u8,
}

impl Station {
    /// The bytes of its next frame: corrections, now and then its position or a null frame.
    fn next(&mut self) -> Result<Vec<u8>, Refusal> {
        let number = self.sent;
        self.sent += 1;
        let header = Header {
            kind: [9, 9, 9, 3, 9, 9, 9, 6][usize::from(number % 8)],
            station: 5,
            z: 100 + 2 * number,
            sequence: (number % 8) as u8,
            health: self.health,
        };
        let frame = match header.kind {
            3 => Frame::of_position(header, Position { x_cm: 346_612_345, y_cm: 63_412_345, z_cm: 529_712_345 })?,
            6 => Frame::of_null(header, Null { n: 0 })?,
            _ => Frame::of_corrections(header, &corrections(number))?,
        };
        Ok(self.writer.write(&frame)?.to_vec())
    }

    /// The bytes of so many frames.
    fn frames(&mut self, count: u16) -> Result<Vec<u8>, Refusal> {
        let all: Result<Vec<_>, _> = (0..count).map(|_| self.next()).collect();
        Ok(all?.concat())
    }
}

/// Three satellites, whose corrections wander.
fn corrections(number: u16) -> Vec<Correction> {
    let one = |place: u16| {
        let wander = (37 * number + 411 * place) % 600;
        Correction {
            scale: 0,
            udre: (place % 3) as u8,
            satellite: (3 + 7 * place) as u8,
            prc: wander as i16 - 300,
            rrc: (number % 9) as i8 - 4,
            issue: Issue::Iod((60 + place) as u8),
        }
    };
    (0..3).map(one).collect()
}

/// All bits of the line turned over.
fn turned(bytes: Vec<u8>) -> Vec<u8> {
    bytes.into_iter().map(|byte| byte ^ 0x3F).collect()
}

fn main() -> Result<(), Box<dyn Error>> {
    let (writer, first) = Writer::open();
    let mut station = Station { writer, sent: 0, health: 0 };
    let mut line = vec![first];
    line.extend(station.frames(24)?);
    let mut slipped = station.next()?;
    slipped.remove(7);
    line.extend(slipped);
    line.extend(station.frames(16)?);
    line.extend(turned(station.frames(24)?));
    // A minute without a data byte: 2000 bytes of 30 ms.
    line.extend([0; 2000]);
    line.extend(station.frames(16)?);
    station.health = 7;
    line.extend(station.frames(16)?);
    station.health = 0;
    line.extend(station.frames(16)?);
    io::stdout().write_all(&line)?;
    Ok(())
}
