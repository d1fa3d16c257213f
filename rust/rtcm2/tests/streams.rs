//! The streams of the model (crates/test_streams): what the crate reads, keeps, makes again and
//! writes of each is what the model says, to the sums of all bytes and fields.

use rtcm2::{
    room_for, Condition, Edition, Frame, Issue, Mark, Measured, PushReader, Reader, Record, Refusal, Taken, Turns,
    Writer, READ_ROW,
};
use std::fs;
use std::path::PathBuf;

/// A sum of numbers and the sum of all sums on the way.
#[derive(Default)]
struct Sum {
    numbers: u64,
    sums: u64,
}

impl Sum {
    fn add(&mut self, more: impl IntoIterator<Item = u64>) {
        for number in more {
            self.numbers = self.numbers.wrapping_add(number);
            self.sums = self.sums.wrapping_add(self.numbers);
        }
    }

    /// Bytes at the start of a room that is zeros behind them.
    fn add_padded(&mut self, bytes: &[u8], room: usize) {
        self.add(bytes.iter().copied().chain(std::iter::repeat(0)).take(room).map(u64::from));
    }
}

#[derive(Default)]
struct Tally {
    records: u64,
    remade: u64,
    kept: u64,
    written: u64,
    bytes: Sum,
    fields: Sum,
}

impl Tally {
    fn frame(&mut self, frame: &Frame, writer: &mut Writer) {
        self.kept += u64::from(Frame::recall(frame.as_bytes()) == Ok(*frame));
        self.bytes.add_padded(frame.as_bytes(), 102);
        let made = remade(frame, &mut self.fields);
        self.records += u64::from(made.is_ok());
        self.remade += u64::from(made == Ok(*frame));
        if let Err(refusal) = made {
            self.fields.add([u64::from(refusal.number())]);
        }
        if let Ok(line) = writer.write(frame) {
            self.written += 1;
            self.bytes.add_padded(&line, 165);
        }
    }
}

/// The frame made of a frame's record, whose fields are summed.
fn remade(frame: &Frame, fields: &mut Sum) -> Result<Frame, Refusal> {
    let edition = if frame.header().sequence % 2 == 0 { Edition::Gost } else { Edition::Bd };
    sum_fields(frame, edition, fields)?;
    Record::read_in(frame, edition)?.make_in(frame.header(), edition)
}

/// The fields in the order sent; of a list, those of the entries before the first that is refused.
fn sum_fields(frame: &Frame, edition: Edition, fields: &mut Sum) -> Result<(), Refusal> {
    match frame.header().kind {
        1 | 9 | 31 | 34 if !frame.is_null() => sum_corrections(frame, fields),
        5 | 33 => sum_healths(frame, fields),
        18 | 19 => sum_observations(frame, edition, fields),
        3 | 32 => {
            let position = frame.position()?;
            fields.add([position.x_cm, position.y_cm, position.z_cm].map(|cm| u64::from(cm as u32)));
            Ok(())
        }
        6 | 34 => {
            fields.add([u64::from(frame.null()?.n)]);
            Ok(())
        }
        16 | 36 => {
            fields.add(frame.text()?.codes.iter().map(|&code| u64::from(code)));
            Ok(())
        }
        42 if frame.is_null() => {
            let null = frame.general_null()?;
            fields.add([null.n, null.system.number()].map(u64::from));
            Ok(())
        }
        41 | 42 => sum_generals(frame, fields),
        _ => Err(Refusal::OtherType),
    }
}

fn sum_generals(frame: &Frame, fields: &mut Sum) -> Result<(), Refusal> {
    let head = frame.general_head()?;
    fields.add([head.system.number(), head.signal, head.ephemeris, head.period, head.ionosphere].map(u64::from));
    for entry in frame.generals()? {
        let entry = entry?;
        fields.add([entry.satellite, entry.udre, entry.iod].map(u64::from));
        fields.add([u64::from(entry.prc as u16), u64::from(entry.delay)]);
    }
    Ok(())
}

fn sum_corrections(frame: &Frame, fields: &mut Sum) -> Result<(), Refusal> {
    for entry in frame.corrections()? {
        let entry = entry?;
        fields.add([entry.scale, entry.udre, entry.satellite].map(u64::from));
        fields.add([u64::from(entry.prc as u16), u64::from(entry.rrc as u8)]);
        match entry.issue {
            Issue::Iod(iod) => fields.add([u64::from(iod)]),
            Issue::Age { change, tb } => fields.add([u64::from(change), u64::from(tb)]),
        }
    }
    Ok(())
}

fn sum_healths(frame: &Frame, fields: &mut Sum) -> Result<(), Refusal> {
    for entry in frame.healths()? {
        let entry = entry?;
        fields.add([entry.reserved, entry.satellite, entry.link].map(u64::from));
        match entry.health {
            Condition::Code(code) => fields.add([u64::from(code)]),
            Condition::Data(data, reserved) => fields.add([data, reserved].map(u64::from)),
        }
        fields.add([entry.cn0, entry.enable, entry.new_data, entry.loss, entry.time, entry.spare].map(u64::from));
    }
    Ok(())
}

fn sum_observations(frame: &Frame, edition: Edition, fields: &mut Sum) -> Result<(), Refusal> {
    let entries = frame.observations(edition)?;
    let epoch = frame.epoch()?;
    fields.add([u64::from(epoch.frequency), u64::from(epoch.smoothing), u64::from(epoch.time)]);
    for entry in entries {
        let entry = entry?;
        let (mark, bit) = match entry.mark {
            Mark::Half(bit) => (0, bit),
            Mark::Reserved(bit) => (1, bit),
            Mark::More(bit) => (2, bit),
        };
        fields.add([mark, bit, entry.code, entry.system as u8, entry.satellite, entry.quality].map(u64::from));
        match entry.measured {
            Measured::Phase(losses, phase) => fields.add([u64::from(losses), u64::from(phase as u32)]),
            Measured::Range(multipath, range) => fields.add([u64::from(multipath), u64::from(range)]),
        }
    }
    Ok(())
}

/// The lines that the model has of a stream.
fn told(bytes: &[u8]) -> String {
    let (mut reader, mut frames) = (Reader::new(bytes), Vec::new());
    for taken in &mut reader {
        frames.push(taken.expect("bytes can be read"));
    }
    let (mut tally, (mut writer, _)) = (Tally::default(), Writer::open());
    let mut text = String::new();
    for taken in &frames {
        tally.frame(&taken.frame, &mut writer);
        text.push_str(&line_of(taken));
    }
    let counts = reader.counts();
    let Tally { records, remade, kept, written, bytes, fields } = tally;
    text.push_str(&format!("odd {} even {}\n", counts.odd, counts.even));
    text.push_str(&format!("frames {} bytes {} passed {}\n", frames.len(), reader.bytes(), reader.passed()));
    text.push_str(&format!("records {records} remade {remade} kept {kept} written {written} "));
    text + &format!("sum {} {} fields {} {}\n", bytes.numbers, bytes.sums, fields.numbers, fields.sums)
}

fn line_of(taken: &Taken) -> String {
    let (header, n) = (taken.frame.header(), taken.frame.n());
    let (kind, station, z, sequence, health) = (header.kind, header.station, header.z, header.sequence, header.health);
    format!("{} {kind} {station} {z} {sequence} {n} {health} {}\n", taken.at, taken.pair)
}

fn folder() -> PathBuf {
    PathBuf::from(concat!(env!("CARGO_MANIFEST_DIR"), "/../../crates/test_streams"))
}

/// Every stream with what the model says of it.
fn streams() -> Vec<(String, Vec<u8>, String)> {
    let text = fs::read_to_string(folder().join("stdout")).expect("the model's text");
    let names = fs::read_to_string(folder().join("args")).expect("the streams' names");
    let mut found = Vec::new();
    for name in names.lines().map(str::trim).filter(|name| name.ends_with(".bin")) {
        let start = text.find(&format!("{name}\n")).expect("every stream is told") + name.len() + 1;
        let last = start + text[start..].find("\nrecords ").expect("every stream has a last line") + 1;
        let end = last + text[last..].find('\n').expect("the line ends") + 1;
        let bytes = fs::read(folder().join("data").join(name)).expect("the stream");
        found.push((name.to_string(), bytes, text[start..end].to_string()));
    }
    found
}

#[test]
fn every_stream_is_told_as_the_model_tells_it() {
    let streams = streams();
    assert!(streams.len() > 100, "there are {} streams", streams.len());
    for (name, bytes, expected) in streams {
        assert_eq!(told(&bytes), expected, "{name}");
    }
}

#[test]
fn pushed_in_pieces_of_any_size_the_frames_are_the_same() {
    for (name, bytes, _) in streams() {
        let whole: Vec<_> = Reader::new(&bytes[..]).map(|taken| taken.expect("bytes can be read")).collect();
        for size in [1, 2, 3, 7, 61] {
            let (mut reader, mut frames) = (PushReader::new(), Vec::new());
            for piece in bytes.chunks(size) {
                reader.push(piece, |taken| frames.push(taken));
            }
            reader.finish(|taken| frames.push(taken));
            assert_eq!(frames, whole, "{name} in pieces of {size}");
        }
    }
}

/// The frames of a line, read in pieces of a size into room for so many rows, called again while these
/// are all put; and how many bytes carry no line bits.
fn read_in_turns(line: &[u8], size: usize, rows: usize) -> (Vec<Taken>, usize) {
    let (mut reader, mut room) = (PushReader::new(), vec![0; READ_ROW * (rows + 1) - 1]);
    let (mut frames, mut all_passed) = (Vec::new(), 0);
    for mut piece in line.chunks(size) {
        let mut is_full = true;
        while is_full {
            let Turns { used, passed, frames: read } = reader.read(piece, &mut room).expect("the line goes on");
            piece = &piece[used..];
            is_full = read.len() == rows;
            all_passed += passed;
            frames.extend(read);
        }
        assert!(piece.is_empty(), "without a frame for every row all bytes are used");
    }
    reader.finish(|taken| frames.push(taken));
    (frames, all_passed)
}

#[test]
fn read_into_any_number_of_rows_the_frames_are_the_same() {
    for (name, bytes, _) in streams() {
        let mut reader = Reader::new(&bytes[..]);
        let whole: Vec<_> = (&mut reader).map(|taken| taken.expect("bytes can be read")).collect();
        for (size, rows) in [(1, 1), (7, 2), (61, 1), (512, 3), (4096, 16)] {
            let (frames, passed) = read_in_turns(&bytes, size, rows);
            assert_eq!(frames, whole, "{name} in pieces of {size} and {rows} rows");
            assert_eq!(passed as u64, reader.passed(), "{name}");
        }
    }
}

#[test]
fn one_call_reads_a_whole_stream_where_there_is_room() {
    for (name, bytes, _) in streams() {
        let whole: Vec<_> = Reader::new(&bytes[..]).map(|taken| taken.expect("bytes can be read")).collect();
        let (mut reader, mut rows) = (PushReader::new(), vec![0; room_for(bytes.len())]);
        let turns = reader.read(&bytes, &mut rows).expect("a line begins");
        assert_eq!(turns.used, bytes.len(), "{name}");
        let mut frames: Vec<_> = turns.frames.collect();
        reader.finish(|taken| frames.push(taken));
        assert_eq!(frames, whole, "{name}");
    }
}
