//! Plan files: their records, reading (8, 9, 1, 2, 11, bands too many, then 3, 4, 13, 5, 6) and writing (the entry checks, then 10).

use crate::entry;
use crate::plan::*;
use crate::refusal::Refusal;

/// One kind of record: "Each record begins with two mark bytes (ASCII)."
#[derive(Clone, Copy, Debug, PartialEq, Eq)]
pub struct Record {
    pub mark: [u8; 2],
    /// The table's "total", the mark among it.
    pub length: usize,
}

/// "sense 1, resource count 1, task count 2"
pub const PL: Record = Record {
    mark: *b"PL",
    length: 6,
};

/// "identifier 4, limit 4"
pub const RS: Record = Record {
    mark: *b"RS",
    length: 10,
};

/// "In a file a held resource has mark RH in place of RS, same layout."
pub const RH: Record = Record {
    mark: *b"RH",
    length: RS.length,
};

/// The record of a resource of this kind.
pub const fn resource_record(kind: Kind) -> Record {
    match kind {
        Kind::Plain => RS,
        Kind::Held => RH,
    }
}

/// "resource place (2 bytes), first day (4), limit (4), 12 bytes with the mark"
pub const LB: Record = Record {
    mark: *b"LB",
    length: 12,
};

/// "set 2 (bit k is resource k), then low and high, 4 each, of origin, duration,
/// end, height"
pub const TK: Record = Record {
    mark: *b"TK",
    length: 36,
};

/// How long the file of so many resources, bands and tasks is, and so where the
/// record after them starts: "One PL, all RS, all TK, nothing more", with the LB
/// "after all RS and before TK", and an RH as long as the RS in whose place it is.
pub const fn length(resources: usize, bands: usize, tasks: usize) -> usize {
    PL.length + resources * RS.length + bands * LB.length + tasks * TK.length
}

/// "at most 9,382 bytes" without bands, and 64 times 12 more with them.
pub const LONGEST: usize = length(MOST_RESOURCES, MOST_BANDS, MOST_TASKS);

// ---- Reading ----

/// Reads a plan file into lists that have room for every plan.
pub fn read(bytes: &[u8]) -> Result<Plan, Refusal> {
    read_with_room(bytes, Room::FOR_EVERY_PLAN)
}

/// How many places the lists lent to the reader have.
#[derive(Clone, Copy, Debug, PartialEq, Eq)]
pub struct Room {
    pub resources: usize,
    pub bands: usize,
    pub tasks: usize,
}

impl Room {
    pub const FOR_EVERY_PLAN: Room = Room {
        resources: MOST_RESOURCES,
        bands: MOST_BANDS,
        tasks: MOST_TASKS,
    };
}

/// Reads a plan file into lists that have so much room. "On success the reader
/// writes the first places only and later ones stay": here the lists are new and
/// as long as the file says.
pub fn read_with_room(bytes: &[u8], room: Room) -> Result<Plan, Refusal> {
    let mut reader = Reader { bytes, place: 0 };
    let head = Head::of_fields(reader.due(PL)?);
    // "In PL then, in this order: refusal 8 for the sense, refusal 1 for the task
    // count, refusal 2 for the resource count, refusal 11." PL starts at byte 0.
    let sense = Sense::numbered(head.sense).ok_or(Refusal::wrong_mark_or_sense(0))?;
    let (resources, tasks) = (usize::from(head.resources), usize::from(head.tasks));
    entry::check_counts(resources, tasks)?;
    if resources > room.resources || tasks > room.tasks {
        return Err(Refusal::LIST_SHORTER);
    }
    let mut plan = Plan {
        sense,
        resources: Vec::new(),
        bands: Vec::new(),
        tasks: Vec::new(),
    };
    for _ in 0..resources {
        plan.resources.push(resource(&mut reader)?);
    }
    plan.bands = bands(&mut reader, room.bands)?;
    for _ in 0..tasks {
        plan.tasks.push(task_of(reader.due(TK)?));
    }
    // "After the last record, leftover bytes 9, then 3 to 6", 13 among them.
    reader.end()?;
    entry::check_contents(&plan)?;
    Ok(plan)
}

/// The next resource: RH is due "in place of RS", so that either mark is, each time
/// anew. Any other mark, and a record cut short, is refused as where RS is due.
fn resource(reader: &mut Reader) -> Result<Resource, Refusal> {
    let kind = if reader.is_at(RH) {
        Kind::Held
    } else {
        Kind::Plain
    };
    let fields = reader.due(resource_record(kind))?;
    Ok(resource_of(fields, kind))
}

/// The bands, as far as LB marks follow: nothing says before how many there are.
/// "in a file a 65th is refused when met whole (cut short, it gets 9), as is, with
/// 11, an earlier one that the lent band list has no room for."
fn bands(reader: &mut Reader, room: usize) -> Result<Vec<Band>, Refusal> {
    let mut bands = Vec::new();
    while reader.is_at(LB) {
        let band = band_of(reader.due(LB)?);
        if bands.len() == MOST_BANDS {
            return Err(Refusal::band_outside(MOST_BANDS));
        }
        if bands.len() >= room {
            return Err(Refusal::LIST_SHORTER);
        }
        bands.push(band);
    }
    Ok(bands)
}

/// "A reader stands in the lent file bytes and hands out one record after another".
struct Reader<'a> {
    bytes: &'a [u8],
    place: usize,
}

impl<'a> Reader<'a> {
    /// "each caller takes the record it is due and turns every other answer into
    /// the refusal": what follows its mark. "Per record: fewer than two bytes left,
    /// 9; wrong mark, 8; record longer than the rest, 9."
    fn due(&mut self, record: Record) -> Result<Fields<'a>, Refusal> {
        let start = self.place;
        let rest = &self.bytes[start..];
        let Some(mark) = rest.first_chunk() else {
            return Err(Refusal::cut_short_or_left_over(start));
        };
        if *mark != record.mark {
            return Err(Refusal::wrong_mark_or_sense(start));
        }
        if record.length > rest.len() {
            return Err(Refusal::cut_short_or_left_over(start));
        }
        self.place = start + record.length;
        Ok(Fields(&rest[mark.len()..record.length]))
    }

    /// Whether this record's mark comes next.
    fn is_at(&self, record: Record) -> bool {
        self.bytes[self.place..].starts_with(&record.mark)
    }

    fn end(&self) -> Result<(), Refusal> {
        if self.place < self.bytes.len() {
            return Err(Refusal::cut_short_or_left_over(self.place));
        }
        Ok(())
    }
}

/// A record's bytes that are not taken yet. "Numbers are little-endian, signed
/// ones in two's complement."
struct Fields<'a>(&'a [u8]);

impl Fields<'_> {
    fn take<const SIZE: usize>(&mut self) -> [u8; SIZE] {
        let (field, rest) = self.0.split_first_chunk().expect("the record is whole");
        self.0 = rest;
        *field
    }

    /// A place or a set, in 2 bytes.
    fn unsigned(&mut self) -> u16 {
        u16::from_le_bytes(self.take())
    }

    fn signed(&mut self) -> i32 {
        i32::from_le_bytes(self.take())
    }

    /// "low and high, 4 each"
    fn range(&mut self) -> Range {
        Range {
            low: i64::from(self.signed()),
            high: i64::from(self.signed()),
        }
    }
}

fn resource_of(mut fields: Fields, kind: Kind) -> Resource {
    Resource {
        id: fields.signed(),
        limit: i64::from(fields.signed()),
        kind,
    }
}

fn band_of(mut fields: Fields) -> Band {
    Band {
        place: usize::from(fields.unsigned()),
        from: i64::from(fields.signed()),
        limit: i64::from(fields.signed()),
    }
}

fn task_of(mut fields: Fields) -> Task {
    Task {
        set: Set(u64::from(fields.unsigned())),
        origin: fields.range(),
        duration: fields.range(),
        end: fields.range(),
        height: fields.range(),
    }
}

/// What PL says, as yet unchecked.
pub struct Head {
    pub sense: u8,
    pub resources: u8,
    pub tasks: u16,
}

impl Head {
    /// Counts that are too large keep their low bytes.
    pub fn of(plan: &Plan) -> Head {
        Head {
            sense: plan.sense as u8,
            resources: plan.resources.len() as u8,
            tasks: plan.tasks.len() as u16,
        }
    }

    fn of_fields(mut fields: Fields) -> Head {
        Head {
            sense: u8::from_le_bytes(fields.take()),
            resources: u8::from_le_bytes(fields.take()),
            tasks: fields.unsigned(),
        }
    }

    /// The whole record.
    pub fn bytes(&self) -> Vec<u8> {
        let mut bytes = PL.mark.to_vec();
        bytes.extend(self.sense.to_le_bytes());
        bytes.extend(self.resources.to_le_bytes());
        bytes.extend(self.tasks.to_le_bytes());
        bytes
    }
}

// ---- Writing ----

/// Writes the plan file into the buffer's first bytes and gives its length:
/// the entry checks, then 10. "the writer writes exactly the file's length".
pub fn write(plan: &Plan, buffer: &mut [u8]) -> Result<usize, Refusal> {
    entry::check(plan)?;
    let bytes = unchecked_bytes(plan);
    if buffer.len() < bytes.len() {
        return Err(Refusal::BUFFER_SHORTER);
    }
    buffer[..bytes.len()].copy_from_slice(&bytes);
    Ok(bytes.len())
}

/// The plan's file bytes with no check at all: numbers keep their low bytes,
/// so damaged files can be made as well.
pub fn unchecked_bytes(plan: &Plan) -> Vec<u8> {
    let mut bytes = Head::of(plan).bytes();
    for resource in &plan.resources {
        bytes.extend(resource_record(resource.kind).mark);
        bytes.extend(resource.id.to_le_bytes());
        bytes.extend((resource.limit as i32).to_le_bytes());
    }
    for band in &plan.bands {
        bytes.extend(LB.mark);
        bytes.extend((band.place as u16).to_le_bytes());
        bytes.extend((band.from as i32).to_le_bytes());
        bytes.extend((band.limit as i32).to_le_bytes());
    }
    for task in &plan.tasks {
        bytes.extend(TK.mark);
        bytes.extend((task.set.0 as u16).to_le_bytes());
        for Range { low, high } in task.ranges() {
            bytes.extend((low as i32).to_le_bytes());
            bytes.extend((high as i32).to_le_bytes());
        }
    }
    bytes
}
