//! Session sheets: written and read as document 01 lays them out, and with heads as document 02 does (E7). All numbers are
//! little-endian.

pub const COLOUR: u8 = 1;
pub const STRAIGHT: u8 = 2;
/// The strict edition of the template rules (document 02, E5).
pub const STRICT: u8 = 4;
/// Records have the head's serial (document 02, E7).
pub const HEADS: u8 = 8;
/// Padding counts places (document 02, E14).
pub const PLACES: u8 = 16;
const KNOWN: u8 = COLOUR | STRAIGHT | STRICT | HEADS | PLACES;

/// The least bit that is not known.
pub const UNKNOWN: u8 = 32;

pub const FILE: u8 = 1;
pub const LINE: u8 = 2;
pub const MODULE: u8 = 4;
pub const HEAD: u8 = 8;

pub const DEVICE: u8 = 0;
pub const HOST: u8 = 1;

/// How the records of a sheet or of a line call are laid out: "Old sheets are told apart by settings bit 8, which new ones set".
#[derive(Clone, Copy, Debug, PartialEq)]
pub enum Layout {
    Old,
    New,
}

impl Layout {
    pub const BOTH: [Layout; 2] = [Layout::Old, Layout::New];

    pub fn of(settings: u8) -> Layout {
        Layout::BOTH[usize::from(settings & HEADS != 0)]
    }

    /// Its bit of a settings byte.
    pub fn bit(self) -> u8 {
        match self {
            Layout::Old => 0,
            Layout::New => HEADS,
        }
    }

    /// How many texts a record has.
    fn texts(self) -> usize {
        match self {
            Layout::Old => 4,
            Layout::New => 5,
        }
    }

    /// Where the texts begin: behind source, level, mask, line and a length for each.
    pub fn numbers(self) -> usize {
        LENGTHS + 2 * self.texts()
    }

    /// "14 now starts at mask 16, and in old sheets still at 8".
    fn most_mask(self) -> u8 {
        match self {
            Layout::Old => FILE | LINE | MODULE,
            Layout::New => FILE | LINE | MODULE | HEAD,
        }
    }
}

/// Where the lengths of a record's texts begin: behind source, level, mask and line.
pub const LENGTHS: usize = 3 + 4;

#[derive(Clone, Debug, Default, PartialEq)]
pub struct Sheet {
    pub settings: u8,
    pub template: Vec<u8>,
    pub records: Vec<Record>,
}

/// Nothing here is checked against the mask: a contradicting record must be writable too.
#[derive(Clone, Debug, Default, PartialEq)]
pub struct Record {
    pub source: u8,
    pub level: u8,
    pub mask: u8,
    pub line: u32,
    pub file: Vec<u8>,
    pub module: Vec<u8>,
    pub timestamp: Vec<u8>,
    pub message: Vec<u8>,
    /// The serial of the head; the old layout has no place for it.
    pub head: Vec<u8>,
}

impl Record {
    pub fn file(&self) -> Option<&[u8]> {
        (self.mask & FILE != 0).then_some(&self.file)
    }
    pub fn line(&self) -> Option<u32> {
        (self.mask & LINE != 0).then_some(self.line)
    }
    pub fn module(&self) -> Option<&[u8]> {
        (self.mask & MODULE != 0).then_some(&self.module)
    }
    pub fn head(&self) -> Option<&[u8]> {
        (self.mask & HEAD != 0).then_some(&self.head)
    }

    /// In the order in which they are laid out and checked.
    pub fn fields(&self) -> [&[u8]; 5] {
        [&self.file, &self.module, &self.timestamp, &self.message, &self.head]
    }

    /// Refusal 14 does not hold of it.
    pub fn is_possible(&self, layout: Layout) -> bool {
        let known = self.source <= HOST && self.level <= 5 && self.mask <= layout.most_mask();
        let level = self.source == DEVICE || self.level > 0;
        let file = self.file().is_some() || self.file.is_empty();
        let line = self.line().is_some() || self.line == 0;
        let module = self.module().is_some() || self.module.is_empty();
        let head = self.head().is_some() || self.head.is_empty();
        known && level && file && line && module && head
    }

    /// In the old layout without the serial, whatever the mask says of it.
    pub fn write(&self, layout: Layout) -> Vec<u8> {
        let fields = self.fields();
        let fields = &fields[..layout.texts()];
        let mut body = vec![self.source, self.level, self.mask];
        body.extend(self.line.to_le_bytes());
        for field in fields {
            let length = u16::try_from(field.len()).expect("a field of a sheet has at most 65,535 bytes");
            body.extend(length.to_le_bytes());
        }
        body.extend(fields.concat());
        body
    }

    pub fn read(body: &[u8], layout: Layout) -> Option<Record> {
        let (numbers, mut texts) = split(body, layout.numbers())?;
        let mut fields = [&body[..0]; 5];
        for (length, field) in numbers[LENGTHS..].chunks(2).zip(&mut fields) {
            let length = u16::from_le_bytes([length[0], length[1]]);
            (*field, texts) = split(texts, length.into())?;
        }
        texts.is_empty().then(|| Record {
            source: numbers[0],
            level: numbers[1],
            mask: numbers[2],
            line: u32::from_le_bytes([numbers[3], numbers[4], numbers[5], numbers[6]]),
            file: fields[0].to_vec(),
            module: fields[1].to_vec(),
            timestamp: fields[2].to_vec(),
            message: fields[3].to_vec(),
            head: fields[4].to_vec(),
        })
    }
}

impl Sheet {
    pub fn colour(&self) -> bool {
        self.settings & COLOUR != 0
    }

    pub fn strict(&self) -> bool {
        self.settings & STRICT != 0
    }

    pub fn places(&self) -> bool {
        self.settings & PLACES != 0
    }

    pub fn layout(&self) -> Layout {
        Layout::of(self.settings)
    }

    pub fn write(&self) -> Vec<u8> {
        let mut bodies = vec![[&[self.settings], &self.template[..]].concat()];
        bodies.extend(self.records.iter().map(|record| record.write(self.layout())));
        write_bodies(&bodies)
    }

    /// None where document 01 says 15. Its limit of 65,536 bytes is the port's and not applied here.
    pub fn read(sheet: &[u8]) -> Option<Sheet> {
        let bodies = read_bodies(sheet)?;
        let (&settings, template) = bodies.first()?.split_first()?;
        if settings & !KNOWN != 0 {
            return None;
        }
        let layout = Layout::of(settings);
        let records = bodies[1..].iter().map(|body| Record::read(body, layout)).collect::<Option<_>>()?;
        Some(Sheet { settings, template: template.to_vec(), records })
    }
}

/// The outer layout alone, so that damaged bodies can be written as well.
pub fn write_bodies(bodies: &[Vec<u8>]) -> Vec<u8> {
    let count = u16::try_from(bodies.len()).expect("a sheet has at most 65,535 bodies");
    let mut sheet = count.to_le_bytes().to_vec();
    for body in bodies {
        sheet.extend((body.len() as u32).to_le_bytes());
    }
    sheet.extend(bodies.concat());
    sheet
}

fn read_bodies(sheet: &[u8]) -> Option<Vec<&[u8]>> {
    let (count, rest) = split(sheet, 2)?;
    let count = usize::from(u16::from_le_bytes([count[0], count[1]]));
    let (lengths, mut rest) = split(rest, 4 * count)?;
    let mut bodies = Vec::new();
    for length in lengths.chunks(4) {
        let length = u32::from_le_bytes([length[0], length[1], length[2], length[3]]);
        let body;
        (body, rest) = split(rest, length as usize)?;
        bodies.push(body);
    }
    (rest.is_empty() && !bodies.is_empty()).then_some(bodies)
}

fn split(bytes: &[u8], at: usize) -> Option<(&[u8], &[u8])> {
    (at <= bytes.len()).then(|| bytes.split_at(at))
}
