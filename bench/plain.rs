//! The same job as `bc run`, as one would write it in plain Rust with nothing proved: it judges a trace and replays it in one pass
//! over the bytes, on a heap that never frees, and prints the replies. `bench/replay` and `bench/shapes` run the two side by side.
//!
//! No words and no operations are kept: each line is done as it is read. The replies are kept until all is read, since a trace
//! with a fault is to print nothing but that fault. Tests that name a fault are made where a line was refused, and nowhere else.

use std::io::{self, Read, Write};
use std::process::ExitCode;

/// A trace may have so many bytes.
const LIMIT: usize = 16_777_216;

/// A number is below this.
const NUMBERS: u64 = 1 << 63;

/// The header's words, with the least number of each and the one after the greatest; those of `frames` come from the others.
const HEADER: [(&[u8], u64, u64); 8] = [
    (b"bc-trace", 1, 4),
    (b"lanes", 1, 17),
    (b"domains", 1, 65),
    (b"slots", 1, 257),
    (b"superpages", 1, 4097),
    (b"nursery", 1, 17),
    (b"buffer", 1, 4097),
    (b"frames", 0, NUMBERS),
];

/// The first four bytes of a line as one number.
const fn front(bytes: &[u8; 4]) -> u32 {
    u32::from_le_bytes(*bytes)
}

const NEW: u32 = front(b"new ");
const WHO: u32 = front(b"who ");
const LEN: u32 = front(b"len ");
const SET: u32 = front(b"set ");
const CUT: u32 = front(b"cut ");
const LINK: u32 = front(b"link");
const LOAD: u32 = front(b"load");
const COPY: u32 = front(b"copy");
const CLEAR: u32 = front(b"clea");
const SAME: u32 = front(b"same");
const PHASE: u32 = front(b"phas");
const TURN: u32 = front(b"turn");
const GIVE: u32 = front(b"give");
const FREEZE: u32 = front(b"free");

/// What stands in a domain's place among the holders where all lanes may read it and none may write it.
const FROZEN: usize = usize::MAX;

/// A `turn` line may withhold or return so many frames.
const FRAMES: u64 = 16_640;

/// What is left of the trace. Each method takes something off its front, or answers None and leaves it within the same line.
struct Rest<'a>(&'a [u8]);

impl<'a> Rest<'a> {
    #[inline(always)]
    fn front(&self) -> u32 {
        self.0.first_chunk().map_or(0, front)
    }

    #[inline(always)]
    fn take<const N: usize>(&mut self, bytes: &[u8; N]) -> Option<()> {
        self.0 = self.0.strip_prefix(bytes)?;
        Some(())
    }

    #[inline(always)]
    fn operand(&mut self, limit: u64) -> Option<u64> {
        let [b' ', text @ ..] = self.0 else {
            return None;
        };
        self.number(text, limit)
    }

    /// A number below the limit, with which this text begins: what is behind it is left. Numbers of twenty digits and more are refused
    /// unread, so that nothing overflows.
    #[inline(always)]
    fn number(&mut self, text: &'a [u8], limit: u64) -> Option<u64> {
        let [first @ b'0'..=b'9', digits @ ..] = text else {
            return None;
        };
        let (mut value, mut count) = (u64::from(first - b'0'), 0);
        if value != 0 {
            while let Some(digit @ b'0'..=b'9') = digits.get(count) {
                value = value.wrapping_mul(10).wrapping_add(u64::from(digit - b'0'));
                count += 1;
            }
        }
        if value >= limit || count > 18 {
            return None;
        }
        self.0 = &digits[count..];
        Some(value)
    }
}

/// Which lines may stand next.
enum Place {
    Header(usize),
    Phases,
    Turns,
    /// Operations of the lane before this one, the next lane's line, and after the last lane what ends a phase.
    Lane(u64),
    Gives,
    Done,
}

/// What an operation is answered that can't be done.
enum Refusal {
    NotObj,
    Foreign,
    Frozen,
    Range,
}

/// Objects that are never freed, root slots and holders. A value is 0 for nil, 2v + 1 for the number v, and 2a + 2 for the object
/// whose head is word a; its fields lie after the head, which is `Heap::head` of it.
struct Heap {
    words: Vec<u64>,
    slots: Vec<u64>,
    width: usize,
    holders: [usize; 64],
    serials: [u32; 16],
}

/// A slot as a line names it: its domain, and its place among all slots.
#[derive(Clone, Copy)]
struct Slot {
    domain: usize,
    place: usize,
}

const fn is_object(value: u64) -> bool {
    value & 1 == 0 && value != 0
}

impl Heap {
    fn new(lanes: usize, domains: usize, width: usize) -> Heap {
        Heap {
            words: Vec::new(),
            slots: vec![0; domains * width],
            width,
            holders: std::array::from_fn(|domain| domain % lanes),
            serials: [0; 16],
        }
    }

    /// Bits 0 to 7 of a head are the number of fields, 8 to 15 the domain, 16 to 23 the lane of the birth, and from 32 its serial.
    #[inline(always)]
    fn head(&self, object: u64) -> u64 {
        self.words[object as usize / 2 - 1]
    }

    #[inline(always)]
    fn domain(&self, object: u64) -> usize {
        (self.head(object) >> 8 & 63) as usize
    }

    #[inline(always)]
    fn reads(&self, lane: usize, domain: usize) -> bool {
        let holder = self.holders[domain & 63];
        holder == lane || holder == FROZEN
    }

    #[inline(always)]
    fn is_frozen(&self, domain: usize) -> bool {
        self.holders[domain & 63] == FROZEN
    }

    /// Whether the lane may write the slot, or the refusal.
    #[inline(always)]
    fn write(&self, lane: usize, slot: Slot) -> Result<(), Refusal> {
        match self.holders[slot.domain & 63] {
            holder if holder == lane => Ok(()),
            FROZEN => Err(Refusal::Frozen),
            _ => Err(Refusal::Foreign),
        }
    }

    /// The object in the slot, if the lane may read its fields.
    #[inline(always)]
    fn object(&self, lane: usize, slot: Slot) -> Result<u64, Refusal> {
        let value = self.slots[slot.place];
        if !self.reads(lane, slot.domain) {
            Err(Refusal::Foreign)
        } else if !is_object(value) {
            Err(Refusal::NotObj)
        } else if !self.reads(lane, self.domain(value)) {
            Err(Refusal::Foreign)
        } else {
            Ok(value)
        }
    }

    /// The place of the word of the field of the object.
    #[inline(always)]
    fn field(&self, object: u64, field: u64) -> Result<usize, Refusal> {
        if field >= self.head(object) & 255 {
            return Err(Refusal::Range);
        }
        Ok(object as usize / 2 + field as usize)
    }

    /// Makes an object and answers its serial.
    #[inline(always)]
    fn make(&mut self, lane: usize, slot: Slot, fields: u64) -> Result<u32, Refusal> {
        self.write(lane, slot)?;
        self.serials[lane] += 1;
        let serial = self.serials[lane];
        self.slots[slot.place] = 2 * self.words.len() as u64 + 2;
        self.words.push(u64::from(serial) << 32 | (lane as u64) << 16 | (slot.domain as u64) << 8 | fields);
        self.words.resize(self.words.len() + fields as usize, 0);
        Ok(serial)
    }
}

/// The text that is written at the end.
struct Replies(Vec<u8>);

impl Replies {
    #[inline(always)]
    fn say<const N: usize>(&mut self, bytes: &[u8; N]) {
        self.0.extend_from_slice(bytes);
    }

    #[inline(always)]
    fn number<const N: usize>(&mut self, word: &[u8; N], number: u64) {
        let mut line = Backwards::new();
        line.number(number);
        line.bytes(word);
        self.0.extend_from_slice(line.text());
    }

    #[inline(always)]
    fn birth(&mut self, lane: u64, serial: u64) {
        let mut line = Backwards::new();
        line.number(serial);
        line.bytes(b".");
        line.number(lane);
        line.bytes(b"obj ");
        self.0.extend_from_slice(line.text());
    }

    fn refusal(&mut self, refusal: &Refusal) {
        match refusal {
            Refusal::NotObj => self.say(b"notobj\n"),
            Refusal::Foreign => self.say(b"foreign\n"),
            Refusal::Frozen => self.say(b"frozen\n"),
            Refusal::Range => self.say(b"range\n"),
        }
    }
}

/// A line, written from its end.
struct Backwards {
    bytes: [u8; 64],
    from: usize,
}

impl Backwards {
    #[inline(always)]
    fn new() -> Backwards {
        let mut bytes = [0; 64];
        bytes[63] = b'\n';
        Backwards { bytes, from: 63 }
    }

    #[inline(always)]
    fn number(&mut self, mut number: u64) {
        loop {
            self.from -= 1;
            self.bytes[self.from] = b'0' + (number % 10) as u8;
            number /= 10;
            if number == 0 {
                break;
            }
        }
    }

    #[inline(always)]
    fn bytes<const N: usize>(&mut self, bytes: &[u8; N]) {
        self.from -= N;
        self.bytes[self.from..self.from + N].copy_from_slice(bytes);
    }

    #[inline(always)]
    fn text(&self) -> &[u8] {
        &self.bytes[self.from..]
    }
}

struct Replay<'a> {
    trace: &'a [u8],
    rest: Rest<'a>,
    place: Place,
    header: [u64; 8],
    /// How many frames the phase's last `turn` line says are withheld.
    withheld: u64,
    heap: Heap,
    replies: Replies,
}

impl<'a> Replay<'a> {
    fn new(trace: &'a [u8]) -> Replay<'a> {
        Replay {
            trace,
            rest: Rest(trace),
            place: Place::Header(0),
            header: [0; 8],
            withheld: 0,
            heap: Heap::new(1, 1, 1),
            replies: Replies(Vec::new()),
        }
    }

    /// Reads and replays the whole trace. None: the line in which `rest` begins, or its end, is the first fault.
    fn trace(&mut self) -> Option<()> {
        self.header()?;
        let [_, lanes, domains, width, ..] = self.header.map(|number| number as usize);
        self.heap = Heap::new(lanes, domains, width);
        let mut phase = 0;
        self.place = Place::Phases;
        while self.rest.front() == PHASE {
            phase += 1;
            self.phase(phase)?;
        }
        self.rest.take(b"done\n")?;
        self.place = Place::Done;
        self.replies.say(b"done\n");
        self.rest.0.is_empty().then_some(())
    }

    fn header(&mut self) -> Option<()> {
        for (line, (word, ..)) in HEADER.iter().enumerate() {
            self.place = Place::Header(line);
            self.rest.0 = self.rest.0.strip_prefix(*word)?;
            let (least, end) = self.range_of(line);
            self.header[line] = self.rest.operand(end).filter(|number| *number >= least)?;
            self.rest.take(b"\n")?;
        }
        Some(())
    }

    /// The least number of a line of the header, and the one after the greatest.
    fn range_of(&self, line: usize) -> (u64, u64) {
        let [_, lanes, _, _, superpages, nursery, ..] = self.header;
        match line {
            7 => (lanes * nursery + 2, lanes * nursery + 4 * superpages + 1),
            _ => (HEADER[line].1, HEADER[line].2),
        }
    }

    fn phase(&mut self, phase: u64) -> Option<()> {
        self.rest.take(b"phase\n")?;
        self.place = Place::Turns;
        self.withheld = 0;
        self.replies.number(b"phase ", phase);
        while self.rest.front() == TURN {
            self.turn()?;
        }
        for lane in 0..self.header[1] {
            self.rest.take(b"lane")?;
            self.rest.operand(lane + 1).filter(|number| *number == lane)?;
            self.rest.take(b"\n")?;
            self.place = Place::Lane(lane + 1);
            self.replies.number(b"lane ", lane);
            self.operations(lane as usize)?;
        }
        while self.change()? {
            self.place = Place::Gives;
        }
        self.rest.take(b"end\n")?;
        self.place = Place::Phases;
        Some(())
    }

    /// Hands a domain to a lane, or freezes it. False: the line is neither.
    fn change(&mut self) -> Option<bool> {
        let front = self.rest.front();
        let (domain, holder) = if front == GIVE {
            self.rest.take(b"give")?;
            (self.rest.operand(self.header[2])?, self.rest.operand(self.header[1])? as usize)
        } else if front == FREEZE && self.header[0] >= 2 {
            self.rest.take(b"freeze")?;
            (self.rest.operand(self.header[2])?, FROZEN)
        } else {
            return Some(false);
        };
        self.rest.take(b"\n")?;
        self.heap.holders[domain as usize] = holder;
        Some(true)
    }

    fn turn(&mut self) -> Option<()> {
        self.rest.take(b"turn")?;
        let withheld = self.shift()?;
        for _ in 0..64 {
            if self.rest.0.first() == Some(&b'\n') {
                break;
            }
            self.rest.operand(1 << 32)?;
        }
        self.rest.take(b"\n")?;
        self.withheld = withheld;
        Some(())
    }

    /// How many frames are withheld from a turn's line on: in version 3 its first operand may say how many more or fewer.
    fn shift(&mut self) -> Option<u64> {
        let (sign, text) = match self.rest.0 {
            [b' ', sign @ (b'+' | b'-'), text @ ..] if self.header[0] == 3 => (*sign, text),
            _ => return Some(self.withheld),
        };
        let frames = self.rest.number(text, FRAMES + 1).filter(|frames| *frames > 0)?;
        let [_, lanes, _, _, _, nursery, _, all] = self.header;
        match sign {
            b'+' => self.withheld.checked_sub(frames),
            _ => Some(self.withheld + frames).filter(|withheld| lanes * nursery + 2 + withheld <= all),
        }
    }

    #[inline(always)]
    fn slot(&mut self) -> Option<Slot> {
        let (domain, slot) = (self.rest.operand(self.header[2])?, self.rest.operand(self.header[3])?);
        Some(Slot { domain: domain as usize, place: self.heap.width * domain as usize + slot as usize })
    }

    /// Does the lane's operations, up to a line that is none.
    fn operations(&mut self, lane: usize) -> Option<()> {
        loop {
            let answer = match self.rest.front() {
                NEW => self.new_object(lane)?,
                WHO => self.who(lane)?,
                LEN => self.len(lane)?,
                SET => self.set(lane)?,
                CUT => self.cut(lane)?,
                LINK => self.link(lane)?,
                LOAD => self.load(lane)?,
                COPY => self.copy(lane)?,
                CLEAR => self.clear(lane)?,
                SAME => self.same(lane)?,
                _ => return Some(()),
            };
            if let Err(refusal) = answer {
                self.replies.refusal(&refusal);
            }
        }
    }

    #[inline(always)]
    fn new_object(&mut self, lane: usize) -> Option<Result<(), Refusal>> {
        self.rest.take(b"new")?;
        let (slot, fields) = (self.slot()?, self.rest.operand(128)?);
        self.rest.take(b"\n")?;
        Some(self.heap.make(lane, slot, fields).map(|serial| self.replies.birth(lane as u64, u64::from(serial))))
    }

    #[inline(always)]
    fn who(&mut self, lane: usize) -> Option<Result<(), Refusal>> {
        self.rest.take(b"who")?;
        let slot = self.slot()?;
        self.rest.take(b"\n")?;
        if !self.heap.reads(lane, slot.domain) {
            return Some(Err(Refusal::Foreign));
        }
        let value = self.heap.slots[slot.place];
        if !is_object(value) {
            self.plain(value);
            return Some(Ok(()));
        }
        if !self.heap.reads(lane, self.heap.domain(value)) {
            return Some(Err(Refusal::Foreign));
        }
        let head = self.heap.head(value);
        self.replies.birth(head >> 16 & 15, head >> 32);
        Some(Ok(()))
    }

    /// Answers nil or a number.
    #[inline(always)]
    fn plain(&mut self, value: u64) {
        match value {
            0 => self.replies.say(b"nil\n"),
            _ => self.replies.number(b"num ", value / 2),
        }
    }

    #[inline(always)]
    fn len(&mut self, lane: usize) -> Option<Result<(), Refusal>> {
        self.rest.take(b"len")?;
        let slot = self.slot()?;
        self.rest.take(b"\n")?;
        Some(self.heap.object(lane, slot).map(|object| self.replies.number(b"len ", self.heap.head(object) & 255)))
    }

    #[inline(always)]
    fn set(&mut self, lane: usize) -> Option<Result<(), Refusal>> {
        self.rest.take(b"set")?;
        let (slot, field, number) = (self.slot()?, self.rest.operand(127)?, self.rest.operand(NUMBERS)?);
        self.rest.take(b"\n")?;
        Some(self.store(lane, slot, field, 2 * number + 1))
    }

    #[inline(always)]
    fn cut(&mut self, lane: usize) -> Option<Result<(), Refusal>> {
        self.rest.take(b"cut")?;
        let (slot, field) = (self.slot()?, self.rest.operand(127)?);
        self.rest.take(b"\n")?;
        Some(self.store(lane, slot, field, 0))
    }

    #[inline(always)]
    fn link(&mut self, lane: usize) -> Option<Result<(), Refusal>> {
        self.rest.take(b"link")?;
        let (slot, field, from) = (self.slot()?, self.rest.operand(127)?, self.slot()?);
        self.rest.take(b"\n")?;
        if !self.heap.reads(lane, from.domain) {
            return Some(Err(Refusal::Foreign));
        }
        Some(self.store(lane, slot, field, self.heap.slots[from.place]))
    }

    #[inline(always)]
    fn store(&mut self, lane: usize, slot: Slot, field: u64, value: u64) -> Result<(), Refusal> {
        let object = self.heap.object(lane, slot)?;
        if self.heap.is_frozen(self.heap.domain(object)) {
            return Err(Refusal::Frozen);
        }
        let place = self.heap.field(object, field)?;
        self.heap.words[place] = value;
        self.replies.say(b"ok\n");
        Ok(())
    }

    #[inline(always)]
    fn load(&mut self, lane: usize) -> Option<Result<(), Refusal>> {
        self.rest.take(b"load")?;
        let (slot, field, to) = (self.slot()?, self.rest.operand(127)?, self.slot()?);
        self.rest.take(b"\n")?;
        Some(self.load_field(lane, slot, field, to))
    }

    #[inline(always)]
    fn load_field(&mut self, lane: usize, slot: Slot, field: u64, to: Slot) -> Result<(), Refusal> {
        if !self.heap.reads(lane, slot.domain) {
            return Err(Refusal::Foreign);
        }
        self.heap.write(lane, to)?;
        let place = self.heap.field(self.heap.object(lane, slot)?, field)?;
        let value = self.heap.words[place];
        self.heap.slots[to.place] = value;
        if is_object(value) {
            self.replies.say(b"ref\n")
        } else {
            self.plain(value)
        }
        Ok(())
    }

    /// Two slots, and whether the lane may read both.
    #[inline(always)]
    fn two_slots(&mut self, lane: usize) -> Option<(Slot, Slot, bool)> {
        let (one, other) = (self.slot()?, self.slot()?);
        self.rest.take(b"\n")?;
        Some((one, other, self.heap.reads(lane, one.domain) && self.heap.reads(lane, other.domain)))
    }

    #[inline(always)]
    fn copy(&mut self, lane: usize) -> Option<Result<(), Refusal>> {
        self.rest.take(b"copy")?;
        let (from, to, reads) = self.two_slots(lane)?;
        if !reads {
            return Some(Err(Refusal::Foreign));
        }
        if self.heap.is_frozen(to.domain) {
            return Some(Err(Refusal::Frozen));
        }
        self.heap.slots[to.place] = self.heap.slots[from.place];
        self.replies.say(b"ok\n");
        Some(Ok(()))
    }

    #[inline(always)]
    fn clear(&mut self, lane: usize) -> Option<Result<(), Refusal>> {
        self.rest.take(b"clear")?;
        let slot = self.slot()?;
        self.rest.take(b"\n")?;
        if let Err(refusal) = self.heap.write(lane, slot) {
            return Some(Err(refusal));
        }
        self.heap.slots[slot.place] = 0;
        self.replies.say(b"ok\n");
        Some(Ok(()))
    }

    #[inline(always)]
    fn same(&mut self, lane: usize) -> Option<Result<(), Refusal>> {
        self.rest.take(b"same")?;
        let (one, other, reads) = self.two_slots(lane)?;
        if !reads {
            return Some(Err(Refusal::Foreign));
        }
        match self.heap.slots[one.place] == self.heap.slots[other.place] {
            true => self.replies.say(b"yes\n"),
            false => self.replies.say(b"no\n"),
        }
        Some(Ok(()))
    }
}

/// The tests of a line, for a trace that was refused.
impl Replay<'_> {
    /// The number of the line in which `rest` begins, and the cause for which it is refused.
    fn fault(&self) -> (usize, &'static str) {
        let read = self.trace.len() - self.rest.0.len();
        let before = self.trace[..read].iter().filter(|byte| **byte == b'\n').count();
        let begin = self.trace[..read].iter().rposition(|byte| *byte == b'\n').map_or(0, |place| place + 1);
        let line = &self.trace[begin..];
        match (line.iter().position(|byte| *byte == b'\n'), &self.place) {
            (Some(end), _) => (before + 1, self.cause(&line[..end])),
            (None, Place::Done) => (before + 1, "order"),
            (None, _) => (before + usize::from(!line.is_empty()), "end"),
        }
    }

    fn cause(&self, line: &[u8]) -> &'static str {
        let is_printable = line.iter().all(|byte| (0x20..=0x7e).contains(byte));
        let mut words = line.split(|byte| *byte == b' ');
        if !is_printable || words.clone().any(<[u8]>::is_empty) {
            return "form";
        }
        let word = words.next().unwrap_or_default();
        let Some(ranges) = self.ranges_of_operands(word) else {
            return "word";
        };
        if !self.may_stand(word) {
            return "order";
        }
        let mut operands: Vec<&[u8]> = words.collect();
        let shift = self.take_shift(word, &mut operands);
        if operands.len() > ranges.len() || (operands.len() < ranges.len() && word != b"turn") {
            return "form";
        }
        let has_shift = shift.is_some();
        let Some(numbers) = shift.into_iter().chain(operands).map(number).collect::<Option<Vec<u64>>>() else {
            return "number";
        };
        let of_shift = has_shift.then_some((1, FRAMES + 1));
        let is_inside = numbers.iter().zip(of_shift.into_iter().chain(ranges)).all(|(number, (least, end))| (least..end).contains(number));
        if word == b"frames" || (has_shift && is_inside) {
            return "frames";
        }
        if is_inside { unreachable!("a good line was refused") } else { "range" }
    }

    /// Takes the operand with a sign from a turn's line, where it has one by its version, and answers what follows the sign.
    fn take_shift<'b>(&self, word: &[u8], operands: &mut Vec<&'b [u8]>) -> Option<&'b [u8]> {
        let (sign, frames) = operands.first()?.split_first()?;
        if word != b"turn" || self.header[0] != 3 || !b"+-".contains(sign) {
            return None;
        }
        operands.remove(0);
        Some(frames)
    }

    /// For each operand of the word its least number and the one after its greatest; all that a turn may have. None: no word.
    fn ranges_of_operands(&self, word: &[u8]) -> Option<Vec<(u64, u64)>> {
        if let Some(line) = HEADER.iter().position(|(name, ..)| *name == word) {
            return Some(vec![self.range_of(line)]);
        }
        let [_, lanes, domains, slots, ..] = self.header;
        let (domain, slot, field, number) = ((0, domains), (0, slots), (0, 127), (0, NUMBERS));
        Some(match word {
            b"phase" | b"end" | b"done" => vec![],
            b"turn" => vec![(0, 1 << 32); 64],
            b"lane" => match self.place {
                Place::Turns => vec![(0, 1)],
                Place::Lane(lane) => vec![(lane, lane + 1)],
                _ => vec![number],
            },
            b"give" => vec![domain, (0, lanes)],
            b"freeze" if self.header[0] >= 2 => vec![domain],
            b"new" => vec![domain, slot, (0, 128)],
            b"who" | b"len" | b"clear" => vec![domain, slot],
            b"set" => vec![domain, slot, field, number],
            b"cut" => vec![domain, slot, field],
            b"link" | b"load" => vec![domain, slot, field, domain, slot],
            b"copy" | b"same" => vec![domain, slot, domain, slot],
            _ => return None,
        })
    }

    fn may_stand(&self, word: &[u8]) -> bool {
        let is_structure = HEADER.iter().any(|(name, ..)| *name == word)
            || [&b"phase"[..], b"turn", b"lane", b"give", b"freeze", b"end", b"done"].contains(&word);
        match self.place {
            Place::Header(line) => word == HEADER[line].0,
            Place::Phases => word == b"phase" || word == b"done",
            Place::Turns => word == b"turn" || word == b"lane",
            Place::Lane(lane) if lane < self.header[1] => word == b"lane" || !is_structure,
            Place::Lane(_) => ends_lanes(word) || !is_structure,
            Place::Gives => ends_lanes(word),
            Place::Done => false,
        }
    }
}

/// Whether a line of this word may stand after the last lane's operations.
fn ends_lanes(word: &[u8]) -> bool {
    [&b"give"[..], b"freeze", b"end"].contains(&word)
}

/// A number of the language: no sign, no leading zero, below the limit of numbers.
fn number(word: &[u8]) -> Option<u64> {
    let is_decimal = word.iter().all(u8::is_ascii_digit) && (word == b"0" || word.first() != Some(&b'0'));
    let text = std::str::from_utf8(word).ok().filter(|_| is_decimal)?;
    text.parse().ok().filter(|number| *number < NUMBERS)
}

fn run() -> Result<(), (u8, String)> {
    let mut trace = Vec::new();
    let read = io::stdin().lock().take(LIMIT as u64 + 1).read_to_end(&mut trace);
    read.map_err(|_| (4, "read failed".to_string()))?;
    if trace.len() > LIMIT {
        return Err((3, format!("input longer than {LIMIT} bytes")));
    }
    let mut replay = Replay::new(&trace);
    if replay.trace().is_none() {
        let (line, cause) = replay.fault();
        return Err((3, format!("line {line}: {cause}")));
    }
    let mut out = io::stdout().lock();
    let written = out.write_all(&replay.replies.0).and_then(|()| out.flush());
    written.map_err(|_| (5, "write failed".to_string()))
}

fn main() -> ExitCode {
    match run() {
        Ok(()) => ExitCode::SUCCESS,
        Err((status, message)) => {
            eprintln!("bc: {message}");
            ExitCode::from(status)
        }
    }
}
