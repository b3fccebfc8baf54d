//! Replays a trace from standard input with one of several collectors, and prints a line of words for each phase:
//!
//!     opponent COLLECTOR [fewest | steps]
//!
//! `bookmarks` is the heap as it is. The others have no bookmarks, and collect the whole heap where survivors find no cell. `mark-sweep` marks
//! from the root slots, follows every reference on whatever page, and frees what isn't marked, on every page, by the headers; where survivors
//! find no cell even then the fail-safe comes. `packing` packs the heap by the fail-safe at once. For both a page leaves and comes back without
//! a look at what lies on it. All else is the same: the heap, the nurseries, where survivors are placed, and the choice of the page that
//! makes room.
//!
//! A line has words as those of crates/paging_bench: `promotions`, `collections` and `failsafes` are minor collections by what they needed, `early`
//! bookmark collections before pages had to leave, `lane_reads` the pages that operations read, and the other reads those of collections. It
//! has `sweeps` and `sweep_reads` of mark-and-sweep, `evictions` and `discards` of pages with and without objects, but for those in a fail-safe,
//! and `nanoseconds` of processor time. With `fewest` the last line has `fewest`, the reads of the best choice of pages
//! for what operations and placing touched, within all frames, as if none were withheld. With `steps` there is a line for each emptying of the
//! nurseries as well: the operations before it, its kind (promotion, early, collection, sweep or fail-safe), the pages that it read, how many are
//! home, gone and absent after it, the frames that are withheld, and the pages that were read so far (`all_reads`).

use bc_gates::{Host, OpenGate};
use bc_marking::{Cursor, MarkPace, line_after, line_at};
use bc_model::{Holder, Op, Reply, TurnLine};
use bc_pager::{Answer, answer_all};
use bc_superpages::{PageState, Space};
use pages::all_left;
use shim::{Alone, Global};
use std::io::Read;
use trace::{Phase, Trace};

/// What the heap works with: this thread alone.
static HOST: Host<Alone, OpenGate> = Host { threads: &Alone, alloc: Global, gate: &OpenGate };

#[derive(Clone, Copy, PartialEq, Eq)]
enum Collector {
    Bookmarks,
    MarkSweep,
    Packing,
}

/// What is counted of a phase.
#[derive(Default)]
struct Counts {
    promotions: u64,
    collections: u64,
    early: u64,
    sweeps: u64,
    failsafes: u64,
    lane_reads: u64,
    collection_reads: u64,
    promotion_reads: u64,
    sweep_reads: u64,
    failsafe_reads: u64,
    failsafe_gone: u64,
}

struct Play {
    collector: Collector,
    heap: bc_cycle::Heap,
    holders: Vec<Holder>,
    serials: Vec<u32>,
    nurseries: u32,
    pressure: bc_running::pressure::Pressure,
    /// No marking has a table.
    pace: MarkPace,
    /// What became of the notices of the phase.
    answers: shim::Vec<Answer>,
    counts: Counts,
    /// Operations and emptyings of all phases so far, where each emptying is to be printed.
    steps: Option<(u64, u64)>,
}

/// The lines of a phase's turns, and which one is next.
struct Lines<'a> {
    lines: &'a [TurnLine],
    next: Cursor,
}

impl Lines<'_> {
    /// How many frames are withheld in a turn that uses the next line.
    fn withheld(&self) -> u32 {
        self.lines.get(self.next.line).map_or(0, |line| line.withheld)
    }
}

/// A lane's place in a phase, and a number made of its replies.
#[derive(Clone, Copy, Default)]
struct Progress {
    done: usize,
    replies: u64,
}

fn mixed(number: u64, more: u64) -> u64 {
    (number ^ more).wrapping_mul(1_099_511_628_211)
}

fn numbers_of(reply: &Reply) -> (u64, u64) {
    match *reply {
        Reply::Obj(birth) => (1, u64::from(birth.lane) << 32 | u64::from(birth.serial)),
        Reply::Done => (2, 0),
        Reply::Nil => (3, 0),
        Reply::Num(number) => (4, number),
        Reply::Ref => (5, 0),
        Reply::Len(fields) => (6, u64::from(fields)),
        Reply::Yes => (7, 0),
        Reply::No => (8, 0),
        Reply::NotObj => (9, 0),
        Reply::Range => (10, 0),
        Reply::Foreign => (11, 0),
        Reply::Frozen => (12, 0),
    }
}

fn gone(space: &Space) -> u64 {
    (0..space.pages()).filter(|page| space.state(*page) == PageState::Gone).count() as u64
}

impl Play {
    fn reads(&self) -> u64 {
        self.heap.space.reads()
    }

    /// Does an operation of a lane. False where it is at its end, or stops.
    fn advance(&mut self, lane: usize, ops: &[Op], at: &mut Progress) -> bool {
        let Some(op) = ops.get(at.done) else {
            return false;
        };
        let before = self.reads();
        let reply = bc_running::operating::attempt(&mut self.heap, &self.holders, &mut self.serials, lane as u32, op);
        self.counts.lane_reads += self.reads() - before;
        let Ok(reply) = reply else {
            return false;
        };
        let (kind, value) = numbers_of(&reply);
        at.done += 1;
        if let Some((operations, _)) = &mut self.steps {
            *operations += 1;
        }
        at.replies = mixed(mixed(at.replies, kind), value);
        true
    }

    /// Answers the notices of the next line.
    fn serve(&mut self, at: &mut Lines) {
        answer_all(&mut self.heap.space, line_at(at.lines, at.next.line), &mut self.answers);
        at.next = Cursor::at(line_after(at.lines, at.next.line));
        bc_bookmarks::settle(&mut self.heap.space);
    }

    /// A bookmark collection before pages with objects have to leave, as for the nurseries or since the next line withholds more frames. Its
    /// marking answers the notices of the next line.
    fn collect_if_short(&mut self, at: &mut Lines) {
        let wanted = self.nurseries + at.withheld().saturating_sub(self.heap.space.withheld(self.nurseries));
        if self.collector != Collector::Bookmarks || !self.pressure.is_high(&self.heap.space, wanted) {
            return;
        }
        let (before, reads) = (bc_running::pressure::pages_with_objects(&self.heap.space), self.reads());
        let Lines { lines, next } = at;
        self.heap.collect(&HOST, 1, &mut self.pace, lines, next, &mut self.answers, 0).unwrap();
        self.pressure.note(before, &self.heap.space);
        self.counts.early += 1;
        self.counts.collection_reads += self.reads() - reads;
    }

    /// Empties the nurseries, and collects before it where frames are short. The need, where the heap is too small.
    fn empty_told(&mut self, at: &mut Lines) -> Option<u64> {
        let reads = self.reads();
        let Counts { early, collections, sweeps, failsafes, .. } = self.counts;
        self.collect_if_short(at);
        let need = self.empty(at);
        let Some((operations, emptyings)) = &mut self.steps else {
            return need;
        };
        *emptyings += 1;
        let kinds = [(self.counts.failsafes > failsafes, "fail-safe"), (self.counts.sweeps > sweeps, "sweep"),
            (self.counts.collections > collections, "collection"), (self.counts.early > early, "early")];
        let kind = kinds.iter().find(|(came, _)| *came).map_or("promotion", |(_, name)| name);
        let space = &self.heap.space;
        let away = gone(space);
        let home = (0..space.pages()).filter(|page| space.resident(*page)).count() as u64;
        print!("emptying={emptyings} operations={operations} kind={kind} reads={}", space.reads() - reads);
        print!(" home={home} gone={away} absent={}", u64::from(space.pages()) - home - away);
        println!(" withheld={} all_reads={}", space.withheld(self.nurseries), space.reads());
        need
    }

    /// Empties the nurseries. A bookmark collection in it answers the notices of the next line. The need, where the heap is too small.
    fn empty(&mut self, at: &mut Lines) -> Option<u64> {
        let bc_cycle::Heap { space, roots, chunks, buffers, survivors, .. } = &mut self.heap;
        let start = space.reads();
        if bc_cycle::emptying::prepare(space, roots, chunks, buffers) {
            bc_cycle::emptying::empty_promised(space, roots, chunks, buffers, survivors);
            self.counts.promotions += 1;
            self.counts.promotion_reads += space.reads() - start;
            return None;
        }
        let fit = match self.collector {
            Collector::Bookmarks => {
                let Lines { lines, next } = at;
                let (pace, answers) = (&mut self.pace, &mut self.answers);
                bc_cycle::collecting::prepare_again(
                    &HOST, space, roots, chunks, buffers, 1, pace, lines, next, answers, 0,
                )
            }
            Collector::MarkSweep => marking::sweep_whole(space, roots, chunks) && bc_promotion::promise_marked(space, chunks),
            Collector::Packing => false,
        };
        if self.collector == Collector::MarkSweep {
            self.counts.sweeps += 1;
            self.counts.sweep_reads += space.reads() - start;
        }
        if fit {
            let marked = space.reads();
            bc_cycle::emptying::empty_promised(space, roots, chunks, buffers, survivors);
            self.counts.promotion_reads += space.reads() - marked;
            if self.collector == Collector::Bookmarks {
                self.counts.collections += 1;
                self.counts.collection_reads += marked - start;
            }
            return None;
        }
        let before = space.reads();
        self.counts.failsafes += 1;
        self.counts.failsafe_gone += gone(space);
        let packed = bc_failsafe::failsafe_by_entries(space, roots, chunks, buffers);
        self.counts.failsafe_reads += space.reads() - before;
        match packed {
            Ok(()) => {
                roots.forget();
                None
            }
            Err(need) => Some(need.0),
        }
    }

    /// Plays the rounds of a phase. The need, where the heap is too small.
    fn rounds(&mut self, phase: &Phase, lanes: &mut [Progress]) -> Option<u64> {
        let mut at = Lines { lines: &phase.turns, next: Cursor::at(0) };
        self.answers.clear();
        loop {
            bc_bookmarks::withhold(&mut self.heap.space, self.nurseries, at.withheld());
            for (lane, at) in lanes.iter_mut().enumerate() {
                while self.advance(lane, &phase.lanes[lane], at) {}
            }
            self.serve(&mut at);
            let need = self.empty_told(&mut at);
            if need.is_some() || lanes.iter().zip(&phase.lanes).all(|(at, ops)| at.done == ops.len()) {
                bc_bookmarks::withhold(&mut self.heap.space, self.nurseries, 0);
                return need;
            }
            for (lane, at) in lanes.iter_mut().enumerate() {
                self.advance(lane, &phase.lanes[lane], at);
            }
        }
    }

    /// Plays a phase and prints its line. Nothing where others may follow, else the need.
    fn phase(&mut self, number: usize, phase: &Phase, bound: Option<(usize, usize)>) -> Option<u64> {
        self.counts = Counts::default();
        let (evicted, discarded) = all_left();
        let start = processor_time();
        let mut lanes = vec![Progress::default(); phase.lanes.len()];
        let need = self.rounds(phase, &mut lanes);
        for (domain, holder) in &phase.changes {
            self.holders[*domain] = *holder;
        }
        let taken = processor_time() - start;
        let (evicted, discarded) = (all_left().0 - evicted, all_left().1 - discarded);
        let operations: usize = phase.lanes.iter().map(|ops| ops.len()).sum();
        let Counts { promotions, collections, early, sweeps, failsafes, .. } = self.counts;
        let Counts { lane_reads, promotion_reads, collection_reads, sweep_reads, failsafe_reads, failsafe_gone, .. } = self.counts;
        let reads = lane_reads + promotion_reads + collection_reads + sweep_reads + failsafe_reads;
        let replies = lanes.iter().fold(0, |all, lane| mixed(all, lane.replies));
        let superpages = (0..self.heap.space.superpages()).filter(|number| !self.heap.space.header(*number).is_empty()).count();
        print!("phase={number} operations={operations} promotions={promotions} collections={collections} early={early} sweeps={sweeps}");
        print!(" failsafes={failsafes} reads={reads} lane_reads={lane_reads} promotion_reads={promotion_reads}");
        print!(" collection_reads={collection_reads} sweep_reads={sweep_reads} failsafe_reads={failsafe_reads}");
        print!(" failsafe_gone={failsafe_gone} evictions={evicted} discards={discarded} superpages={superpages} replies={replies}");
        print!(" nanoseconds={taken}");
        if let Some((frames, pages)) = bound {
            print!(" fewest={}", pages::fewest_reads(frames, pages));
        }
        println!("{}", need.map_or(String::new(), |need| format!(" need={need}")));
        need
    }
}

#[repr(C)]
struct Time {
    seconds: i64,
    nanoseconds: i64,
}

unsafe extern "C" {
    fn clock_gettime(clock: i32, time: *mut Time) -> i32;
}

/// Nanoseconds of the processor that this process has taken.
fn processor_time() -> i64 {
    let mut time = Time { seconds: 0, nanoseconds: 0 };
    unsafe { clock_gettime(2, &mut time) };
    time.seconds * 1_000_000_000 + time.nanoseconds
}

fn main() {
    let words: Vec<String> = std::env::args().skip(1).collect();
    let collector = match words.first().map(|word| word.as_str()) {
        Some("bookmarks") => Collector::Bookmarks,
        Some("mark-sweep") => Collector::MarkSweep,
        Some("packing") => Collector::Packing,
        _ => panic!("opponent COLLECTOR [fewest | steps]"),
    };
    let wants_fewest = words.get(1).is_some_and(|word| word == "fewest");
    let mut text = String::new();
    std::io::stdin().read_to_string(&mut text).unwrap();
    let Trace { setup, phases } = trace::read(&text);
    pages::begin(collector != Collector::Bookmarks, wants_fewest);
    let nurseries = setup.lanes * setup.nursery;
    let mut play = Play {
        collector,
        heap: bc_cycle::Heap::open(Global, &setup).unwrap(),
        holders: (0..setup.domains).map(|domain| Holder::Lane(domain % setup.lanes)).collect(),
        serials: vec![0; setup.lanes as usize],
        nurseries,
        pressure: bc_running::pressure::Pressure::none(),
        pace: MarkPace::alone(),
        answers: shim::Vec::new(Global),
        counts: Counts::default(),
        steps: words.get(1).is_some_and(|word| word == "steps").then_some((0, 0)),
    };
    let bound = (setup.frames - nurseries) as usize;
    for (index, phase) in phases.iter().enumerate() {
        let is_last = wants_fewest && index + 1 == phases.len();
        if play.phase(index + 1, phase, is_last.then_some((bound, 4 * setup.superpages as usize))).is_some() {
            return;
        }
    }
}
