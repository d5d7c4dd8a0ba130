//! Counts what was compared, by part, every answer that the library gave, and what was met by messages that empty a book,
//! by those for a strip, by frames, by scraps, and by new levels that push out rows.

use crate::scene::STRIPS;
use mmdh::raw::MmdhGiven;
use std::collections::BTreeMap;
use std::fmt::Debug;

/// The calls, and the answers, reasons or items that each must have given by the end.
#[derive(Clone, Copy, PartialEq, Eq, PartialOrd, Ord, Debug)]
pub enum Call {
    New,
    Connect,
    Arrive,
    ArriveFrame,
    ArriveCut,
    LineConnect,
    LineScrap,
    ReadRow,
    ReadSide,
    ReadStrip,
    Why,
    Password,
}

const WANTED: [(Call, &[u64]); 12] = [
    (Call::New, &[0, 19]),
    (Call::Connect, &[0, 10, 20]),
    (Call::Arrive, &[0, 1, 2, 3, 10, 11, 12, 13, 14, 15, 16, 17, 18]),
    (Call::ArriveFrame, &[0, 1, 2, 3, 10, 11, 12, 13, 14, 15, 16, 17, 18]),
    (Call::ArriveCut, &[0, 1, 2, 10, 11, 12, 13, 14, 15, 16, 17, 18]),
    (Call::LineConnect, &[0, 10, 20, 22]),
    (Call::LineScrap, &[0, 1, 2, 10, 11, 12, 13, 14, 15, 16, 17, 18, 22]),
    (Call::ReadRow, &[0, 4, 15, 18]),
    (Call::ReadSide, &[0, 4, 15, 18]),
    (Call::ReadStrip, &[0, 4, 15, 18]),
    (Call::Why, &[0, 1, 2, 3, 4, 5, 6, 7, 8, 9]),
    (Call::Password, &[0, 1, 2, 3, 4, 5, 6, 15, 23]),
];

/// What a book message with NoEntries 0 may meet.
#[derive(Clone, Copy, PartialEq, Eq, PartialOrd, Ord, Debug)]
pub enum Meets {
    /// A sound book that has rows.
    Rows,
    /// A sound book without rows.
    NoRows,
    /// A sound book, and its code in a later slot too.
    TwoSlots,
    /// No book, and a slot is free.
    NoBook,
    /// No book, and no slot is free.
    FullTable,
    Unsound,
    BadCode,
    /// Any of these, by a message that was there already.
    Seen,
}

impl Meets {
    /// All but Seen, which is in Live alone.
    const IN_EITHER: [Meets; 7] =
        [Meets::Rows, Meets::NoRows, Meets::TwoSlots, Meets::NoBook, Meets::FullTable, Meets::Unsound, Meets::BadCode];
}

/// The phases that take such a message, and what it must have met there by the end besides.
const EMPTYING: [(u64, &str, Option<Meets>); 2] = [(3, "Refreshing", None), (4, "Live", Some(Meets::Seen))];

/// What a message of a strip's type may find, in itself or in the table of strips.
#[derive(Clone, Copy, PartialEq, Eq, PartialOrd, Ord, Debug)]
pub enum Finds {
    WrongSize,
    BadCode,
    BadDirection,
    /// The code's strip is not sound: its flags, its spare word, a value that has not come, a price, the direction.
    Flags,
    Spare,
    NotCome,
    LargePrice,
    BadLetter,
    /// No strip, and no slot is free.
    FullTable,
    /// No strip, and the lowest free slot is zero.
    NoStrip,
    /// No strip, and the lowest free slot has words in it.
    Litter,
    /// A sound strip, and its code in a later slot too.
    TwoSlots,
    /// A space, where the quantity that had come is not 0.
    Space,
    /// A sound strip in which a value that it brings had come.
    OldValue,
    /// A sound strip in which none had.
    NewValue,
    /// Any of these but a wrong size, by a message that was there already.
    Seen,
}

impl Finds {
    /// All but Seen, which is in Live alone, and a wrong size, which is in every open phase.
    const IN_EITHER: [Finds; 14] = [
        Finds::BadCode,
        Finds::BadDirection,
        Finds::Flags,
        Finds::Spare,
        Finds::NotCome,
        Finds::LargePrice,
        Finds::BadLetter,
        Finds::FullTable,
        Finds::NoStrip,
        Finds::Litter,
        Finds::TwoSlots,
        Finds::Space,
        Finds::OldValue,
        Finds::NewValue,
    ];

    /// The answer that it must get.
    pub fn answer(self) -> u64 {
        match self {
            Finds::WrongSize => 12,
            Finds::BadCode | Finds::BadDirection => 15,
            Finds::Flags | Finds::Spare | Finds::NotCome | Finds::LargePrice | Finds::BadLetter => 18,
            Finds::FullTable => 17,
            Finds::NoStrip | Finds::Litter | Finds::TwoSlots | Finds::Space | Finds::OldValue | Finds::NewValue => 0,
            Finds::Seen => 1,
        }
    }

    /// Whether only a type with a direction finds it.
    fn of_directions(self) -> bool {
        matches!(self, Finds::BadDirection | Finds::Space)
    }
}

/// A message of a strip's type, and what it finds.
#[derive(Clone, Copy, PartialEq, Eq, PartialOrd, Ord, Debug)]
pub struct StripMeets {
    pub kind: u16,
    pub finds: Finds,
}

/// All that messages of strips' types must have met at random in a phase by the end.
fn to_be_met(phase: u64) -> impl Iterator<Item = StripMeets> {
    let either = if phase >= 3 { &Finds::IN_EITHER[..] } else { &[] };
    let besides = if phase == 4 { &[Finds::WrongSize, Finds::Seen][..] } else { &[Finds::WrongSize] };
    let finds = either.iter().chain(besides);
    finds.flat_map(|&finds| {
        let kinds = STRIPS.into_iter().filter(move |(kind, _)| *kind == 56 || !finds.of_directions());
        kinds.map(move |(kind, _)| StripMeets { kind, finds })
    })
}

/// The phases that are open, and their names.
const OPEN: [(u64, &str); 4] = [(1, "WaitKey"), (2, "WaitLogon"), (3, "Refreshing"), (4, "Live")];

/// What a frame may meet.
#[derive(Clone, Copy, PartialEq, Eq, PartialOrd, Ord, Debug)]
pub enum Meeting {
    /// No unit allowed, in this phase; every phase that is not known is 7.
    NoneAllowed(u64),
    /// No unit allowed, and the time is before the last heard one.
    NoneAllowedEarly,
    /// The allowed number was reached, with this answer.
    Reached(u64),
    /// It was, and so was the end of the bytes.
    ReachedAtTheEnd,
    /// The first unit got this answer, which ends a frame.
    AtOnce(u64),
    /// A unit behind accepted ones got it.
    Behind(u64),
    /// All bytes were used, and more units were allowed than there are.
    Beyond,
    /// As many as a number can say were allowed, and some were accepted.
    Unlimited,
    /// Two units and more were accepted, from this phase on.
    Several(u64),
    /// From WaitKey to Live or to Refreshing.
    Through(u64),
    /// A book message and a strip message were taken.
    Mixed,
    /// Heartbeats alone were accepted, two and more.
    Heartbeats,
    /// A heartbeat was accepted between two messages.
    Between,
}

/// All that random frames must have met by the end. 10 comes at once or never, as the clock stands still in a frame.
fn meetings() -> impl Iterator<Item = Meeting> {
    use Meeting::*;
    let alone =
        [NoneAllowedEarly, ReachedAtTheEnd, Beyond, Unlimited, Mixed, Heartbeats, Between, Through(3), Through(4)];
    let ends = [3].into_iter().chain(11..=18);
    let none = (0..=7).map(NoneAllowed).chain([AtOnce(10)]);
    let reached = (0..=2).map(Reached).chain((1..=4).map(Several));
    alone.into_iter().chain(none).chain(reached).chain(ends.clone().map(AtOnce)).chain(ends.map(Behind))
}

/// Where a unit was that a scrap finished.
#[derive(Clone, Copy, PartialEq, Eq, PartialOrd, Ord, Debug)]
pub enum Lay {
    /// All of it in the scrap.
    InScrap,
    /// Some of it waited.
    Torn,
    /// All of it waited.
    Waited,
}

/// What a scrap may meet.
#[derive(Clone, Copy, PartialEq, Eq, PartialOrd, Ord, Debug)]
pub enum Hearing {
    /// No unit allowed, in this phase; every phase that is not known is 7.
    NoneAllowed(u64),
    /// No unit allowed, and the time is before the last heard one.
    NoneAllowedEarly,
    /// No unit allowed, and the line drops.
    NoneAllowedDropping,
    /// The line drops some bytes, or none.
    Dropped,
    DroppedNothing,
    /// No unit is finished, in this phase, and so the bytes wait.
    Waits(u64),
    /// They do though the time is before the last heard one.
    WaitsEarly,
    /// Nothing came, where nothing waits and where bytes wait.
    Nothing,
    NothingBehind,
    /// Behind accepted units bytes wait, or none are left.
    WaitsBehind,
    UsedUp,
    /// The allowed number was reached, with this answer.
    Reached(u64),
    /// It was, and so was the end of the scrap.
    ReachedAtTheEnd,
    /// The first unit got this answer, which is a refusal.
    AtOnce(u64),
    /// A unit behind accepted ones got it.
    Behind(u64),
    /// A unit that lay so was accepted, or refused.
    Accepted(Lay),
    Refused(Lay),
    /// 22 was due and given: of a unit that lies whole in the scrap, of one that is not finished, of a buffer too short for any,
    /// of more waiting than there is room for.
    LongWhole,
    LongTorn,
    ShortBuffer,
    Overfull,
    /// 22 was due, and it was 10 or 11.
    DueBut(u64),
    /// A unit as long as the buffer was put together in it and accepted.
    Exact,
    /// A heartbeat was.
    TornHeartbeat,
    /// A unit of this MsgSize, too small for a type, was refused.
    Tiny(usize),
    /// As many as a number can say were allowed, and some were accepted.
    Unlimited,
    /// From WaitKey to Live or to Refreshing.
    Through(u64),
}

/// All that random scraps must have met by the end. 10 comes at once or never, as the clock stands still in a call.
fn hearings() -> impl Iterator<Item = Hearing> {
    use Hearing::*;
    let alone = [NoneAllowedEarly, NoneAllowedDropping, Dropped, DroppedNothing, WaitsEarly, Nothing, NothingBehind];
    let ends = [WaitsBehind, UsedUp, ReachedAtTheEnd, Exact, TornHeartbeat, Unlimited, Through(3), Through(4)];
    let long = [LongWhole, LongTorn, ShortBuffer, Overfull, DueBut(10), DueBut(11), AtOnce(10)];
    let lay = [Lay::InScrap, Lay::Torn, Lay::Waited].into_iter().flat_map(|lay| [Accepted(lay), Refused(lay)]);
    let refusals = (11..=18).chain([22]);
    let phases = (0..=7).flat_map(|phase| [NoneAllowed(phase), Waits(phase)]);
    let numbers = (0..=2).map(Reached).chain((0..=3).map(Tiny)).chain(phases);
    let answers = refusals.flat_map(|answer| [AtOnce(answer), Behind(answer)]);
    alone.into_iter().chain(ends).chain(long).chain(lay).chain(numbers).chain(answers)
}

/// What new levels may do to full sides in a call.
#[derive(Clone, Copy, PartialEq, Eq, PartialOrd, Ord, Debug)]
pub enum Falls {
    /// One message pushes out one row of a side, or more.
    OneBid,
    OneOffer,
    Bids,
    Offers,
    /// One message pushes out rows of both sides.
    Both,
    /// A delete or a clear comes behind one in the same message, and takes none back.
    Kept,
    /// An entry that does not fit comes behind one: 16, and none is counted.
    Misfit,
    /// Two messages of the call push out rows.
    Messages,
    /// A unit is refused behind one that pushes out rows, which are counted.
    Refused,
}

/// The calls by which book messages come, and all that must have fallen in each at random by the end.
fn falls() -> impl Iterator<Item = (Call, Falls)> {
    use Falls::*;
    let message = [OneBid, OneOffer, Bids, Offers, Both, Kept, Misfit];
    let calls = [Call::Arrive, Call::ArriveCut, Call::ArriveFrame, Call::LineScrap];
    let several = [Call::ArriveFrame, Call::LineScrap].into_iter().flat_map(|call| [(call, Messages), (call, Refused)]);
    calls.into_iter().flat_map(move |call| message.map(|falls| (call, falls))).chain(several)
}

/// Differences printed in full before the rest are only counted.
const SHOWN: u64 = 10;

#[derive(Default)]
pub struct Tally {
    passed: u64,
    failed: u64,
    parts: Vec<(&'static str, u64)>,
    answers: BTreeMap<(Call, u64), u64>,
    emptying: BTreeMap<(u64, Meets), u64>,
    strips: BTreeMap<(u64, StripMeets), u64>,
    frames: BTreeMap<Meeting, u64>,
    scraps: BTreeMap<Hearing, u64>,
    falls: BTreeMap<(Call, Falls), u64>,
}

impl Tally {
    /// What follows is counted under this name.
    pub fn part(&mut self, name: &'static str) {
        self.parts.push((name, 0));
    }

    /// Notes an answer of the library.
    pub fn met(&mut self, call: Call, answer: u64) {
        *self.answers.entry((call, answer)).or_insert(0) += 1;
    }

    /// Notes what a random message with NoEntries 0 met in a phase, if it was judged as far as that.
    pub fn emptying(&mut self, phase: u64, meets: Option<Meets>, given: &MmdhGiven) {
        let meets = match (given.answer, meets) {
            (0 | 15 | 18, Some(meets)) => meets,
            (1, Some(_)) => Meets::Seen,
            _ => return,
        };
        // 20 bytes are a heartbeat's, whatever stands behind it
        if given.used != 20 {
            *self.emptying.entry((phase, meets)).or_insert(0) += 1;
        }
    }

    /// Notes what a random message of a strip's type met in a phase, if it was judged as far as that; its answer must be
    /// the one that goes with it.
    pub fn strip(&mut self, phase: u64, meets: Option<StripMeets>, given: &MmdhGiven) {
        // 20 bytes are a heartbeat's, whatever stands behind it
        let met = match (given.answer, meets) {
            (0 | 1 | 2 | 12 | 15..=18, Some(meets)) if given.used != 20 => meets,
            _ => return,
        };
        // a part that is cut may have another length than its MsgSize says
        if given.answer == 12 && met.finds != Finds::WrongSize {
            return;
        }
        let seen = given.answer == 1 && met.finds != Finds::WrongSize;
        let met = if seen { StripMeets { finds: Finds::Seen, ..met } } else { met };
        self.same(&given.answer, &met.finds.answer(), || format!("{:?} in phase {}", met, phase));
        *self.strips.entry((phase, met)).or_insert(0) += 1;
    }

    /// Notes what a random frame met.
    pub fn frame(&mut self, met: Meeting) {
        *self.frames.entry(met).or_insert(0) += 1;
    }

    /// Notes what a random scrap met.
    pub fn scrap(&mut self, met: Hearing) {
        *self.scraps.entry(met).or_insert(0) += 1;
    }

    /// Notes what random new levels did to full sides in a call.
    pub fn falls(&mut self, call: Call, met: Falls) {
        *self.falls.entry((call, met)).or_insert(0) += 1;
    }

    /// One comparison; the input is described only where the two differ.
    pub fn same<T: PartialEq + Debug>(&mut self, got: &T, wanted: &T, input: impl FnOnce() -> String) -> bool {
        self.holds(got == wanted, || format!("{}\n  got    {:?}\n  wanted {:?}", input(), got, wanted))
    }

    /// One test.
    pub fn holds(&mut self, good: bool, input: impl FnOnce() -> String) -> bool {
        if good {
            self.passed += 1;
        } else {
            self.failed += 1;
            if self.failed <= SHOWN {
                println!("DIFFERENT: {}", input());
            }
        }
        if let Some(part) = self.parts.last_mut() {
            part.1 += 1;
        }
        good
    }

    /// Takes what another counted.
    pub fn add(&mut self, other: Tally) {
        self.passed += other.passed;
        self.failed += other.failed;
        self.parts.extend(other.parts);
        for (met, times) in other.answers {
            *self.answers.entry(met).or_insert(0) += times;
        }
        for (met, times) in other.emptying {
            *self.emptying.entry(met).or_insert(0) += times;
        }
        for (met, times) in other.strips {
            *self.strips.entry(met).or_insert(0) += times;
        }
        for (met, times) in other.frames {
            *self.frames.entry(met).or_insert(0) += times;
        }
        for (met, times) in other.scraps {
            *self.scraps.entry(met).or_insert(0) += times;
        }
        for (met, times) in other.falls {
            *self.falls.entry(met).or_insert(0) += times;
        }
    }

    /// Prints the counts; true where all passed.
    pub fn finish(mut self) -> bool {
        self.part("every answer, every reason and every item met, call by call");
        for (call, answers) in WANTED {
            for &answer in answers {
                let met = self.answers.contains_key(&(call, answer));
                self.holds(met, || format!("{:?} was never answered {}", call, answer));
            }
        }
        self.part("all that NoEntries 0 may meet, met at random in Live and in Refreshing");
        for (phase, name, besides) in EMPTYING {
            for meets in Meets::IN_EITHER.into_iter().chain(besides) {
                let met = self.emptying.contains_key(&(phase, meets));
                self.holds(met, || format!("NoEntries 0 in {} never met {:?}", name, meets));
            }
        }
        self.part("all that messages of strips' types may meet, met at random in every phase that is open");
        for (phase, name) in OPEN {
            for meets in to_be_met(phase) {
                let met = self.strips.contains_key(&(phase, meets));
                self.holds(met, || format!("type {} in {} never met {:?}", meets.kind, name, meets.finds));
            }
        }
        self.part("all that frames may meet, met at random");
        for meeting in meetings() {
            let met = self.frames.contains_key(&meeting);
            self.holds(met, || format!("a frame never met {:?}", meeting));
        }
        self.part("all that scraps may meet, met at random");
        for hearing in hearings() {
            let met = self.scraps.contains_key(&hearing);
            self.holds(met, || format!("a scrap never met {:?}", hearing));
        }
        self.part("all that new levels may do to full sides, met at random in every call that takes book messages");
        for (call, falls) in falls() {
            let met = self.falls.contains_key(&(call, falls));
            self.holds(met, || format!("{:?} never met {:?}", call, falls));
        }
        for (name, count) in &self.parts {
            println!("{:>9}  {}", count, name);
        }
        for (call, _) in WANTED {
            println!("answers to {:?} (number: times)  {}", call, times(&self.answers, call));
        }
        for (phase, name, _) in EMPTYING {
            println!("NoEntries 0 in {} (what it met: times)  {}", name, times(&self.emptying, phase));
        }
        for (phase, name) in OPEN {
            println!("strip messages in {} (what they met: times)  {}", name, self.strips_in(phase));
        }
        println!("frames (what they met: times)  {}", listed(self.frames.iter()));
        println!("scraps (what they met: times)  {}", listed(self.scraps.iter()));
        for call in [Call::Arrive, Call::ArriveCut, Call::ArriveFrame, Call::LineScrap] {
            println!("rows pushed out by {:?} (what it met: times)  {}", call, times(&self.falls, call));
        }
        println!("{} passed, {} failed", self.passed, self.failed);
        self.failed == 0
    }

    /// What strip messages met in a phase, over all five types.
    fn strips_in(&self, phase: u64) -> String {
        let mut counts = BTreeMap::new();
        for ((_, met), times) in self.strips.iter().filter(|((of, _), _)| *of == phase) {
            *counts.entry((phase, met.finds)).or_insert(0) += times;
        }
        times(&counts, phase)
    }
}

/// All that was counted of one call, or in one phase.
fn times<Of: PartialEq, What: Debug>(counts: &BTreeMap<(Of, What), u64>, of: Of) -> String {
    listed(counts.iter().filter(|((counted, _), _)| *counted == of).map(|((_, what), times)| (what, times)))
}

fn listed<'a, What: Debug + 'a>(counts: impl Iterator<Item = (&'a What, &'a u64)>) -> String {
    counts.map(|(what, times)| format!("{:?}: {}", what, times)).collect::<Vec<String>>().join("  ")
}
