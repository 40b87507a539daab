//! Counts of what the tests have met, so that one sees that they meet what they aim at.
use crate::answers::Done;

/// What can happen in a serving.
#[derive(Clone, Copy, Debug)]
pub enum Event {
    Served,
    NothingWaits,
    WasStopped,
    TooManyWait,
    AsManyWaitAsPlaces,
    BadIndex,
    ChainTooLong,
    ChainOfAllPlaces,
    ChainOfAll64Places,
    PartOutside,
    PartInRing,
    PartTouchesRing,
    EmptyPartAtEnd,
    ReadableBehindWritable,
    WritableOverlap,
    ResponseOverRequest,
    BlockRead,
    BlockWritten,
    UnknownRequest,
    ResponseCut,
    CountGoesRound,
    RefusedRing,
    RefusedState,
    RefusedKept,
    RefusedTimes,
}

const EVENTS: [Event; 25] = [
    Event::Served,
    Event::NothingWaits,
    Event::WasStopped,
    Event::TooManyWait,
    Event::AsManyWaitAsPlaces,
    Event::BadIndex,
    Event::ChainTooLong,
    Event::ChainOfAllPlaces,
    Event::ChainOfAll64Places,
    Event::PartOutside,
    Event::PartInRing,
    Event::PartTouchesRing,
    Event::EmptyPartAtEnd,
    Event::ReadableBehindWritable,
    Event::WritableOverlap,
    Event::ResponseOverRequest,
    Event::BlockRead,
    Event::BlockWritten,
    Event::UnknownRequest,
    Event::ResponseCut,
    Event::CountGoesRound,
    Event::RefusedRing,
    Event::RefusedState,
    Event::RefusedKept,
    Event::RefusedTimes,
];

/// A chain that is served, as far as it is counted.
pub struct Shape {
    pub places: usize,
    pub descriptors: usize,
    pub empty_at_end: bool,
    pub touches_ring: bool,
    pub writable_overlap: bool,
    pub writes_request: bool,
}

/// How often each was met.
#[derive(Default)]
pub struct Tally {
    counts: [u64; EVENTS.len()],
}

impl Tally {
    pub fn note(&mut self, event: Event) {
        self.counts[event as usize] += 1;
    }

    fn note_if(&mut self, holds: bool, event: Event) {
        if holds {
            self.note(event);
        }
    }

    pub fn note_served(&mut self, shape: &Shape, waiting: usize) {
        self.note(Event::Served);
        self.note_if(waiting == shape.places, Event::AsManyWaitAsPlaces);
        self.note_if(shape.descriptors == shape.places, Event::ChainOfAllPlaces);
        self.note_if(shape.descriptors == 64, Event::ChainOfAll64Places);
        self.note_if(shape.empty_at_end, Event::EmptyPartAtEnd);
        self.note_if(shape.touches_ring, Event::PartTouchesRing);
        self.note_if(shape.writable_overlap, Event::WritableOverlap);
        self.note_if(shape.writes_request, Event::ResponseOverRequest);
    }

    pub fn refused(&mut self, number: u64) -> Done {
        self.note(match number {
            1 => Event::RefusedRing,
            2 => Event::RefusedState,
            3 => Event::RefusedKept,
            _ => Event::RefusedTimes,
        });
        Done::Refused(number)
    }

    /// What was never met.
    pub fn missing(&self) -> Vec<Event> {
        EVENTS.into_iter().filter(|e| self.counts[*e as usize] == 0).collect()
    }

    pub fn print(&self) {
        for event in EVENTS {
            println!("  {:<24}{:>12}", format!("{event:?}"), self.counts[event as usize]);
        }
    }
}
