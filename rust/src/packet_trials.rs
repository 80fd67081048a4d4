//! Packets on the words of forged states: each with a store and an output, and what the plain
//! manager makes of it.

#![forbid(unsafe_code)]

use crate::bounds;
use crate::manager::{Manager, Taken};
use crate::packet::{self, Delivery, MOST_RECORDS};
use crate::random::Random;
use crate::states::{Answers, State};
use crate::trials::{background, received, store_octets, time};

/// The output by which it is told how many octets a packet needs, if it does not need more.
const WIDE: usize = 16_384;

/// A packet, with the words of the state, the store and the output that it is lent.
#[derive(Clone, Debug, PartialEq, Eq)]
pub struct PacketTrial {
    /// May be too few or too many.
    pub words: Vec<u32>,
    pub store: Vec<u8>,
    pub output: Vec<u8>,
    pub packet: Vec<u8>,
}

/// What a packet leaves.
#[derive(Clone, Debug, PartialEq, Eq)]
pub struct PacketAfter {
    pub answers: Answers,
    pub words: Vec<u32>,
    pub store: Vec<u8>,
    pub output: Vec<u8>,
}

impl PacketTrial {
    /// A packet for this state, with an output that is about as long as it needs.
    pub fn new(random: &mut Random, state: &State) -> Self {
        let octets = store_octets(random, state);
        let mut trial = Self {
            words: state.words().to_vec(),
            store: background(random, octets),
            output: vec![0; WIDE],
            packet: packet(random, state),
        };
        let all = trial.expected().answers;
        let accepted = all.answers.iter().take(all.accepted.into());
        let needed: usize = accepted.map(|answer| answer.octets).sum();
        let octets = match random.below(8) {
            0 => 0,
            1 => needed.saturating_sub(1),
            2 => random.below(needed + 1),
            3 => needed + random.between(1, 40),
            _ => needed,
        };
        trial.output = background(random, octets);
        trial
    }

    /// What the packet must leave: 11 before all else; 18 and all unchanged if there is no state or one
    /// beyond its bounds, which is the first record's answer if there is one; else what the plain
    /// manager in this state leaves.
    pub fn expected(&self) -> PacketAfter {
        let mut after = PacketAfter {
            answers: Answers::from(&self.refused()),
            words: self.words.clone(),
            store: self.store.clone(),
            output: self.output.clone(),
        };
        let within = |state: &State| bounds::broken(state).is_empty();
        if after.answers.refusal == 11 {
            return after;
        }
        if let Some(state) = State::from_any_words(&self.words).filter(within) {
            let mut manager = Manager::from_state(&state);
            let taken = manager.take(&mut after.store, &mut after.output, &self.packet);
            after.answers = Answers::from(&taken);
            after.words = manager.state_after(&state).words().to_vec();
        }
        after
    }

    fn refused(&self) -> Taken {
        let (refusal, answers) = match packet::count(&self.packet) {
            None => (11, Vec::new()),
            Some(0) => (18, Vec::new()),
            Some(_) => (18, vec![Err((18, 0))]),
        };
        Taken {
            refusal,
            accepted: 0,
            answers,
        }
    }
}

/// A packet of a few records, of none, of 64 or 65 short ones, or one with a cut record.
fn packet(random: &mut Random, state: &State) -> Vec<u8> {
    let records = match random.below(16) {
        0 => 0,
        1 => MOST_RECORDS,
        2 => MOST_RECORDS + 1,
        _ => random.between(1, 6),
    };
    let mut octets = Vec::new();
    for _ in 0..records {
        let time = time(random, state);
        let mut record = received(random, state);
        let fields = [&mut record.mark, &mut record.release, &mut record.version];
        for field in fields
            .into_iter()
            .chain([&mut record.format, &mut record.ts])
        {
            *field = (*field).min(255);
        }
        record.key.truncate(255);
        if records >= MOST_RECORDS {
            record.body.truncate(40);
        }
        let arrival = record.arrival();
        packet::lay(&mut octets, &Delivery { time, arrival });
    }
    match random.below(12) {
        0 => octets.truncate(octets.len().saturating_sub(random.between(1, 20))),
        1 => octets.push(random.octet()),
        _ => {}
    }
    octets
}
