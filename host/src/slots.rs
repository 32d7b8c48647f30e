//! Scratch slots: which rows the short-lived values of a circuit can share.

use crate::boundary;
use crate::packed;
use crate::refusal::Refusal;
use crate::units::{LiveWires, Slot, SlotCount, Wire};

/// What the library writes for a wire without a slot.
const UNSLOTTED: u32 = u32::MAX;

/// Whether a wire is of the scratch segment.
#[derive(Clone, Copy, Debug, PartialEq, Eq, Hash)]
pub enum Mark {
    /// It keeps a place of its own elsewhere.
    Fixed,
    /// It is looked after here.
    Scratch,
}

/// How the scratch segment is laid out.
#[derive(Clone, Copy, Debug, PartialEq, Eq, Hash)]
pub enum Policy {
    /// A slot is used again once the gate that last mentions its wire has run.
    Pooled,
    /// Every scratch wire has a slot of its own.
    PerWire,
}

/// A circuit's gates, in the order in which they run, each as the wires that it mentions.
#[derive(Clone, Debug, PartialEq, Eq)]
pub struct Gates {
    marks: Vec<u8>,
    ends: Vec<u32>,
    mentions: Vec<u32>,
}

impl Gates {
    /// No gates yet; a mark for each wire of the circuit.
    pub fn new(marks: impl IntoIterator<Item = Mark>) -> Gates {
        let marks = marks.into_iter().map(|mark| u8::from(mark == Mark::Scratch)).collect();
        Gates { marks, ends: Vec::new(), mentions: Vec::new() }
    }

    /// The next gate.
    pub fn push(&mut self, gate: impl IntoIterator<Item = Wire>) {
        self.mentions.extend(gate.into_iter().map(Wire::get));
        // A list that is too long for the field is too long for the library, too, and is refused by it.
        self.ends.push(u32::try_from(self.mentions.len()).unwrap_or(u32::MAX));
    }

    /// The slots of the scratch wires, or refusal 14.
    pub fn assign(&self, policy: Policy) -> Result<Slots, Refusal> {
        let mut slots = vec![UNSLOTTED; self.marks.len()];
        let per_wire = policy == Policy::PerWire;
        let answer = boundary::pool(self.marks.len(), &self.ends, &self.mentions, &self.marks, &mut slots, per_wire);
        let (length, peak) = packed::pool(answer)?;
        Ok(Slots { slots, length, peak })
    }
}

/// A slot for each scratch wire, the length of their segment, and how many are alive at once at most.
#[derive(Clone, Debug, PartialEq, Eq)]
pub struct Slots {
    slots: Vec<u32>,
    length: SlotCount,
    peak: LiveWires,
}

impl Slots {
    /// The wire's slot; nothing for a wire that is not scratch and, under [`Policy::Pooled`], for one that no gate mentions.
    pub fn of(&self, wire: Wire) -> Option<Slot> {
        let slot = *self.slots.get(wire.get() as usize)?;
        (slot != UNSLOTTED).then_some(Slot::new(slot))
    }

    /// How many slots the segment has.
    pub fn length(&self) -> SlotCount {
        self.length
    }

    /// The largest number of scratch wires alive at one gate, under either policy.
    pub fn peak(&self) -> LiveWires {
        self.peak
    }
}
