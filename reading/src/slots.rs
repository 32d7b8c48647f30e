//! "Scratch slots": both policies, the peak, and refusal 14.

use crate::refusals::{Name, Refused};
use crate::sizes::{MOST_GATES, MOST_MENTIONS, MOST_WIRES};

/// "Unslotted wires read 4,294,967,295".
pub const UNSLOTTED: u32 = u32::MAX;

#[derive(Clone, Copy, Debug, PartialEq, Eq, Hash)]
pub enum Policy {
    Pooled,
    PerWire,
}

/// "Both policies also answer the peak."
#[derive(Clone, Copy, Debug, PartialEq, Eq, Hash)]
pub struct Sizes {
    pub length: usize,
    pub peak: usize,
}

/// The gates as lists of the wires that they mention; refusal 14 where a rule is broken.
pub fn gates_of(
    wires: usize,
    ends: &[u32],
    mentions: &[u32],
    marks: usize,
    slots: usize,
) -> Result<Vec<Vec<usize>>, Refused> {
    let sizes = wires <= MOST_WIRES && ends.len() <= MOST_GATES && mentions.len() <= MOST_MENTIONS;
    let rising = ends.windows(2).all(|pair| pair[0] <= pair[1]);
    // "With no gates the mention count must be 0."
    let close = ends.last().map_or(0, |&end| end as usize) == mentions.len();
    let known = mentions.iter().all(|&wire| (wire as usize) < wires);
    let buffers = marks == wires && slots == wires;
    if !(sizes && rising && close && known && buffers) {
        return Err(Refused::bare(Name::BadGates));
    }
    let mut start = 0;
    let gate = |&end: &u32| {
        let mentioned = mentions[start..end as usize].iter().map(|&wire| wire as usize).collect();
        start = end as usize;
        mentioned
    };
    Ok(ends.iter().map(gate).collect())
}

/// The allocator.
pub fn pool(
    wires: usize,
    ends: &[u32],
    mentions: &[u32],
    marks: &[u8],
    slots: &mut [u32],
    policy: Policy,
) -> Result<Sizes, Refused> {
    let gates = gates_of(wires, ends, mentions, marks.len(), slots.len())?;
    let spans = spans(&gates, marks);
    let peak = peak(&spans, gates.len());
    slots.fill(UNSLOTTED);
    let length = match policy {
        Policy::PerWire => per_wire(marks, slots),
        Policy::Pooled => pooled(&gates, &spans, slots),
    };
    Ok(Sizes { length, peak })
}

/// For each scratch wire that a gate mentions: the first and the last such gate.
fn spans(gates: &[Vec<usize>], marks: &[u8]) -> Vec<Option<(usize, usize)>> {
    let mut spans = vec![None; marks.len()];
    for (gate, mentioned) in gates.iter().enumerate() {
        for &wire in mentioned.iter().filter(|&&wire| marks[wire] != 0) {
            let (first, _) = spans[wire].unwrap_or((gate, gate));
            spans[wire] = Some((first, gate));
        }
    }
    spans
}

/// The largest count of spans that share one gate: the living, counted from the gate list and not from the sweep.
fn peak(spans: &[Option<(usize, usize)>], gates: usize) -> usize {
    let mut born = vec![0; gates + 1];
    let mut dead = vec![0; gates + 1];
    for &(first, last) in spans.iter().flatten() {
        born[first] += 1;
        dead[last + 1] += 1;
    }
    let mut alive = 0;
    let mut most = 0;
    for gate in 0..gates {
        alive = alive + born[gate] - dead[gate];
        most = most.max(alive);
    }
    most
}

/// "PerWire numbers marked wires in rising order, mentioned or not."
fn per_wire(marks: &[u8], slots: &mut [u32]) -> usize {
    let mut next = 0;
    for (wire, _) in marks.iter().enumerate().filter(|(_, &mark)| mark != 0) {
        slots[wire] = next as u32;
        next += 1;
    }
    next
}

/// The sweep; its length is how many slots were ever taken anew.
fn pooled(gates: &[Vec<usize>], spans: &[Option<(usize, usize)>], slots: &mut [u32]) -> usize {
    // the wires that die at each gate, "in rising wire number"
    let mut dying = vec![Vec::new(); gates.len()];
    for (wire, span) in spans.iter().enumerate() {
        if let Some((_, last)) = span {
            dying[*last].push(wire);
        }
    }
    let mut given_back = Vec::new();
    let mut length = 0;
    for (gate, mentioned) in gates.iter().enumerate() {
        for &wire in mentioned {
            if spans[wire].is_some() && slots[wire] == UNSLOTTED {
                // "take the slot last given back, else a new one"
                slots[wire] = given_back.pop().unwrap_or_else(|| {
                    length += 1;
                    length - 1
                });
            }
        }
        given_back.extend(dying[gate].iter().map(|&wire| slots[wire]));
    }
    length as usize
}

#[cfg(test)]
mod tests {
    use super::*;

    /// Gates written as lists, all wires marked: slots, length and peak.
    fn pooled_slots(wires: usize, gates: &[&[u32]]) -> (Vec<u32>, usize, usize) {
        let mentions = gates.concat();
        let mut end = 0;
        let ends: Vec<u32> = gates
            .iter()
            .map(|gate| {
                end += gate.len() as u32;
                end
            })
            .collect();
        let mut slots = vec![5; wires];
        let sizes = pool(wires, &ends, &mentions, &vec![1; wires], &mut slots, Policy::Pooled).expect("accepted");
        (slots, sizes.length, sizes.peak)
    }

    #[test]
    fn the_documents_gates() {
        assert_eq!(pooled_slots(3, &[&[0], &[0, 1], &[1, 2], &[2]]), (vec![0, 1, 0], 2, 2));
        assert_eq!(pooled_slots(3, &[&[1, 0], &[2]]), (vec![1, 0, 0], 2, 2));
        assert_eq!(pooled_slots(1, &[&[0]]), (vec![0], 1, 1));
        assert_eq!(pooled_slots(2, &[&[0]]), (vec![0, UNSLOTTED], 1, 1));
        assert_eq!(pooled_slots(0, &[]), (vec![], 0, 0));
    }

    #[test]
    fn per_wire_numbers_what_is_marked() {
        let mut slots = [0; 4];
        let sizes = pool(4, &[1], &[3], &[1, 0, 255, 1], &mut slots, Policy::PerWire);
        assert_eq!(sizes, Ok(Sizes { length: 3, peak: 1 }));
        assert_eq!(slots, [0, UNSLOTTED, 1, 2]);
    }

    #[test]
    fn fourteen_leaves_the_slots() {
        let refused = |wires: usize, ends: &[u32], mentions: &[u32], marks: usize, lent: usize| {
            let mut slots = vec![5; lent];
            let answer = pool(wires, ends, mentions, &vec![1; marks], &mut slots, Policy::Pooled);
            let refused = answer == Err(Refused::bare(Name::BadGates));
            assert!(!refused || slots == vec![5; lent]);
            refused
        };
        assert!(!refused(3, &[1, 2], &[0, 2], 3, 3));
        assert!(refused(3, &[2, 1], &[0, 2], 3, 3));
        assert!(refused(3, &[1, 3], &[0, 2], 3, 3));
        assert!(refused(3, &[1, 1], &[0, 2], 3, 3));
        assert!(refused(3, &[], &[0], 3, 3));
        assert!(!refused(3, &[], &[], 3, 3));
        assert!(refused(3, &[1], &[3], 3, 3));
        assert!(refused(3, &[1], &[0], 2, 3));
        assert!(refused(3, &[1], &[0], 3, 4));
        assert!(!refused(8_192, &[0; 8_192], &[], 8_192, 8_192));
        assert!(refused(8_193, &[], &[], 8_193, 8_193));
        assert!(refused(1, &[0; 8_193], &[], 1, 1));
        assert!(!refused(1, &[16_384], &[0; 16_384], 1, 1));
        assert!(refused(1, &[16_385], &[0; 16_385], 1, 1));
    }
}
