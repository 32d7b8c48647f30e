//! The given Rust, asked.

use std::{
    cell::Cell,
    panic::{AssertUnwindSafe, catch_unwind, set_hook, take_hook},
    sync::Once,
};

use crate::{
    Call, Failing, Failure, KEPT, Rust, Slots, UNSLOTTED,
    constraint_system::ShiftVariant,
    eval_form::{
        assertion::MAX_ASSERTION_FAILURES,
        batch::BatchExecutionContext,
        builder::BytecodeBuilder,
        exec::{EvalContext, Executor},
        opcode::EvalOpcode,
    },
    layout::scratch_alloc::{ScratchAlloc, ScratchPolicy},
    stand_ins::{
        artifact::witness::AssertionFailure,
        binius_utils::strided_array::StridedArray2DViewMut,
        cranelift_entity::EntityRef,
        hints::HintRegistry,
        ir::{
            GateGraph, Wire,
            graph::GateData,
            path::{PathSpec, PathSpecTree},
        },
    },
    word::Word,
};

const _: () = assert!(KEPT == MAX_ASSERTION_FAILURES);

pub struct Beside;

impl Rust for Beside {
    fn add(&self, a: u64, b: u64, carry_in: u64) -> [u64; 2] {
        let (sum, carries) = Word(a).iadd_cin_cout(Word(b), Word(carry_in));
        [sum.as_u64(), carries.as_u64()]
    }

    fn subtract(&self, a: u64, b: u64, borrow_in: u64) -> [u64; 2] {
        let (difference, borrows) = Word(a).isub_bin_bout(Word(b), Word(borrow_in));
        [difference.as_u64(), borrows.as_u64()]
    }

    fn multiply(&self, a: u64, b: u64) -> [u64; 2] {
        let (high, low) = Word(a).imul(Word(b));
        [high.as_u64(), low.as_u64()]
    }

    fn add_halves(&self, a: u64, b: u64, carries_in: u64) -> [u64; 2] {
        let (sum, carries) = Word(a).iadd32_cin_cout(Word(b), Word(carries_in));
        [sum.as_u64(), carries.as_u64()]
    }

    fn add_bare_halves(&self, a: u64, b: u64) -> [u64; 2] {
        let (sum, carries) = Word(a).iadd_cout_32(Word(b));
        [sum.as_u64(), carries.as_u64()]
    }

    fn has_variant(&self, number: u8) -> bool {
        ShiftVariant::from_u8(number).is_some()
    }

    fn shift(&self, variant: u8, amount: u8, word: u64) -> u64 {
        let variant = ShiftVariant::from_u8(variant).expect("a variant from 0 to 7");
        variant.apply(Word(word), amount.into()).as_u64()
    }

    fn emit(&self, calls: &[Call]) -> (Vec<u8>, usize) {
        let mut builder = BytecodeBuilder::new();
        for call in calls {
            emit(&mut builder, call);
        }
        builder.finalize()
    }

    fn run(
        &self,
        code: &[u8],
        width: usize,
        first: usize,
        count: usize,
        values: &mut [u64],
    ) -> Option<Failing> {
        let mut words: Vec<Word> = values.iter().copied().map(Word).collect();
        let mut view = StridedArray2DViewMut::new(&mut words, width, first..first + count);
        let mut context = BatchExecutionContext::new(&mut view);
        Executor::new(code, &HintRegistry).run(&mut context);
        let verdict = context.check_assertions(Some(&PathSpecTree));
        for (value, word) in values.iter_mut().zip(words) {
            *value = word.as_u64();
        }
        verdict.err().map(|error| Failing {
            instance: error.instance,
            total: error.source.total,
            failures: error.source.failures.iter().map(read_failure).collect(),
        })
    }

    fn run_column(&self, code: &[u8], column: &mut [u64]) -> Vec<Failure> {
        let mut context = OneColumn {
            column,
            failures: Vec::new(),
        };
        Executor::new(code, &HintRegistry).run(&mut context);
        context.failures
    }

    fn pool(&self, ends: &[u32], mentions: &[u32], marks: &[u8], per_wire: bool) -> Slots {
        let wire = |number: usize| Wire::new(number);
        let starts = std::iter::once(0).chain(ends.iter().copied());
        let gates = starts.zip(ends).map(|(start, &end)| GateData {
            wires: mentions[start as usize..end as usize]
                .iter()
                .map(|&number| wire(number as usize))
                .collect(),
        });
        let graph = GateGraph {
            gates: gates.collect(),
            wires: marks.iter().map(|_| ()).collect(),
        };
        let scratch = (0..marks.len())
            .filter(|&i| marks[i] != 0)
            .map(wire)
            .collect();
        let policy = if per_wire {
            ScratchPolicy::PerWire
        } else {
            ScratchPolicy::Pooled
        };
        let alloc = ScratchAlloc::new(&graph, &scratch, policy);
        // The Rust says that a wire has no slot by stopping.
        let slot = |number| quietly(|| alloc.slot(wire(number))).unwrap_or(UNSLOTTED);
        Slots {
            slots: (0..marks.len()).map(slot).collect(),
            length: alloc.n_slots(),
            peak: alloc.peak_live(),
        }
    }
}

fn emit(builder: &mut BytecodeBuilder, call: &Call) {
    let path = PathSpec::from_u32;
    match *call {
        Call::Band([dst, a, b]) => builder.emit_band(dst, a, b),
        Call::Bor([dst, a, b]) => builder.emit_bor(dst, a, b),
        Call::Bxor([dst, a, b]) => builder.emit_bxor(dst, a, b),
        Call::Select([dst, cond, t, f]) => builder.emit_select(dst, cond, t, f),
        Call::BxorMulti(dst, ref sources) => builder.emit_bxor_multi(dst, sources),
        Call::Fax([dst, a, b, c]) => builder.emit_fax(dst, a, b, c),
        Call::Shift([dst, source], variant, amount) => {
            let variant = ShiftVariant::from_u8(variant).expect("a variant from 0 to 7");
            builder.emit_shift(dst, source, variant, amount);
        }
        Call::IaddCinCout([sum, cout, a, b, cin]) => {
            builder.emit_iadd_cin_cout(sum, cout, a, b, cin);
        }
        Call::IaddCarry([cout, a, b]) => builder.emit_iadd_carry(cout, a, b),
        Call::IsubBinBout([diff, bout, a, b, bin]) => {
            builder.emit_isub_bin_bout(diff, bout, a, b, bin);
        }
        Call::Imul([high, low, a, b]) => builder.emit_imul(high, low, a, b),
        Call::Iadd32CinCout([sum, cout, a, b, cin]) => {
            builder.emit_iadd32_cin_cout(sum, cout, a, b, cin);
        }
        Call::Iadd32Cout([sum, cout, a, b]) => builder.emit_iadd32_cout(sum, cout, a, b),
        Call::AssertEq([a, b, spec]) => builder.emit_assert_eq(a, b, path(spec)),
        Call::AssertEqCond([cond, a, b, spec]) => {
            builder.emit_assert_eq_cond(cond, a, b, path(spec));
        }
        Call::AssertZero([a, spec]) => builder.emit_assert_zero(a, path(spec)),
        Call::AssertNonZero([a, spec]) => builder.emit_assert_non_zero(a, path(spec)),
        Call::AssertFalse([a, spec]) => builder.emit_assert_false(a, path(spec)),
        Call::AssertTrue([a, spec]) => builder.emit_assert_true(a, path(spec)),
        Call::Hint {
            id,
            ref dimensions,
            ref inputs,
            ref outputs,
        } => {
            let dimensions: Vec<usize> = dimensions.iter().map(|&d| d as usize).collect();
            builder.emit_hint(id, &dimensions, inputs, outputs);
        }
    }
}

/// One column, for the methods that exec.rs gives every context.
struct OneColumn<'a> {
    column: &'a mut [u64],
    failures: Vec<Failure>,
}

impl EvalContext for OneColumn<'_> {
    fn n_instances(&self) -> usize {
        1
    }

    fn load(&self, reg: u32, _: usize) -> Word {
        Word(self.column[reg as usize])
    }

    fn store(&mut self, reg: u32, _: usize, value: Word) {
        self.column[reg as usize] = value.as_u64();
    }

    fn note_assertion_failure(&mut self, _: usize, path_spec: PathSpec, message: String) {
        let (opcode, words) = read_sentence(&message);
        self.failures.push(Failure {
            opcode: opcode as u8,
            path: path_spec.as_u32(),
            words,
        });
    }
}

fn read_failure(failure: &AssertionFailure) -> Failure {
    let (opcode, words) = read_sentence(&failure.detail);
    Failure {
        opcode: opcode as u8,
        path: failure.path.parse().expect("a path's name is its number"),
        words,
    }
}

/// The assertion that exec.rs words so, and the words in it.
fn read_sentence(sentence: &str) -> (EvalOpcode, [u64; 2]) {
    let words: Vec<u64> = sentence
        .split("Word(0x")
        .skip(1)
        .map(|rest| u64::from_str_radix(&rest[..16], 16).expect("16 hexadecimal digits"))
        .collect();
    match *words {
        [a, b] if sentence.starts_with("conditional") => (EvalOpcode::AssertEqCond, [a, b]),
        [a, b] => (EvalOpcode::AssertEq, [a, b]),
        [v] if sentence.ends_with("!= 0") => (EvalOpcode::AssertZero, [v, 0]),
        [v] if sentence.ends_with("== 0") => (EvalOpcode::AssertNonZero, [v, 0]),
        [v] if sentence.ends_with("MSB is true") => (EvalOpcode::AssertFalse, [v, 0]),
        [v] if sentence.ends_with("MSB is false") => (EvalOpcode::AssertTrue, [v, 0]),
        _ => panic!("no sentence of exec.rs: {sentence}"),
    }
}

thread_local! {
    static EXPECTED: Cell<bool> = const { Cell::new(false) };
}

/// What `ask` answers, or `None` where it stops, with nothing printed of that.
fn quietly<T>(ask: impl FnOnce() -> T) -> Option<T> {
    static HOOK: Once = Once::new();
    HOOK.call_once(|| {
        let told = take_hook();
        set_hook(Box::new(move |panic| {
            if !EXPECTED.get() {
                told(panic);
            }
        }));
    });
    EXPECTED.set(true);
    let answer = catch_unwind(AssertUnwindSafe(ask));
    EXPECTED.set(false);
    answer.ok()
}
