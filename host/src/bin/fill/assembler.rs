//! The few instructions of the sample: an opcode byte, then little-endian u32 fields.

use gussetglen::{PathSpec, Register};

#[derive(Default)]
pub struct Assembler {
    code: Vec<u8>,
}

impl Assembler {
    pub fn into_code(self) -> Vec<u8> {
        self.code
    }

    /// `to` = `a` xor `b`
    pub fn bxor(&mut self, to: Register, a: Register, b: Register) {
        self.instruction(0x03, &[to, a, b], None);
    }

    /// `sum` = `a` + `b` + the carry, which is bit 63 of `carry_in`; `carries` gets the carry out of every bit
    pub fn iadd_cin_cout(&mut self, sum: Register, carries: Register, a: Register, b: Register, carry_in: Register) {
        self.instruction(0x21, &[sum, carries, a, b, carry_in], None);
    }

    /// `difference` = `a` - `b` - the borrow, which is bit 63 of `borrow_in`; `borrows` gets the borrow out of every bit
    pub fn isub_bin_bout(
        &mut self,
        difference: Register,
        borrows: Register,
        a: Register,
        b: Register,
        borrow_in: Register,
    ) {
        self.instruction(0x23, &[difference, borrows, a, b, borrow_in], None);
    }

    /// Hint 1, of no dimensions, 2 inputs and 2 outputs: `a` by `b`; by zero all ones, and `a` is left over
    pub fn divide(&mut self, quotient: Register, left_over: Register, a: Register, b: Register) {
        self.code.push(0x80);
        let fields = [1, 0, 2, 2].into_iter().chain([a, b, quotient, left_over].map(|register| register.get()));
        self.code.extend(fields.flat_map(u32::to_le_bytes));
    }

    /// `a` = `b` wherever bit 63 of `condition` is 1
    pub fn assert_eq_cond(&mut self, condition: Register, a: Register, b: Register, path_spec: PathSpec) {
        self.instruction(0x61, &[condition, a, b], Some(path_spec));
    }

    pub fn assert_non_zero(&mut self, word: Register, path_spec: PathSpec) {
        self.instruction(0x63, &[word], Some(path_spec));
    }

    fn instruction(&mut self, opcode: u8, registers: &[Register], path_spec: Option<PathSpec>) {
        self.code.push(opcode);
        let fields = registers.iter().map(|register| register.get()).chain(path_spec.map(PathSpec::get));
        self.code.extend(fields.flat_map(u32::to_le_bytes));
    }
}
