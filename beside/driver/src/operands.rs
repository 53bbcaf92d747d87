//! The operands of commands: how they lie in the bytes, what is fit, and how long they may be.
use crate::answer::Answer;
use crate::refusal::Refusal;
use ark_ff::{Fp, PrimeField};
use ark_r1cs_std::alloc::AllocationMode;
use ark_r1cs_std::boolean::Boolean;
use ark_r1cs_std::fields::fp::FpVar;
use std::cmp::Ordering;

/// A kind of operand.
#[derive(Clone, Copy)]
enum Kind {
    Mode,
    Truth,
    Value,
    /// A value that must be there.
    Entry,
    Answer,
    Bit,
    Number,
    /// The first of some bits that stand next to each other, and how many there are.
    Range,
    Count,
    Element,
    Order,
    Flag,
    /// The first of as many bits, or numbers, as there are places that the bits of the range spell.
    BitVector,
    NumberVector,
}

impl Kind {
    /// How many bytes it takes.
    fn width(self) -> usize {
        match self {
            Kind::Mode | Kind::Truth | Kind::Count | Kind::Order | Kind::Flag => 1,
            Kind::Answer | Kind::Bit | Kind::Number | Kind::BitVector | Kind::NumberVector => 2,
            Kind::Range => 3,
            Kind::Element => 8,
            Kind::Value | Kind::Entry => 9,
        }
    }
}

/// The operands of an opcode, in their order; none where the opcode is unknown.
fn layout(opcode: u8) -> Option<&'static [Kind]> {
    use Kind::*;
    Some(match opcode {
        0x01 => &[Mode, Truth],
        0x02 => &[Mode, Value],
        0x03 => &[Answer],
        0x10 | 0x2D => &[Bit],
        0x11..=0x13 | 0x18 => &[Bit, Bit],
        0x14..=0x17 | 0x30 => &[Range],
        0x19..=0x1B => &[Bit, Bit, Bit],
        0x20..=0x22 | 0x27..=0x29 => &[Number, Number],
        0x23..=0x25 | 0x31 | 0x32 => &[Number],
        0x26 => &[Number, Number, Number],
        0x2A | 0x2B => &[Number, Number, Bit],
        0x2C => &[Bit, Number, Number],
        0x33 => &[Number, Count],
        0x34 => &[Range, Element],
        0x40 => &[Bit, Bit, Entry, Entry, Entry, Entry],
        0x41 => &[Bit, Bit, Bit, Bit, Entry, Entry, Entry, Entry],
        0x42 => &[Range, BitVector],
        0x43 => &[Range, NumberVector],
        0x50 | 0x51 => &[Number, Number, Order, Flag],
        _ => return None,
    })
}

/// How many bytes a command takes, its opcode among them; none where the opcode is unknown.
pub fn length(opcode: u8) -> Option<usize> {
    let kinds = layout(opcode)?;
    Some(1 + kinds.iter().map(|kind| kind.width()).sum::<usize>())
}

/// A command with its operands looked up, each kind by itself and in the order of the bytes.
pub struct Command<F: PrimeField> {
    pub opcode: u8,
    pub mode: AllocationMode,
    pub truth: Option<bool>,
    pub value: Option<F>,
    pub copied: Option<Answer<F>>,
    pub bits: Vec<Boolean<F>>,
    pub numbers: Vec<FpVar<F>>,
    pub table: Vec<F>,
    pub range: Vec<Boolean<F>>,
    pub bit_vector: Vec<Boolean<F>>,
    pub number_vector: Vec<FpVar<F>>,
    pub count: usize,
    pub element: u64,
    pub order: Ordering,
    pub flag: bool,
}

fn byte_of<T: Copy>(byte: u8, meanings: &[T]) -> Result<T, Refusal> {
    meanings.get(byte as usize).copied().ok_or(Refusal::OPERAND)
}

fn little_endian(bytes: &[u8]) -> u64 {
    bytes
        .iter()
        .rev()
        .fold(0, |number, byte| number << 8 | *byte as u64)
}

fn value<const P: u32>(bytes: &[u8]) -> Result<Option<Fp<P>>, Refusal> {
    let number = little_endian(&bytes[1..]) as i64;
    byte_of(bytes[0], &[None, Some(number.into())])
}

fn bit<F: PrimeField>(book: &[Answer<F>], i: usize) -> Result<Boolean<F>, Refusal> {
    match book.get(i) {
        Some(Answer::Bit(bit)) => Ok(bit.clone()),
        _ => Err(Refusal::OPERAND),
    }
}

fn number<F: PrimeField>(book: &[Answer<F>], i: usize) -> Result<FpVar<F>, Refusal> {
    match book.get(i) {
        Some(Answer::Number(number)) => Ok(number.clone()),
        _ => Err(Refusal::OPERAND),
    }
}

fn bits<F: PrimeField>(
    book: &[Answer<F>],
    first: usize,
    count: usize,
) -> Result<Vec<Boolean<F>>, Refusal> {
    (first..first + count).map(|i| bit(book, i)).collect()
}

impl<const P: u32> Command<Fp<P>> {
    /// The command that some bytes spell, of an opcode's own length; refused where an operand is not fit.
    pub fn new(bytes: &[u8], book: &[Answer<Fp<P>>]) -> Result<Self, Refusal> {
        let mut command = Command {
            opcode: bytes[0],
            mode: AllocationMode::Constant,
            truth: None,
            value: None,
            copied: None,
            bits: Vec::new(),
            numbers: Vec::new(),
            table: Vec::new(),
            range: Vec::new(),
            bit_vector: Vec::new(),
            number_vector: Vec::new(),
            count: 0,
            element: 0,
            order: Ordering::Equal,
            flag: false,
        };
        let mut rest = &bytes[1..];
        for kind in layout(bytes[0]).into_iter().flatten() {
            let (operand, after) = rest.split_at(kind.width());
            command.take(*kind, operand, book)?;
            rest = after;
        }
        Ok(command)
    }

    fn take(&mut self, kind: Kind, operand: &[u8], book: &[Answer<Fp<P>>]) -> Result<(), Refusal> {
        use AllocationMode::{Constant, Input, Witness};
        let byte = operand[0];
        // The number of an answer, where the operand has one.
        let at = little_endian(&operand[..operand.len().min(2)]) as usize;
        match kind {
            Kind::Mode => self.mode = byte_of(byte, &[Constant, Input, Witness])?,
            Kind::Truth => self.truth = byte_of(byte, &[Some(false), Some(true), None])?,
            Kind::Value => self.value = value(operand)?,
            Kind::Entry => self.table.push(value(operand)?.ok_or(Refusal::OPERAND)?),
            Kind::Answer => self.copied = Some(book.get(at).cloned().ok_or(Refusal::OPERAND)?),
            Kind::Bit => self.bits.push(bit(book, at)?),
            Kind::Number => self.numbers.push(number(book, at)?),
            Kind::Range => self.range = bits(book, at, operand[2] as usize)?,
            Kind::Count => self.count = byte as usize,
            Kind::Element => self.element = little_endian(operand),
            Kind::Order => {
                self.order = byte_of(byte, &[Ordering::Less, Ordering::Equal, Ordering::Greater])?
            }
            Kind::Flag => self.flag = byte_of(byte, &[false, true])?,
            Kind::BitVector => self.bit_vector = bits(book, at, self.vector_length()?)?,
            Kind::NumberVector => {
                let places = at..at + self.vector_length()?;
                self.number_vector = places.map(|i| number(book, i)).collect::<Result<_, _>>()?;
            }
        }
        Ok(())
    }

    /// How many places the bits of the range spell. No book has 2^16 answers.
    fn vector_length(&self) -> Result<usize, Refusal> {
        match self.range.len() {
            count @ 0..16 => Ok(1 << count),
            _ => Err(Refusal::OPERAND),
        }
    }

    /// Whether the lengths are in order.
    pub fn has_good_lengths(&self) -> bool {
        let bits = Fp::<P>::MODULUS_BIT_SIZE as usize;
        let range = self.range.len();
        match self.opcode {
            0x14..=0x17 => (1..=64).contains(&range),
            0x30 => range <= 64,
            0x33 => self.count < bits,
            0x34 => (64 - self.element.leading_zeros() as usize..=64).contains(&range),
            0x42 | 0x43 => range <= 6,
            _ => true,
        }
    }

    /// How many answers the command gives where it is accepted.
    pub fn answers(&self) -> usize {
        match self.opcode {
            0x17 | 0x1A | 0x1B | 0x26 | 0x27 | 0x2A | 0x2B | 0x34 | 0x51 => 0,
            0x31 | 0x32 => Fp::<P>::MODULUS_BIT_SIZE as usize,
            0x33 => self.count + 1,
            _ => 1,
        }
    }
}
