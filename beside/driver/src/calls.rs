//! The crate's own call for each command.
use crate::answer::{bits, Answer};
use crate::operands::Command;
use ark_ff::Fp;
use ark_r1cs_std::alloc::AllocVar;
use ark_r1cs_std::boolean::Boolean;
use ark_r1cs_std::convert::ToBitsGadget;
use ark_r1cs_std::eq::EqGadget;
use ark_r1cs_std::fields::fp::{AllocatedFp, FpVar};
use ark_r1cs_std::fields::FieldVar;
use ark_r1cs_std::select::{CondSelectGadget, ThreeBitCondNegLookupGadget, TwoBitLookupGadget};
use ark_relations::r1cs::{ConstraintSystemRef, SynthesisError};

type Answers<F> = Result<Vec<Answer<F>>, SynthesisError>;

/// The answers of a command, or the crate's error.
pub fn perform<const P: u32>(
    system: ConstraintSystemRef<Fp<P>>,
    command: Command<Fp<P>>,
) -> Answers<Fp<P>> {
    match command.opcode {
        0x01..=0x03 => new_answer(system, command),
        0x10..=0x1B => on_bits(command),
        0x20..=0x2D => on_numbers(command),
        0x30..=0x34 => between(command),
        0x40..=0x43 => look_up(command),
        _ => compare(command),
    }
}

fn one_bit<const P: u32>(bit: Boolean<Fp<P>>) -> Answers<Fp<P>> {
    Ok(vec![Answer::Bit(bit)])
}

fn one_number<const P: u32>(number: impl Into<FpVar<Fp<P>>>) -> Answers<Fp<P>> {
    Ok(vec![Answer::Number(number.into())])
}

fn statement<const P: u32>(outcome: Result<(), SynthesisError>) -> Answers<Fp<P>> {
    outcome.map(|()| Vec::new())
}

fn new_answer<const P: u32>(
    system: ConstraintSystemRef<Fp<P>>,
    command: Command<Fp<P>>,
) -> Answers<Fp<P>> {
    let Command {
        mode, truth, value, ..
    } = command;
    let missing = SynthesisError::AssignmentMissing;
    match command.opcode {
        0x01 => one_bit(Boolean::new_variable(
            system,
            || truth.ok_or(missing),
            mode,
        )?),
        0x02 => one_number(FpVar::new_variable(system, || value.ok_or(missing), mode)?),
        _ => Ok(command.copied.into_iter().collect()),
    }
}

fn on_bits<const P: u32>(command: Command<Fp<P>>) -> Answers<Fp<P>> {
    let (b, range) = (&command.bits, &command.range);
    match command.opcode {
        0x10 => one_bit(!&b[0]),
        0x11 => one_bit(&b[0] & &b[1]),
        0x12 => one_bit(&b[0] | &b[1]),
        0x13 => one_bit(&b[0] ^ &b[1]),
        0x14 => one_bit(Boolean::kary_and(range)?),
        0x15 => one_bit(Boolean::kary_or(range)?),
        0x16 => one_bit(Boolean::kary_nand(range)?),
        0x17 => statement(Boolean::enforce_kary_nand(range)),
        0x18 => one_bit(b[0].is_eq(&b[1])?),
        0x19 => one_bit(b[0].select(&b[1], &b[2])?),
        0x1A => statement(b[0].conditional_enforce_equal(&b[1], &b[2])),
        _ => statement(b[0].conditional_enforce_not_equal(&b[1], &b[2])),
    }
}

fn on_numbers<const P: u32>(command: Command<Fp<P>>) -> Answers<Fp<P>> {
    let (b, n) = (&command.bits, &command.numbers);
    match command.opcode {
        0x20 => one_number(&n[0] + &n[1]),
        0x21 => one_number(&n[0] - &n[1]),
        0x22 => one_number(&n[0] * &n[1]),
        0x23 => one_number(n[0].negate()?),
        0x24 => one_number(n[0].double()?),
        0x25 => one_number(n[0].inverse()?),
        0x26 => statement(n[0].mul_equals(&n[1], &n[2])),
        0x27 => statement(n[0].square_equals(&n[1])),
        0x28 => one_bit(n[0].is_eq(&n[1])?),
        0x29 => one_bit(n[0].is_neq(&n[1])?),
        0x2A => statement(n[0].conditional_enforce_equal(&n[1], &b[0])),
        0x2B => statement(n[0].conditional_enforce_not_equal(&n[1], &b[0])),
        0x2C => one_number(b[0].select(&n[0], &n[1])?),
        _ => one_number(b[0].clone()),
    }
}

fn between<const P: u32>(command: Command<Fp<P>>) -> Answers<Fp<P>> {
    let (n, range) = (&command.numbers, &command.range);
    match command.opcode {
        0x30 => one_number(Boolean::le_bits_to_fp(range)?),
        0x31 => Ok(bits(n[0].to_non_unique_bits_le()?)),
        0x32 => Ok(bits(n[0].to_bits_le()?)),
        0x33 => {
            let (low, rest) = n[0].to_bits_le_with_top_bits_zero(command.count)?;
            let mut answers = bits(low);
            answers.push(Answer::Number(rest));
            Ok(answers)
        }
        _ => {
            // The bits of the last run, which the crate gives back, are no answers.
            let outcome = Boolean::enforce_smaller_or_equal_than_le(range, [command.element]);
            statement(outcome.map(drop))
        }
    }
}

fn look_up<const P: u32>(command: Command<Fp<P>>) -> Answers<Fp<P>> {
    let (b, range, table) = (&command.bits, &command.range, &command.table);
    match command.opcode {
        0x40 => one_number(AllocatedFp::two_bit_lookup(b, table)?),
        0x41 => one_number(AllocatedFp::three_bit_cond_neg_lookup(
            &b[..3],
            &b[3],
            table,
        )?),
        0x42 => one_bit(Boolean::conditionally_select_power_of_two_vector(
            range,
            &command.bit_vector,
        )?),
        _ => one_number(FpVar::conditionally_select_power_of_two_vector(
            range,
            &command.number_vector,
        )?),
    }
}

fn compare<const P: u32>(command: Command<Fp<P>>) -> Answers<Fp<P>> {
    let Command {
        numbers: n,
        order,
        flag,
        ..
    } = command;
    match command.opcode {
        0x50 => one_bit(n[0].is_cmp(&n[1], order, flag)?),
        _ => statement(n[0].enforce_cmp(&n[1], order, flag)),
    }
}
