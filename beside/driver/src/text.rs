//! What is printed of a run.
use crate::answer::Answer;
use crate::run::Run;
use ark_ff::{Field, Fp, PrimeField};
use ark_r1cs_std::boolean::Boolean;
use ark_r1cs_std::fields::fp::FpVar;
use ark_r1cs_std::R1CSVar;
use ark_relations::r1cs::{ConstraintSystem, LcIndex, Term, Variable};
use std::fmt::Display;

/// The lines of a run: the refusals, the counts, the rows written out, the verdict, the answers, and how many
/// combinations there are and terms are used.
pub fn lines<const P: u32>(run: &Run<P>) -> Vec<String> {
    let system = run.system.borrow();
    let mut lines = Vec::new();
    for (number, refusal) in &run.refusals {
        lines.push(format!("refused {number} {refusal}"));
    }
    lines.push(format!(
        "inputs {} witnesses {} rows {}",
        system.inputs.len(),
        system.witnesses.len(),
        system.rows.len()
    ));
    for [a, b, c] in system.written_out() {
        lines.push(format!("{} ; {} ; {}", sum(&a), sum(&b), sum(&c)));
    }
    lines.push(verdict(&system));
    for (number, answer) in run.book.iter().enumerate() {
        lines.push(format!("{number} {}", shown(answer, &system)));
    }
    lines.push(format!(
        "combinations {} terms {}",
        system.combinations.len(),
        system.terms()
    ));
    lines
}

fn verdict<F: Field>(system: &ConstraintSystem<F>) -> String {
    if !system.keeps_values {
        return "setup".to_string();
    }
    match system.first_unmet() {
        None => "met".to_string(),
        Some(row) => format!("unmet {row}"),
    }
}

fn sum<F: Field>(terms: &[Term<F>]) -> String {
    if terms.is_empty() {
        return "0".to_string();
    }
    let shown = terms.iter().map(|(coefficient, variable)| match variable {
        Variable::Instance(i) => format!("{coefficient} i{i}"),
        Variable::Witness(i) => format!("{coefficient} w{i}"),
        _ => format!("{coefficient} one"),
    });
    shown.collect::<Vec<_>>().join(" + ")
}

/// An answer: a constant, or a variable by its name, with its value where values are kept. A combination is named by its place.
fn shown<const P: u32>(answer: &Answer<Fp<P>>, system: &ConstraintSystem<Fp<P>>) -> String {
    match answer {
        Answer::Bit(Boolean::Constant(bit)) => format!("bit constant {}", *bit as u8),
        Answer::Bit(Boolean::Var(bit)) => {
            let value = answer_value(bit.value().map(u8::from));
            format!("bit {}{value}", name(bit.variable(), system))
        }
        Answer::Number(FpVar::Constant(number)) => format!("number constant {number}"),
        Answer::Number(FpVar::Var(number)) => {
            let value = answer_value(number.value());
            format!("number {}{value}", name(number.variable, system))
        }
    }
}

fn answer_value<T: Display, E>(value: Result<T, E>) -> String {
    value.map_or(String::new(), |value| format!(" {value}"))
}

fn name<F: PrimeField>(variable: Variable, system: &ConstraintSystem<F>) -> String {
    match variable {
        Variable::Zero => "zero".to_string(),
        Variable::One => "one".to_string(),
        Variable::Instance(i) => format!("i{i}"),
        Variable::Witness(i) => format!("w{i}"),
        Variable::SymbolicLc(LcIndex(i)) => format!("c{}", system.combinations[i].place),
    }
}
