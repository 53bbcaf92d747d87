use crate::r1cs::{LcIndex, LinearCombination, Result, Term, Variable};
use ark_ff::Field;
use std::collections::BTreeMap;

pub type Row<F> = [Vec<Term<F>>; 3];

/// A named sum, its value where values are kept, and its place: how many terms the combinations before it use, and itself. Each
/// of those before it uses one more than it has, for its heading.
#[derive(Clone, Debug)]
pub struct Combination<F: Field> {
    pub terms: Vec<Term<F>>,
    pub value: Option<F>,
    pub place: usize,
}

/// What a call of the system wants: an input, a witness, or so many terms of a combination or a row.
#[derive(Copy, Clone, Debug, PartialEq, Eq)]
pub enum Call {
    Input,
    Witness,
    Combination(usize),
    Row(usize),
}

/// The four lists, with the values where these are kept, and a record of the calls.
#[derive(Clone, Debug)]
pub struct ConstraintSystem<F: Field> {
    pub keeps_values: bool,
    pub inputs: Vec<Option<F>>,
    pub witnesses: Vec<Option<F>>,
    pub combinations: Vec<Combination<F>>,
    pub rows: Vec<Row<F>>,
    pub calls: Vec<Call>,
    /// Whether the last call was for a variable whose value was not given.
    pub value_missed: bool,
}

impl<F: Field> ConstraintSystem<F> {
    pub fn new(keeps_values: bool) -> Self {
        ConstraintSystem {
            keeps_values,
            inputs: Vec::new(),
            witnesses: Vec::new(),
            combinations: Vec::new(),
            rows: Vec::new(),
            calls: Vec::new(),
            value_missed: false,
        }
    }

    /// How many terms the combinations use, each with one more for its heading.
    pub fn combination_terms(&self) -> usize {
        let last = self.combinations.last();
        last.map_or(0, |combination| combination.place + 1)
    }

    /// How many terms are used.
    pub fn terms(&self) -> usize {
        self.combination_terms() + self.rows.iter().flatten().map(Vec::len).sum::<usize>()
    }

    /// The value of a new variable, which is asked for only where values are kept.
    pub fn value_of(&mut self, call: Call, value: impl FnOnce() -> Result<F>) -> Result<Option<F>> {
        self.calls.push(call);
        if !self.keeps_values {
            return Ok(None);
        }
        let value = value();
        self.value_missed = value.is_err();
        value.map(Some)
    }

    pub fn new_input_variable(&mut self, value: impl FnOnce() -> Result<F>) -> Result<Variable> {
        let value = self.value_of(Call::Input, value)?;
        self.inputs.push(value);
        Ok(Variable::Instance(self.inputs.len() - 1))
    }

    pub fn new_witness_variable(&mut self, value: impl FnOnce() -> Result<F>) -> Result<Variable> {
        let value = self.value_of(Call::Witness, value)?;
        self.witnesses.push(value);
        Ok(Variable::Witness(self.witnesses.len() - 1))
    }

    pub fn new_lc(&mut self, sum: LinearCombination<F>) -> Result<Variable> {
        let terms = sum.stored();
        self.calls.push(Call::Combination(1 + terms.len()));
        let value = self.value(&terms);
        let place = self.combination_terms() + terms.len();
        self.combinations.push(Combination {
            terms,
            value,
            place,
        });
        Ok(Variable::SymbolicLc(LcIndex(self.combinations.len() - 1)))
    }

    pub fn enforce_constraint(
        &mut self,
        a: LinearCombination<F>,
        b: LinearCombination<F>,
        c: LinearCombination<F>,
    ) -> Result<()> {
        let row = [a.stored(), b.stored(), c.stored()];
        let terms = row.iter().map(Vec::len).sum();
        self.calls.push(Call::Row(terms));
        self.rows.push(row);
        Ok(())
    }

    pub fn assigned_value(&self, variable: Variable) -> Option<F> {
        match variable {
            Variable::Zero => self.keeps_values.then(F::zero),
            Variable::One => self.keeps_values.then(F::one),
            Variable::Instance(i) => self.inputs[i],
            Variable::Witness(i) => self.witnesses[i],
            Variable::SymbolicLc(LcIndex(i)) => self.combinations[i].value,
        }
    }

    /// The value of a sum, where values are kept.
    fn value(&self, terms: &[Term<F>]) -> Option<F> {
        let mut value = F::zero();
        for (coefficient, variable) in terms {
            value += *coefficient * self.assigned_value(*variable)?;
        }
        self.keeps_values.then_some(value)
    }

    /// The rows, with each combination replaced by what it stands for.
    pub fn written_out(&self) -> Vec<Row<F>> {
        let mut sums: Vec<Vec<Term<F>>> = Vec::new();
        for combination in &self.combinations {
            let sum = write_out(&combination.terms, &sums);
            sums.push(sum);
        }
        let mut rows = self.rows.clone();
        for sum in rows.iter_mut().flatten() {
            *sum = write_out(sum, &sums);
        }
        rows
    }

    /// The first row that the kept values do not meet.
    pub fn first_unmet(&self) -> Option<usize> {
        self.rows.iter().position(|[a, b, c]| {
            let value = |sum| self.value(sum).expect("a value is kept for each variable");
            value(a) * value(b) != value(c)
        })
    }
}

/// A sum in which each combination is replaced by its own sum, one of these.
fn write_out<F: Field>(terms: &[Term<F>], sums: &[Vec<Term<F>>]) -> Vec<Term<F>> {
    let mut coefficients = BTreeMap::<Variable, F>::new();
    let mut add = |coefficient: F, variable: Variable| {
        *coefficients.entry(variable).or_insert(F::zero()) += coefficient;
    };
    for (coefficient, variable) in terms {
        match variable {
            Variable::SymbolicLc(LcIndex(i)) => {
                sums[*i]
                    .iter()
                    .for_each(|(inner, v)| add(*coefficient * *inner, *v));
            }
            _ => add(*coefficient, *variable),
        }
    }
    let sum = coefficients
        .into_iter()
        .map(|(variable, coefficient)| (coefficient, variable));
    sum.filter(|(coefficient, _)| !coefficient.is_zero())
        .collect()
}
