use ark_ff::Field;
use std::ops::{Add, AddAssign, Mul, MulAssign, Sub, SubAssign};

/// The number of a combination, from 0.
#[derive(Copy, Clone, Debug, PartialEq, Eq, PartialOrd, Ord, Hash)]
pub struct LcIndex(pub usize);

/// A variable of a system. Inputs and witnesses are numbered from 0.
#[derive(Copy, Clone, Debug, PartialEq, Eq, PartialOrd, Ord, Hash)]
pub enum Variable {
    Zero,
    One,
    Instance(usize),
    Witness(usize),
    SymbolicLc(LcIndex),
}

pub type Term<F> = (F, Variable);

/// A sum of terms, in the order of their variables, each of which is named once.
#[derive(Clone, Debug, PartialEq, Eq)]
#[must_use]
pub struct LinearCombination<F: Field>(pub Vec<Term<F>>);

impl<F: Field> LinearCombination<F> {
    pub fn zero() -> Self {
        LinearCombination(Vec::new())
    }

    /// The terms that a system stores: those with a coefficient other than 0, and none of the variable zero.
    pub fn stored(&self) -> Vec<Term<F>> {
        let mut terms = self.0.clone();
        terms.retain(|(coefficient, variable)| {
            !coefficient.is_zero() && *variable != Variable::Zero
        });
        terms
    }

    fn plus(mut self, other: &Self, factor: F) -> Self {
        for (coefficient, variable) in &other.0 {
            self += (*coefficient * factor, *variable);
        }
        self
    }
}

impl<F: Field> From<Variable> for LinearCombination<F> {
    fn from(variable: Variable) -> Self {
        (F::one(), variable).into()
    }
}

impl<F: Field> From<Term<F>> for LinearCombination<F> {
    fn from(term: Term<F>) -> Self {
        LinearCombination(vec![term])
    }
}

impl<F: Field> AddAssign<Term<F>> for LinearCombination<F> {
    fn add_assign(&mut self, (coefficient, variable): Term<F>) {
        match self.0.binary_search_by_key(&variable, |term| term.1) {
            Ok(i) => self.0[i].0 += coefficient,
            Err(i) => self.0.insert(i, (coefficient, variable)),
        }
    }
}

impl<F: Field> SubAssign<Term<F>> for LinearCombination<F> {
    fn sub_assign(&mut self, (coefficient, variable): Term<F>) {
        *self += (-coefficient, variable);
    }
}

impl<F: Field> MulAssign<F> for LinearCombination<F> {
    fn mul_assign(&mut self, factor: F) {
        self.0.iter_mut().for_each(|term| term.0 *= factor);
    }
}

impl<F: Field> Mul<F> for LinearCombination<F> {
    type Output = Self;

    fn mul(mut self, factor: F) -> Self {
        self *= factor;
        self
    }
}

impl<F: Field> Add<Term<F>> for LinearCombination<F> {
    type Output = Self;

    fn add(mut self, term: Term<F>) -> Self {
        self += term;
        self
    }
}

impl<F: Field> Sub<Term<F>> for LinearCombination<F> {
    type Output = Self;

    fn sub(mut self, term: Term<F>) -> Self {
        self -= term;
        self
    }
}

impl<F: Field> Add<Variable> for LinearCombination<F> {
    type Output = Self;

    fn add(self, variable: Variable) -> Self {
        self + (F::one(), variable)
    }
}

impl<F: Field> Sub<Variable> for LinearCombination<F> {
    type Output = Self;

    fn sub(self, variable: Variable) -> Self {
        self - (F::one(), variable)
    }
}

impl<F: Field> Sub<&Variable> for LinearCombination<F> {
    type Output = Self;

    fn sub(self, variable: &Variable) -> Self {
        self - *variable
    }
}

impl<F: Field> Add for LinearCombination<F> {
    type Output = Self;

    fn add(self, other: Self) -> Self {
        self.plus(&other, F::one())
    }
}

impl<F: Field> Add<LinearCombination<F>> for &LinearCombination<F> {
    type Output = LinearCombination<F>;

    fn add(self, other: LinearCombination<F>) -> LinearCombination<F> {
        self.clone() + other
    }
}

impl<F: Field> Sub for LinearCombination<F> {
    type Output = Self;

    fn sub(self, other: Self) -> Self {
        self.plus(&other, -F::one())
    }
}
