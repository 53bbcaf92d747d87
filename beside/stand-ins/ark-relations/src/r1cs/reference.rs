use crate::r1cs::{ConstraintSystem, LinearCombination, Result, SynthesisError, Variable};
use ark_ff::Field;
use std::cell::RefCell;
use std::rc::Rc;

/// A shared system, or none.
#[derive(Clone, Debug)]
pub enum ConstraintSystemRef<F: Field> {
    None,
    CS(Rc<RefCell<ConstraintSystem<F>>>),
}

// As in the library: two references to systems are never equal.
impl<F: Field> PartialEq for ConstraintSystemRef<F> {
    fn eq(&self, other: &Self) -> bool {
        self.is_none() && other.is_none()
    }
}

impl<F: Field> Eq for ConstraintSystemRef<F> {}

impl<F: Field> ConstraintSystemRef<F> {
    pub fn or(self, other: Self) -> Self {
        match self {
            ConstraintSystemRef::None => other,
            system => system,
        }
    }

    pub fn is_none(&self) -> bool {
        matches!(self, ConstraintSystemRef::None)
    }

    fn system(&self) -> Result<&RefCell<ConstraintSystem<F>>> {
        match self {
            ConstraintSystemRef::None => Err(SynthesisError::MissingCS),
            ConstraintSystemRef::CS(system) => Ok(system),
        }
    }

    pub fn is_in_setup_mode(&self) -> bool {
        self.system()
            .is_ok_and(|system| !system.borrow().keeps_values)
    }

    // The closures read the system, so it is not borrowed while one runs.
    pub fn new_input_variable(&self, value: impl FnOnce() -> Result<F>) -> Result<Variable> {
        let system = self.system()?;
        if self.is_in_setup_mode() {
            return system.borrow_mut().new_input_variable(value);
        }
        let value = value();
        system.borrow_mut().new_input_variable(|| value)
    }

    pub fn new_witness_variable(&self, value: impl FnOnce() -> Result<F>) -> Result<Variable> {
        let system = self.system()?;
        if self.is_in_setup_mode() {
            return system.borrow_mut().new_witness_variable(value);
        }
        let value = value();
        system.borrow_mut().new_witness_variable(|| value)
    }

    pub fn new_lc(&self, sum: LinearCombination<F>) -> Result<Variable> {
        self.system()?.borrow_mut().new_lc(sum)
    }

    pub fn enforce_constraint(
        &self,
        a: LinearCombination<F>,
        b: LinearCombination<F>,
        c: LinearCombination<F>,
    ) -> Result<()> {
        self.system()?.borrow_mut().enforce_constraint(a, b, c)
    }

    pub fn assigned_value(&self, variable: Variable) -> Option<F> {
        self.system().ok()?.borrow().assigned_value(variable)
    }
}

/// A part of a system with a name, which is not kept.
#[derive(Clone, Debug)]
pub struct Namespace<F: Field> {
    system: ConstraintSystemRef<F>,
}

impl<F: Field> From<ConstraintSystemRef<F>> for Namespace<F> {
    fn from(system: ConstraintSystemRef<F>) -> Self {
        Namespace { system }
    }
}

impl<F: Field> Namespace<F> {
    pub fn cs(&self) -> ConstraintSystemRef<F> {
        self.system.clone()
    }
}
