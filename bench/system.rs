// The twin of crates/system_bench: the same steps on vectors. A sum's terms are merged by search, coefficients are reduced, zeros are dropped, variables
// are looked for before a sum is taken, and rooms are kept to; values are kept, those of combinations beside them.
const P: u64 = 101;
const ROOM: usize = 65536;

#[derive(Clone, Copy, PartialEq)]
enum Variable {
    One,
    Witness(usize),
    Combination(usize),
}

type Terms = Vec<(u64, Variable)>;

#[derive(Default)]
struct System {
    witnesses: Vec<u64>,
    combinations: Vec<(Terms, u64)>,
    rows: Vec<[Terms; 3]>,
    terms: usize,
}

impl System {
    fn value(&self, v: Variable) -> Option<u64> {
        match v {
            Variable::One => Some(1),
            Variable::Witness(i) => self.witnesses.get(i).copied(),
            Variable::Combination(i) => self.combinations.get(i).map(|c| c.1),
        }
    }

    fn merged(&self, terms: &[(u64, Variable)]) -> Option<Terms> {
        let mut sum: Terms = Vec::with_capacity(terms.len());
        for &(k, v) in terms {
            self.value(v)?;
            match sum.iter_mut().find(|t| t.1 == v) {
                Some(t) => t.0 = (t.0 + k) % P,
                None => sum.push((k % P, v)),
            }
        }
        sum.retain(|t| t.0 != 0);
        Some(sum)
    }

    fn new_witness(&mut self, value: u64) -> Option<Variable> {
        if self.witnesses.len() >= ROOM {
            return None;
        }
        self.witnesses.push(value);
        Some(Variable::Witness(self.witnesses.len() - 1))
    }

    fn new_lc(&mut self, terms: &[(u64, Variable)]) -> Option<Variable> {
        let sum = self.merged(terms)?;
        if self.terms + sum.len() + 1 > ROOM {
            return None;
        }
        self.terms += sum.len() + 1;
        let mut value = 0;
        for &(k, v) in &sum {
            value = (value + k * self.value(v)?) % P;
        }
        self.combinations.push((sum, value));
        Some(Variable::Combination(self.combinations.len() - 1))
    }

    fn enforce(&mut self, a: &[(u64, Variable)], b: &[(u64, Variable)], c: &[(u64, Variable)]) -> Option<()> {
        let row = [self.merged(a)?, self.merged(b)?, self.merged(c)?];
        let size: usize = row.iter().map(Vec::len).sum();
        if self.terms + size > ROOM || self.rows.len() >= ROOM {
            return None;
        }
        self.terms += size;
        self.rows.push(row);
        Some(())
    }
}

fn filled(steps: u64) -> Option<u64> {
    let mut cs = System::default();
    let mut last = Variable::One;
    for i in 0..steps {
        let w = cs.new_witness(i % 2)?;
        cs.enforce(&[(1, Variable::One), (P - 1, w)], &[(1, w)], &[])?;
        last = cs.new_lc(&[(1, last), (2, w)])?;
    }
    cs.value(last)
}

fn main() {
    let words: Vec<u64> = std::env::args().skip(1).filter_map(|w| w.parse().ok()).collect();
    let (steps, count) = (words[0], words[1]);
    let mut sum: u32 = 0;
    for _ in 0..count {
        sum = sum.wrapping_add(filled(steps).unwrap_or(0) as u32);
    }
    println!("{steps} steps, {count} rounds: {sum}");
}
