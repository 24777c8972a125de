//! Change request K5: a call that spreads a load over points, and what its outputs say of themselves.

use crate::checks::{of, Lent, Outcome};
use crate::library::Library;
use model::{Answer, DONE};

/// A load, its points and the outputs with what they hold before the call, of any lengths and contents.
#[derive(Clone, Debug)]
pub struct Spread {
    pub load: u64,
    pub suppliers: Vec<u8>,
    pub bases: Vec<u64>,
    pub amounts: Vec<u64>,
    pub totals: Vec<u64>,
}

/// A call that spreads a load: what it returned, and the slices as it left them.
pub struct SpreadCall {
    answer: Answer,
    network: u64,
    load: u64,
    suppliers: Lent<u8>,
    bases: Lent<u64>,
    amounts: Lent<u64>,
    totals: Lent<u64>,
}

impl SpreadCall {
    pub fn new(library: &dyn Library, spread: &Spread) -> SpreadCall {
        let (load, suppliers, bases) = (spread.load, Lent::new(&spread.suppliers), Lent::new(&spread.bases));
        let (mut amounts, mut totals) = (Lent::new(&spread.amounts), Lent::new(&spread.totals));
        let (answer, network) = library.spread(load, suppliers.get(), bases.get(), amounts.get_mut(), totals.get_mut());
        SpreadCall { answer, network, load, suppliers, bases, amounts, totals }
    }

    pub fn outcome(&self) -> Outcome {
        let slices = vec![self.suppliers.wide(), self.bases.wide(), self.amounts.wide(), self.totals.wide()];
        of(self.answer, &[self.network], slices)
    }

    /// "Points and suppliers both add up to the load, and each point is less than 1 Wh from its exact share." Over a base of
    /// zero each is zero. What 17 refuses is not done.
    pub fn check(&self) -> Result<(), String> {
        if self.answer != DONE {
            return Ok(());
        }
        let sum = |numbers: &Lent<u64>| numbers.get().iter().map(|number| *number as i128).sum::<i128>();
        let (load, all) = (self.load as i128, sum(&self.bases));
        if load > 2_000_000_000 || all > 6_000_000_000 {
            return Err(format!("{load} Wh over a base of {all}, done"));
        }
        let sums = [sum(&self.amounts), sum(&self.totals), self.network as i128];
        if sums != [load; 3] {
            return Err(format!("{sums:?} Wh of points, suppliers and network, for {load}"));
        }
        for (amount, base) in self.amounts.get().iter().zip(self.bases.get()) {
            let apart = *amount as i128 * all - load * *base as i128;
            if apart.abs() >= all && (all, *amount) != (0, 0) {
                return Err(format!("{amount} Wh for a base of {base}, of {all} for {load} Wh"));
            }
        }
        Ok(())
    }
}
