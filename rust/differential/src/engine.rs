//! The verified library, through C, as an engine of the harness for document 01's demand 3.

use claim::{Engine, Lent, LentFold, LentPlace, Ran};
use reference::folding::Folded;

use crate::buffer::Buffer;
use crate::call::{
    number_bytes, numbers, word_bytes, words, Call, Callee, Entry, Library, DEAD_WORDS,
};

impl Engine for Library {
    fn analyse(&self, plan: &[u8], sets: &mut [u64]) {
        let mut dead = vec![0; 8 * DEAD_WORDS];
        let mut bytes = word_bytes(sets);
        let result = crate::analyse(plan, &mut dead, &mut bytes);
        assert_eq!(result, 0, "the plan is accepted");
        sets.copy_from_slice(&words(&bytes));
    }

    fn recover(&self, lent: Lent) -> Result<(), u32> {
        let mut call = Call {
            entry: Entry::recover(lent.page),
            ..Call::recover(lent.plan, lent.sets, lent.chip, lent.state)
        };
        let result = self.answer(&mut call);
        give_back(&call, lent);
        accepted(result)
    }

    fn run(
        &self,
        lent: Lent,
        readings: &[i32],
        outputs: &mut [i32],
        budget: u64,
    ) -> Result<Ran, u32> {
        let mut call = Call {
            entry: Entry::run(lent.page),
            readings: Buffer::plain(&number_bytes(readings)),
            outputs: Buffer::plain(&number_bytes(outputs)),
            budget,
            ..Call::run(lent.plan, lent.sets, lent.chip, lent.state)
        };
        let result = self.answer(&mut call);
        give_back(&call, lent);
        outputs.copy_from_slice(&numbers(call.outputs.lent()));
        accepted(result)?;
        let ran = call.ran();
        Ok(Ran {
            ended: ran.ended,
            steps: ran.steps,
            taken: ran.taken as usize,
            written: ran.given as usize,
        })
    }

    fn fold(&self, lent: LentFold) -> Result<Folded, u32> {
        let mut call = Call {
            stored: lent.stored,
            budget: lent.budget,
            ..Call::fold(lent.plan, lent.sets, lent.old, lent.new)
        };
        let result = self.answer(&mut call);
        lent.old.copy_from_slice(call.chip.lent());
        lent.new.copy_from_slice(call.new_chip.lent());
        accepted(result)?;
        let folded = call.folded();
        Ok(Folded {
            stored: folded.stored,
            finished: folded.finished == 1,
        })
    }

    fn spent(&self, lent: LentPlace) -> Result<bool, u32> {
        let mut call = Call {
            entry: Entry::spent(lent.page),
            ..Call::spent(lent.plan, lent.chip, lent.place)
        };
        let result = self.answer(&mut call);
        lent.plan.copy_from_slice(call.plan.lent());
        lent.chip.copy_from_slice(call.chip.lent());
        accepted(result)?;
        Ok(call.may() == 1)
    }
}

/// Hands back what the call left, a refused one too: the harness looks at it.
fn give_back(call: &Call, lent: Lent) {
    lent.chip.copy_from_slice(call.chip.lent());
    lent.state.copy_from_slice(call.state.lent());
}

fn accepted(result: u32) -> Result<(), u32> {
    match result {
        0 => Ok(()),
        number => Err(number),
    }
}
