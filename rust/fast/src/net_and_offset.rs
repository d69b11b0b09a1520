//! Netting and then offsetting: the legs among the netted rows are paired off before anything is
//! written.

use crate::net::{netting, Kept};
use crate::offset::Legs;
use crate::row::Row;

impl<const N: usize> Kept<N> {
    /// Takes the legs that offset each other away from the interest rows, of which there are so many
    /// kept: their nets become 0, like that of an issue that nets to nothing.
    #[inline(always)]
    pub fn offset(&mut self, interest: usize) {
        let (heads, nets) = (&self.heads[..interest], &mut self.nets[..interest]);
        let mut legs = Legs::<_, N>::new(|at| Row::of_head(heads[at]).group());
        for (head, net) in heads.iter().zip(nets.iter()) {
            legs.push(Row::of_head(*head), *net);
        }
        if legs.pair_off() == 0 {
            return;
        }
        for ((head, net), left) in heads.iter().zip(nets).zip(&legs.amounts) {
            if Row::of_head(*head).is_leg() {
                *net = i64::from(*left);
            }
        }
    }
}

/// Number, row, book; the length of the written book at the front of `out`; comparisons.
pub fn net_and_offset(bytes: &[u8], out: &mut [u8], result: &mut [u64; 5]) {
    netting::<true>(bytes, out, result);
}
