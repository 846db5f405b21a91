//! How many pairs each search counts.

use super::facts::Facts;

impl Facts {
    /// The sweep's count.
    pub fn reached(&self) -> u32 {
        self.least.iter().flatten().count() as u32
    }

    /// Fewest and most settlings of a guided search.
    ///
    /// Without a plan every reached pair with an estimate is settled. With one, all pairs with a sum
    /// below its cost are, and then pairs of equal sum in any order in which each follows from a
    /// settled one on a least way, until the first goal pair: at the least a shortest chain to a goal
    /// pair, at the most all that are no goal and one that is.
    pub fn settled_range(&self) -> (u32, u32) {
        let Some(cheapest) = self.cheapest else {
            let all = self.sums().flatten().count() as u32;
            return (all, all);
        };
        let below = self.sums().flatten().filter(|sum| *sum < cheapest.cost).count() as u32;
        let (chain, others) = self.equal_sums(cheapest.cost);
        (below + chain, below + others + 1)
    }

    /// The pairs that have to be settled: those with a sum below the plan's cost, without a plan all with a
    /// sum.
    pub fn must_be_settled(&self) -> usize {
        let below = |sum: &u32| self.cheapest.is_none_or(|plan| *sum < plan.cost);
        self.sums().flatten().filter(below).count()
    }

    fn sums(&self) -> impl Iterator<Item = Option<u32>> + '_ {
        (0..self.least.len()).map(|pair| self.sum(pair))
    }

    /// Among the pairs whose sum is the plan's cost: the length of a shortest chain that ends in a
    /// goal pair, and how many that are no goal can be settled before one.
    fn equal_sums(&self, cost: u32) -> (u32, u32) {
        let mut seen = vec![false; self.least.len()];
        let mut layer = self.first_equal(cost, &mut seen);
        let (mut depth, mut chain, mut others) = (0, None, 0);
        while !layer.is_empty() {
            depth += 1;
            let mut next = Vec::new();
            for pair in layer {
                if self.is_goal(pair) {
                    chain = chain.or(Some(depth));
                    continue;
                }
                others += 1;
                self.add_equal_followers(pair, cost, &mut seen, &mut next);
            }
            layer = next;
        }
        (chain.expect("a cheapest plan ends in a goal pair of equal sum"), others)
    }

    /// The pairs of equal sum that can be settled first.
    fn first_equal(&self, cost: u32, seen: &mut [bool]) -> Vec<usize> {
        let mut layer = Vec::new();
        let start = self.start_pair();
        if self.sum(start) == Some(cost) {
            seen[start] = true;
            layer.push(start);
        }
        for pair in 0..self.least.len() {
            if self.sum(pair).is_some_and(|sum| sum < cost) {
                self.add_equal_followers(pair, cost, seen, &mut layer);
            }
        }
        layer
    }

    fn add_equal_followers(
        &self,
        pair: usize,
        cost: u32,
        seen: &mut [bool],
        layer: &mut Vec<usize>,
    ) {
        for next in self.least_followers(pair) {
            if !seen[next] && self.sum(next) == Some(cost) {
                seen[next] = true;
                layer.push(next);
            }
        }
    }
}
