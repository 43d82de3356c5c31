//! Which node number everything gets.

use crate::plan::Plan;
use crate::rng::Rng;

pub struct Numbering {
    pub map_chain: Vec<u32>,
    pub levels: Vec<Vec<u32>>,
    pub free: Vec<u32>,
}

pub fn number_nodes(rng: &mut Rng, plan: &Plan) -> Numbering {
    let mut numbers: Vec<u32> = (1..plan.total_nodes() as u32).collect();
    if plan.shuffled {
        rng.shuffle(&mut numbers);
    }
    let mut numbers = numbers.into_iter();
    let map_chain = numbers.by_ref().take(plan.map_nodes_made()).collect();
    let levels =
        plan.level_sizes.iter().map(|&size| numbers.by_ref().take(size).collect()).collect();
    let mut free: Vec<u32> = numbers.collect();
    free.sort_unstable();
    Numbering { map_chain, levels, free }
}
