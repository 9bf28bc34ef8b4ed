//! Plans of items and the chains over them.

/// A plan.
#[derive(Clone, Copy, Debug, PartialEq, Eq)]
pub enum Plan {
    Channels,
    Equipment,
}

/// The containers of each item of the equipment table, in number order.
#[derive(Clone, Debug, Default)]
pub struct Equipment(Vec<Vec<u32>>);

/// An item chain: its upper end and its length.
pub struct ItemChain {
    pub top: u32,
    pub length: usize,
}

impl Equipment {
    /// The number that the next item must have.
    pub fn next(&self) -> u32 {
        self.0.len() as u32
    }

    fn height(&self, item: u32) -> u32 {
        self.0[item as usize].iter().map(|c| self.height(*c) + 1).max().unwrap_or(0)
    }

    pub fn add(&mut self, item: u32, first: Option<u32>, second: Option<u32>) -> Result<(), u32> {
        if item != self.next() || item == 256 {
            return Err(13);
        }
        let containers: Vec<u32> = first.into_iter().chain(second).collect();
        if containers.iter().any(|c| *c >= self.next()) || first.is_some() && first == second {
            return Err(14);
        }
        if containers.iter().any(|c| self.height(*c) == 7) {
            return Err(15);
        }
        self.0.push(containers);
        Ok(())
    }

    pub fn known(&self, plan: Plan, item: u32) -> bool {
        match plan {
            Plan::Channels => (1..=255).contains(&item),
            Plan::Equipment => item < self.next(),
        }
    }

    fn containers(&self, plan: Plan, item: u32) -> Vec<u32> {
        match plan {
            Plan::Channels if (2..=255).contains(&item) => vec![item / 2],
            Plan::Channels => vec![],
            Plan::Equipment => self.0.get(item as usize).cloned().unwrap_or_default(),
        }
    }

    fn each_to(&self, plan: Plan, item: u32, length: usize, chains: &mut Vec<ItemChain>) {
        chains.push(ItemChain { top: item, length });
        for container in self.containers(plan, item) {
            self.each_to(plan, container, length + 1, chains);
        }
    }

    /// All item chains down to the item, one by one.
    pub fn chains_to(&self, plan: Plan, item: u32) -> Vec<ItemChain> {
        let mut chains = Vec::new();
        self.each_to(plan, item, 0, &mut chains);
        chains
    }
}
