//! Calls.

use crate::grant::Grant;
use crate::raw::CallRecord;
use crate::sign::Sign;
use crate::strategy::Strategy;
use std::fmt;

/// The number that stands for no container.
const NO_CONTAINER: u32 = u32::MAX;

/// A plan of items that a question is put over.
#[derive(Clone, Copy, Debug, PartialEq, Eq, Hash)]
pub enum Plan {
    /// Items 1 to 255; 1 lies in nothing, and n in n / 2.
    Channels,
    /// The items that [`Call::Equip`] put in before, in the same run.
    Equipment,
}

impl Plan {
    /// 0 for the channels, 1 for the equipment table.
    pub const fn number(self) -> u32 {
        match self {
            Plan::Channels => 0,
            Plan::Equipment => 1,
        }
    }

    /// The plan with the number, if there is one.
    pub const fn numbered(number: u32) -> Option<Plan> {
        match number {
            0 => Some(Plan::Channels),
            1 => Some(Plan::Equipment),
            _ => None,
        }
    }
}

impl fmt::Display for Plan {
    fn fmt(&self, f: &mut fmt::Formatter<'_>) -> fmt::Result {
        f.write_str(match self {
            Plan::Channels => "channels",
            Plan::Equipment => "equipment",
        })
    }
}

/// A call. Any number is allowed in it; one that is out of range is refused.
#[derive(Clone, Copy, Debug, PartialEq, Eq, Hash)]
pub enum Call {
    /// Makes the member a member of the group.
    Join {
        /// The group.
        group: u32,
        /// The member.
        member: u32,
    },
    /// Ends the membership.
    Leave {
        /// The group.
        group: u32,
        /// The member.
        member: u32,
    },
    /// Gives the grant.
    Give(Grant),
    /// Takes back the grant for the account, the item and the right, whatever its sign.
    Withdraw {
        /// The account.
        account: u32,
        /// The item.
        item: u32,
        /// The right.
        right: u32,
    },
    /// Asks whether the account may use the right on the item; read off the table of chain counts.
    Quick {
        /// The account.
        account: u32,
        /// The item.
        item: u32,
        /// The right.
        right: u32,
        /// How marks become one sign.
        strategy: Strategy,
        /// The plan that the item is in.
        plan: Plan,
    },
    /// Asks the same, and is answered the same, by walking down the memberships.
    Walked {
        /// The account.
        account: u32,
        /// The item.
        item: u32,
        /// The right.
        right: u32,
        /// How marks become one sign.
        strategy: Strategy,
        /// The plan that the item is in.
        plan: Plan,
    },
    /// Asks for the least distance of an arrival of the sign.
    Least {
        /// The account.
        account: u32,
        /// The item.
        item: u32,
        /// The right.
        right: u32,
        /// The sign.
        sign: Sign,
        /// The plan that the item is in.
        plan: Plan,
    },
    /// Puts the next item into the equipment table. A second container without a first is the only one.
    Equip {
        /// The item.
        item: u32,
        /// A container that it lies in.
        first: Option<u32>,
        /// Another container that it lies in.
        second: Option<u32>,
    },
}

/// The number of a container. The number that stands for none is no item; in its place goes another that no plan knows.
const fn container_number(container: Option<u32>) -> u32 {
    match container {
        None => NO_CONTAINER,
        Some(NO_CONTAINER) => NO_CONTAINER - 1,
        Some(item) => item,
    }
}

impl From<Call> for CallRecord {
    fn from(call: Call) -> CallRecord {
        let over = |kind, plan: Plan, numbers: [u32; 4]| {
            let [first, second, third, fourth] = numbers;
            CallRecord { kind, plan: plan.number(), first, second, third, fourth }
        };
        let plain = |kind, numbers| over(kind, Plan::Channels, numbers);
        match call {
            Call::Join { group, member } => plain(0, [group, member, 0, 0]),
            Call::Leave { group, member } => plain(1, [group, member, 0, 0]),
            Call::Give(grant) => plain(2, [grant.account, grant.item, grant.right, grant.sign.number()]),
            Call::Withdraw { account, item, right } => plain(3, [account, item, right, 0]),
            Call::Quick { account, item, right, strategy, plan } => over(4, plan, [account, item, right, strategy.number()]),
            Call::Walked { account, item, right, strategy, plan } => over(5, plan, [account, item, right, strategy.number()]),
            Call::Least { account, item, right, sign, plan } => over(6, plan, [account, item, right, sign.number()]),
            Call::Equip { item, first, second } => plain(7, [item, container_number(first), container_number(second), 0]),
        }
    }
}
