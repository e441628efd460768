//! Roles of outer nodes.

use crate::draws::Draws;
use crate::plain::{PlainDual, PlainNode};
use crate::readings::{Readings, names_end};
use fb_obstacles::{NodeId, Role, Roles};
use std::alloc::{AllocError, Global};

/// How much less often a node becomes minus whose top layer has value 0, since a minus node like that is an obstacle.
const EMPTY_IS_RARER: u64 = 5;

/// The roles of a state's nodes.
#[derive(Drop)]
pub struct DrawnRoles {
    /// For each name the role of its node.
    by_name: Vec<Role>,
    /// The plus nodes, at least one.
    pub plus: Vec<NodeId>,
    /// The minus nodes, in any order.
    pub minus: Vec<NodeId>,
}

impl DrawnRoles {
    /// One plus node, and no other that has a role.
    pub fn of_one_plus(
        alloc: Global,
        plain: &PlainDual<'_>,
        name: NodeId,
    ) -> Result<DrawnRoles, AllocError> {
        let mut roles = DrawnRoles::none(alloc, plain)?;
        roles.by_name[name as usize] = Role::Plus;
        roles.plus.push(name)?;
        Ok(roles)
    }

    /// No node has a role.
    fn none(alloc: Global, plain: &PlainDual<'_>) -> Result<DrawnRoles, AllocError> {
        Ok(DrawnRoles {
            by_name: vec![in alloc; Role::Out; names_end(&plain.nodes)]?,
            plus: Vec::new(alloc),
            minus: Vec::new(alloc),
        })
    }

    /// Random roles of some outer nodes. All defects under plus nodes have potentials of one parity, and some node is plus;
    /// none if no node was found for that.
    pub fn draw(
        alloc: Global,
        draws: &mut Draws,
        plain: &PlainDual<'_>,
        readings: &Readings,
    ) -> Result<Option<DrawnRoles>, AllocError> {
        let parity = draws.below(2);
        let plus_chance = draws.below(80);
        let minus_chance = draws.below(80);
        let mut roles = DrawnRoles::none(alloc, plain)?;
        for node in outer_in_any_order(alloc, draws, plain, readings)? {
            let name = node.name;
            let may_be_plus = readings.has_parity(name, parity);
            let is_empty = node.top().value == 0;
            let rarer = if is_empty { EMPTY_IS_RARER } else { 1 };
            if may_be_plus && (roles.plus.is_empty() || draws.happens(plus_chance)) {
                roles.by_name[name as usize] = Role::Plus;
                roles.plus.push(name)?;
            } else if draws.happens(minus_chance / rarer) {
                roles.by_name[name as usize] = Role::Minus;
                roles.minus.push(name)?;
            }
        }
        let has_plus = !roles.plus.is_empty();
        Ok(has_plus.then_some(roles))
    }

    /// Whether all defects under plus nodes have potentials of one parity.
    pub fn have_one_parity(&self, readings: &Readings) -> bool {
        let all_have = |parity| {
            let mut plus = self.plus.iter();
            plus.all(|name| readings.has_parity(*name, parity))
        };
        all_have(0) || all_have(1)
    }

    /// The role of the node that holds a vertex.
    pub fn over(&self, cover: Option<NodeId>) -> Option<Role> {
        cover.map(|name| self.role(name))
    }
}

/// The outer nodes, shuffled.
fn outer_in_any_order<'p>(
    alloc: Global,
    draws: &mut Draws,
    plain: &'p PlainDual<'_>,
    readings: &Readings,
) -> Result<Vec<&'p PlainNode>, AllocError> {
    let mut outer = Vec::new(alloc);
    for (node, is_outer) in plain.nodes.iter().zip(readings.are_outer.iter()) {
        if *is_outer {
            outer.push(node)?;
        }
    }
    draws.shuffle(&mut outer);
    Ok(outer)
}

impl Roles for DrawnRoles {
    ghost use Rattle.std.specs.Prelude.{get_or};
    ghost use Rattle.fb_regions.specs.declared.roles.Role.TheVariants.{Out};

    ghost role_of = { λ r node. get_or r.by_name.items node Out };

    fn role(&self, node: NodeId) -> Role {
        self.by_name
            .get(node as usize)
            .copied()
            .unwrap_or(Role::Out)
    }
}
