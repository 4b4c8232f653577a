//! Stands in for the nodes: a node is its place in the log. What can't be seen
//! here: sharing, which this crate's finalising would find by roots.

use std::sync::Arc;

use crate::jet::Jet;
use crate::types::{Context, Error, Type};
use crate::{Cmr, Entry, FailEntropy, Value};

#[derive(Debug)]
pub struct Arrow<'brand> {
    pub target: Type<'brand>,
}

#[derive(Debug)]
pub struct ConstructData<'brand> {
    arrow: Arrow<'brand>,
}

impl<'brand> ConstructData<'brand> {
    pub fn arrow(&self) -> &Arrow<'brand> {
        &self.arrow
    }
}

#[derive(Debug)]
pub struct ConstructNode<'brand> {
    context: Context<'brand>,
    place: usize,
    data: ConstructData<'brand>,
}

impl<'brand> ConstructNode<'brand> {
    // The original holds its nodes in an `Arc`, though one thread builds them all.
    #[allow(clippy::arc_with_non_send_sync)]
    fn push(context: &Context<'brand>, entry: Entry) -> Arc<Self> {
        let place = context.push(entry);
        let target = Type::target(place);
        Arc::new(ConstructNode {
            context: context.shallow_clone(),
            place,
            data: ConstructData {
                arrow: Arrow { target },
            },
        })
    }

    /// A witness of the book's number.
    pub fn witness(context: &Context<'brand>, name: u16) -> Arc<Self> {
        Self::push(context, Entry::Witness { name, ty: None })
    }

    pub fn cached_data(&self) -> &ConstructData<'brand> {
        &self.data
    }

    /// Ends the log, with this node as the root.
    pub fn commit(&self) -> CommitNode {
        CommitNode {
            log: self.context.take(),
            root: self.place,
        }
    }
}

/// A whole log and the place of its root.
pub struct CommitNode {
    pub log: Vec<Entry>,
    pub root: usize,
}

pub trait CoreConstructible<'brand>: Sized {
    fn iden(context: &Context<'brand>) -> Self;
    fn unit(context: &Context<'brand>) -> Self;
    fn injl(child: &Self) -> Self;
    fn injr(child: &Self) -> Self;
    fn take(child: &Self) -> Self;
    fn drop_(child: &Self) -> Self;
    fn comp(left: &Self, right: &Self) -> Result<Self, Error>;
    fn case(left: &Self, right: &Self) -> Result<Self, Error>;
    fn assertl(left: &Self, right: Cmr) -> Result<Self, Error>;
    fn assertr(left: Cmr, right: &Self) -> Result<Self, Error>;
    fn pair(left: &Self, right: &Self) -> Result<Self, Error>;
    fn fail(context: &Context<'brand>, entropy: FailEntropy) -> Self;
    fn scribe(context: &Context<'brand>, value: &Value) -> Self;
    fn jet(context: &Context<'brand>, jet: &dyn Jet) -> Self;
    fn inference_context(&self) -> &Context<'brand>;

    fn bit_false(context: &Context<'brand>) -> Self {
        Self::injl(&Self::unit(context))
    }

    fn bit_true(context: &Context<'brand>) -> Self {
        Self::injr(&Self::unit(context))
    }
}

pub trait WitnessConstructible<'brand, W>: Sized {
    fn witness(context: &Context<'brand>, witness: W) -> Self;
}

impl<'brand> CoreConstructible<'brand> for Arc<ConstructNode<'brand>> {
    fn iden(context: &Context<'brand>) -> Self {
        ConstructNode::push(context, Entry::Iden)
    }

    fn unit(context: &Context<'brand>) -> Self {
        ConstructNode::push(context, Entry::Unit)
    }

    fn injl(child: &Self) -> Self {
        ConstructNode::push(&child.context, Entry::InjL(child.place))
    }

    fn injr(child: &Self) -> Self {
        ConstructNode::push(&child.context, Entry::InjR(child.place))
    }

    fn take(child: &Self) -> Self {
        ConstructNode::push(&child.context, Entry::Take(child.place))
    }

    fn drop_(child: &Self) -> Self {
        ConstructNode::push(&child.context, Entry::Drop(child.place))
    }

    fn comp(left: &Self, right: &Self) -> Result<Self, Error> {
        let entry = Entry::Comp(left.place, right.place);
        Ok(ConstructNode::push(&left.context, entry))
    }

    fn case(left: &Self, right: &Self) -> Result<Self, Error> {
        let entry = Entry::Case(left.place, right.place);
        Ok(ConstructNode::push(&left.context, entry))
    }

    fn assertl(left: &Self, right: Cmr) -> Result<Self, Error> {
        let entry = Entry::AssertL(left.place, right);
        Ok(ConstructNode::push(&left.context, entry))
    }

    fn assertr(left: Cmr, right: &Self) -> Result<Self, Error> {
        let entry = Entry::AssertR(left, right.place);
        Ok(ConstructNode::push(&right.context, entry))
    }

    fn pair(left: &Self, right: &Self) -> Result<Self, Error> {
        let entry = Entry::Pair(left.place, right.place);
        Ok(ConstructNode::push(&left.context, entry))
    }

    fn fail(context: &Context<'brand>, _: FailEntropy) -> Self {
        ConstructNode::push(context, Entry::Fail)
    }

    fn scribe(context: &Context<'brand>, value: &Value) -> Self {
        ConstructNode::push(context, Entry::Scribe(value.0))
    }

    fn jet(context: &Context<'brand>, jet: &dyn Jet) -> Self {
        ConstructNode::push(context, Entry::Jet(jet.number()))
    }

    fn inference_context(&self) -> &Context<'brand> {
        &self.context
    }
}
