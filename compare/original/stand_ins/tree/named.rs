// Stands in for named.rs before its trait of constructors. What can't be seen: finalising and the sharing it finds.

use std::sync::Arc;

use simplicity::node::{self, CoreConstructible, WitnessConstructible};
use simplicity::{types, Cmr, FailEntropy};

use crate::TemplateProgramWitness;

pub type ConstructNode<'brand> = node::ConstructNode<'brand>;
pub type CommitNode = node::CommitNode;

impl<'brand> WitnessConstructible<'brand, TemplateProgramWitness> for Arc<ConstructNode<'brand>> {
    fn witness(context: &types::Context<'brand>, witness: TemplateProgramWitness) -> Self {
        node::ConstructNode::witness(context, witness.number())
    }
}

/// Ends the log at its root.
pub fn finalize_types(node: &ConstructNode) -> Result<Arc<CommitNode>, types::Error> {
    Ok(Arc::new(node.commit()))
}
