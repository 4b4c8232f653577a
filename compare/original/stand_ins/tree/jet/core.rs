// Stands in for the core jets' place in the language. What can't be seen: their argument lists, and which are disabled.

use simplicity::jet::{Core, Jet};

use super::{JetHL, SourceJetClassification, TargetJetClassification};

impl JetHL for Core {
    fn source_jet_classification(&self) -> SourceJetClassification {
        unreachable!("the lowering asks no jet for its arguments")
    }

    fn target_jet_classification(&self) -> TargetJetClassification {
        unreachable!("the lowering asks no jet for its result")
    }

    fn is_disabled(&self) -> bool {
        false
    }

    fn clone_box(&self) -> Box<dyn JetHL> {
        Box::new(*self)
    }

    fn as_jet(&self) -> &dyn Jet {
        self
    }
}
