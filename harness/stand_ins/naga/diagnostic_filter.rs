#[derive(Clone, Debug)]
pub struct DiagnosticFilterNode;
