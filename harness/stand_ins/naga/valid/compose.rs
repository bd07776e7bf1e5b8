pub struct ComposeError;
