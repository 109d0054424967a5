//! Stands in for what the published machine imports from `rl_ast`. Handles are left out of
//! document 01.

pub mod statements {
    #[derive(Debug, Clone, Copy, PartialEq, Eq)]
    pub enum HandleKind {
        C,
        Net,
        Http,
        Audio,
        Gui,
        File,
        Buffer,
    }
}
