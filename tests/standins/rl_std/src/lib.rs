//! Stands in for what the published machine imports from `rl_std`: the types of its side tables,
//! which no instruction of document 01 touches.

pub mod audio {
    pub struct AudioHandle;
}

pub mod c {
    pub struct CHandle;
}

pub mod core {
    pub struct ThreadMsg;
}

pub mod gui {
    pub struct GuiHandle<V>(pub std::marker::PhantomData<V>);
}

pub mod http {
    pub struct HttpHandle;
}

pub mod io {
    pub struct IoFileHandle;
}

pub mod net {
    pub struct NetHandle;
}
