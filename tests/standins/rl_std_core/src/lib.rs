//! Stands in for what the published machine imports from `rl_std_core`. Native functions are left out
//! of document 01; their types have to be there for the machine to compile.

use rl_utils::errors::Error;
use std::marker::PhantomData;

/// What a native function is bound to.
pub trait Runtime {
    type Value;
    type Cx;
    type Span;
}

type Thunk<R> = fn(
    &mut <R as Runtime>::Cx,
    Vec<<R as Runtime>::Value>,
    <R as Runtime>::Span,
) -> Result<<R as Runtime>::Value, Error>;

/// A native function. None is ever made here.
pub struct NativeHandle<R: Runtime> {
    pub name: &'static str,
    pub thunk: Thunk<R>,
}

impl<R: Runtime> Clone for NativeHandle<R> {
    fn clone(&self) -> Self {
        Self {
            name: self.name,
            thunk: self.thunk,
        }
    }
}

#[derive(Default)]
pub struct Xoshiro256;

pub struct TestState<V>(PhantomData<V>);

impl<V> Default for TestState<V> {
    fn default() -> Self {
        Self(PhantomData)
    }
}
