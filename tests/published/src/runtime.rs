//! Stands in for the published `runtime.rs`, of which the machine needs the name alone.

use crate::values::VmValue;
use crate::vm_logic::Vm;

pub struct VmRuntime;

impl rl_std_core::Runtime for VmRuntime {
    type Value = VmValue;
    type Cx = Vm;
    type Span = ();
}
