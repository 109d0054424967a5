//! Stands in for the published `native.rs`, of which the machine needs one type.

use crate::values::VmValue;
use crate::vm_logic::{Vm, VmError};
use std::rc::Rc;

pub type NativeFn = Rc<dyn Fn(&mut Vm, Vec<VmValue>) -> Result<VmValue, VmError>>;
