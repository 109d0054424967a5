# Two settings of a feeder's overcurrent relay, from the feeder's load and its CT ratio:
# the phase pickup, a quarter above the load, and the high-set stage, six times the pickup.
# The relay takes both in steps of 0.05 A on its own side of the CT.
#
# Result: (pickup, high-set), both BByte.

chunk pickup/0
  const load = Float 320.0            # A, the feeder's greatest load
  const ratio = Float 80.0            # CT 400/5
  const margin = Float 1.25
  const high_set = Float 6.0

  PushScope
  local amperes = 0
  Const load
  Const margin
  Mul
  Const ratio
  Div
  DefineLocal amperes                 # 5 A

  Const Function steps
  GetLocal amperes
  Call 1

  Const Function steps
  GetLocal amperes
  Const high_set
  Mul
  Call 1

  BuildTuple 2
  Return

# Amperes to the relay's steps, rounded to the nearest.
chunk steps/1
  local amperes = 0
  GetLocal amperes
  Const Float 20.0
  Mul
  Const Float 0.5
  Add
  Cast BByte
  Return
