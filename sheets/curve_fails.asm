# A curve that goes wrong half way: the third current does not reach the pickup, so the curve has no
# time for it. The helper leaves with an Err, through the list's helper, and the sheet's own figures
# stay as they were.
#
# Result: (pickup in amperes, what the times came to), here (5.0, Err "at or below pickup").

chunk sheet/0
  PushScope
  local pickup = 0
  local outcome = 1
  Const Float 400.0
  Const Float 80.0
  Div
  DefineLocal pickup

  Const Function times
  Const Float 2.0
  Const Float 5.0
  Const Float 0.8                     # below the pickup
  Const Float 10.0
  BuildArr 4
  Const Float 0.1
  Call 2
  DefineLocal outcome

  GetLocal pickup
  GetLocal outcome
  BuildTuple 2
  Return

# Ok with the curve at every multiple of the list, or the first Err that the curve gives.
chunk times/2
  local multiples = 0
  local multiplier = 1
  local result = 2
  local at = 3
  local time = 4

  GetLocal multiples
  DefineLocal result
  Const Int 0
  DefineLocal at
next:
  GetLocal at
  GetLocal multiples
  ArrLen
  Less
  JumpIfFalse done

  PushScope
  Const Function curve
  GetLocal multiples
  GetLocal at
  Index
  GetLocal multiplier
  Call 2
  Propagate                           # an Err leaves from here
  DefineLocal time
  GetLocal result
  GetLocal at
  GetLocal time
  ArrSet
  SetLocal result
  Pop
  PopScope

  GetLocal at
  Const Int 1
  Add
  SetLocal at
  Pop
  Loop next
done:
  GetLocal result
  Ok
  Return

# Ok with the time of t = 13.5 * m / (x - 1), or an Err where the current does not reach the pickup.
chunk curve/2
  local multiple = 0
  local multiplier = 1
  GetLocal multiple
  Const Float 1.0
  LessEq
  JumpIfFalse above
  Const "at or below pickup"
  Err
  Return
above:
  Const Float 13.5
  GetLocal multiplier
  Mul
  GetLocal multiple
  Const Float 1.0
  Sub
  Div
  Ok
  Return
