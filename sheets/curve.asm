# Trip times of a very inverse curve, t = 13.5 * m / (x - 1), for a list of currents x given as
# multiples of the pickup, with the time multiplier m.
#
# Result: an Arr of Float, in seconds.

chunk curve_sheet/0
  Const Function times
  Const Float 1.5
  Const Float 2.0
  Const Float 5.0
  Const Float 10.0
  BuildArr 4
  Const Float 0.1
  Call 2
  Return

# The curve at every multiple of the list.
chunk times/2
  local multiples = 0
  local multiplier = 1
  local result = 2
  local at = 3

  GetLocal multiples
  DefineLocal result
  Const Int 0
  DefineLocal at
next:
  GetLocal at
  GetLocal multiples
  ArrLen
  Less
  JumpIfFalse done
  GetLocal result
  GetLocal at
  Const Function curve
  GetLocal multiples
  GetLocal at
  Index
  GetLocal multiplier
  Call 2
  ArrSet
  SetLocal result
  Pop
  GetLocal at
  Const Int 1
  Add
  SetLocal at
  Pop
  Loop next
done:
  GetLocal result
  Return

# The curve at one multiple.
chunk curve/2
  local multiple = 0
  local multiplier = 1
  Const Float 13.5
  GetLocal multiplier
  Mul
  GetLocal multiple
  Const Float 1.0
  Sub
  Div
  Return
