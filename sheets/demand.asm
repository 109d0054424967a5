# A feeder's demand from its meter, and the alarm a tenth above it. The meter sends its multiplier as a UInt, which a Cast
# makes a Float. The relay takes the alarm in steps of 10 kW.
#
# Result: (demand in kW, Float; alarm, BByte).

chunk demand/0
  const multiplier = UInt 1600        # CT 400/5 times VT 2200/110
  const reading = Float 2.5           # kW on the meter's side

  PushScope
  local kilowatts = 0
  Const reading
  Const multiplier
  Cast Float
  Mul
  DefineLocal kilowatts               # 4000 kW

  GetLocal kilowatts
  Const Function steps
  GetLocal kilowatts
  Const Float 1.1
  Mul
  Call 1

  BuildTuple 2
  Return

# Kilowatts to the relay's steps, rounded to the nearest.
chunk steps/1
  local kilowatts = 0
  GetLocal kilowatts
  Const Float 10.0
  Div
  Const Float 0.5
  Add
  Cast BByte
  Return
