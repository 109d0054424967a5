# Reverse-power elements of three feeders. Each trips where the power flows back by its setting, so the relay takes the
# negative of the setting, a BSByte in steps of 10 W. The third setting was never entered: its register still has the
# least BSByte, -32768, which has no negative of its kind. The sheet stops there with 37, and no relay is written.
#
# Result: none; the stop is in chunk 1 at the Negate.

chunk reverse/0
  Const Function reversed
  Const BSByte 150                    # 1.5 kW
  Call 1
  Const Function reversed
  Const BSByte 32767                  # the greatest setting has a negative
  Call 1
  Const Function reversed
  Const BSByte -32768
  Call 1
  BuildArr 3
  Return

chunk reversed/1
  local setting = 0
  GetLocal setting
  Negate
  Return
