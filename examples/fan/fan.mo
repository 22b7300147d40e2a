block Fan "Exhaust fan by occupancy and carbon dioxide"
  Buildings.Controls.OBC.CDL.Interfaces.BooleanInput uOcc "The room is used";
  Buildings.Controls.OBC.CDL.Interfaces.RealInput uCO2 "Carbon dioxide, in ppm";
  Buildings.Controls.OBC.CDL.Interfaces.BooleanOutput yFan "The fan runs";
protected
  Buildings.Controls.OBC.CDL.Reals.Hysteresis bad(uLow=800, uHigh=1000);
  Buildings.Controls.OBC.CDL.Logical.Or any;
  Buildings.Controls.OBC.CDL.Logical.TrueFalseHold hol(trueHoldDuration=600, falseHoldDuration=0);
equation
  connect(uCO2, bad.u);
  connect(uOcc, any.u1);
  connect(bad.y, any.u2);
  connect(any.y, hol.u);
  connect(hol.y, yFan);
end Fan;
