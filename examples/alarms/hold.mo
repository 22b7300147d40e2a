within Buildings.Controls.OBC.Site;
block HeldAlarm "An alarm that comes late, is held, and stays until it is seen"
  parameter Modelica.Units.SI.Time tDel=600 "The cause lasts this long first";
  parameter Modelica.Units.SI.Time tHol=1800 "The lamp is on this long at least";
  CDL.Interfaces.BooleanInput u "The cause of the alarm";
  CDL.Interfaces.BooleanInput uAck "Somebody has seen it";
  CDL.Interfaces.BooleanOutput yLam "Lamp: the cause is there, or was a short time ago";
  CDL.Interfaces.BooleanOutput yHor "Horn: nobody has seen it yet";
protected
  CDL.Logical.TrueDelay del(delayTime=tDel, delayOnInit=true);
  CDL.Logical.TrueFalseHold hol(trueHoldDuration=tHol, falseHoldDuration=0);
  CDL.Logical.Latch lat;
equation
  connect(u, del.u);
  connect(del.y, hol.u);
  connect(hol.y, yLam);
  connect(del.y, lat.u);
  connect(uAck, lat.clr);
  connect(lat.y, yHor);
end HeldAlarm;
