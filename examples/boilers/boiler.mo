within Buildings.Controls.OBC.Site;
block Boiler "One boiler of a plant, with its least times on and off"
  parameter Modelica.Units.SI.Power QNom "Nominal power";
  parameter Modelica.Units.SI.Time minOn=1800 "Runs this long at least";
  parameter Modelica.Units.SI.Time minOff=900 "Rests this long at least";
  CDL.Interfaces.BooleanInput u "The boiler is called";
  CDL.Interfaces.BooleanInput uAva "The boiler is available";
  CDL.Interfaces.BooleanOutput y "The boiler runs";
  CDL.Interfaces.RealOutput QRun(unit="W") "Nominal power while it runs";
  CDL.Interfaces.RealOutput tRun(unit="h") "Hours run";
protected
  CDL.Logical.And cal "Called and available";
  CDL.Logical.TrueFalseHold hol(
    final trueHoldDuration=minOn,
    final falseHoldDuration=minOff) "Least times; nobody changes these from outside";
  CDL.Logical.And run "A fault stops at once";
  CDL.Conversions.BooleanToReal pow(realTrue=QNom);
  CDL.Logical.Sources.Constant nev(k=false);
  CDL.Logical.TimerAccumulating tim;
  CDL.Reals.Sources.Constant sec(k=3600) "Seconds in an hour";
  CDL.Reals.Divide hou;
equation
  connect(u, cal.u1);
  connect(uAva, cal.u2);
  connect(cal.y, hol.u);
  connect(hol.y, run.u1);
  connect(uAva, run.u2);
  connect(run.y, y);
  connect(run.y, pow.u);
  connect(pow.y, QRun);
  connect(run.y, tim.u);
  connect(nev.y, tim.reset);
  connect(tim.y, hou.u1);
  connect(sec.y, hou.u2);
  connect(hou.y, tRun);
end Boiler;
