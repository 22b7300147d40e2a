within Buildings.Controls.OBC.Site;
block Zone "Electric heating of one zone, which starts some time after it is released"
  parameter Use use=Use.office "What the zone is used for";
  parameter Modelica.Units.SI.ThermodynamicTemperature TSet=
    if use == Use.store then 285.15 elseif use == Use.meeting then 294.15 else 293.15
    "Set point, by what the zone is used for";
  parameter Modelica.Units.SI.TemperatureDifference dT=0.5 "Heats from this distance on";
  parameter Modelica.Units.SI.Time tSta=300 "Starts this long after its release";
  CDL.Interfaces.RealInput TZon(unit="K") "Zone temperature";
  CDL.Interfaces.BooleanInput uRel "The zone is released";
  CDL.Interfaces.BooleanOutput yRel "Releases the next zone";
  CDL.Interfaces.BooleanOutput yHea "Heats";
  CDL.Interfaces.RealOutput dTLow(unit="K") "Distance below the set point";
protected
  CDL.Logical.TrueDelay del(delayTime=tSta, delayOnInit=true);
  CDL.Reals.Sources.Constant set(k=TSet);
  CDL.Reals.Subtract dis;
  CDL.Reals.Hysteresis hys(uLow=0, uHigh=dT);
  CDL.Logical.And hea;
equation
  connect(uRel, del.u);
  connect(del.y, yRel);
  connect(set.y, dis.u1);
  connect(TZon, dis.u2);
  connect(dis.y, dTLow);
  connect(dis.y, hys.u);
  connect(del.y, hea.u1);
  connect(hys.y, hea.u2);
  connect(hea.y, yHea);
end Zone;
