block ZoneSetPoints "Set points of a zone for heating and cooling, by occupancy"
  parameter Boolean have_winSen=true "True where a contact tells that a window is open";
  parameter Modelica.Units.SI.ThermodynamicTemperature THeaOcc=294.15 "Heating, occupied";
  parameter Modelica.Units.SI.ThermodynamicTemperature THeaUno=288.15 "Heating, not occupied";
  parameter Modelica.Units.SI.ThermodynamicTemperature TCooOcc=297.15 "Cooling, occupied";
  parameter Modelica.Units.SI.ThermodynamicTemperature TCooUno=303.15 "Cooling, not occupied";
  parameter Modelica.Units.SI.ThermodynamicTemperature TFro=280.15 "Heating, window open";
  parameter Modelica.Units.SI.TemperatureDifference dTMax=2 "The dial moves by this at most";
  parameter Modelica.Units.SI.TemperatureDifference dTDea=1 "Least distance of both set points";
  parameter Modelica.Units.SI.Time tWarUp=5400 "Warm-up before the zone is occupied";
  parameter Modelica.Units.SI.Time tBut=7200 "The button on the wall serves this long";

  Buildings.Controls.OBC.CDL.Interfaces.BooleanInput uOcc "Occupied by the schedule";
  Buildings.Controls.OBC.CDL.Interfaces.BooleanInput uBut "Button on the wall";
  Buildings.Controls.OBC.CDL.Interfaces.BooleanInput uWin if have_winSen "A window is open";
  Buildings.Controls.OBC.CDL.Interfaces.RealInput dTAdj(unit="K") "Dial on the wall";
  Buildings.Controls.OBC.CDL.Interfaces.RealInput tNexOcc(unit="s") "Time to the next occupancy";
  Buildings.Controls.OBC.CDL.Interfaces.RealOutput THeaSet(unit="K") "Set point for heating";
  Buildings.Controls.OBC.CDL.Interfaces.RealOutput TCooSet(unit="K") "Set point for cooling";
  Buildings.Controls.OBC.CDL.Interfaces.BooleanOutput yOcc "Occupied, by schedule or button";
  Buildings.Controls.OBC.CDL.Interfaces.BooleanOutput yWarUp "Warm-up";

protected
  Buildings.Controls.OBC.CDL.Logical.TrueFalseHold but(
    trueHoldDuration=tBut,
    falseHoldDuration=0) "The button, held";
  Buildings.Controls.OBC.CDL.Logical.Or occ "Schedule or button";
  Buildings.Controls.OBC.CDL.Logical.Not uno "Not occupied";
  Buildings.Controls.OBC.CDL.Reals.LessThreshold soo(t=tWarUp) "Occupied soon";
  Buildings.Controls.OBC.CDL.Logical.And warUp "Not occupied, but soon";
  Buildings.Controls.OBC.CDL.Logical.Or hea "Heat as if occupied";
  Buildings.Controls.OBC.CDL.Conversions.BooleanToReal THea(
    realTrue=THeaOcc,
    realFalse=THeaUno) "Heating by occupancy";
  Buildings.Controls.OBC.CDL.Conversions.BooleanToReal TCoo(
    realTrue=TCooOcc,
    realFalse=TCooUno) "Cooling by occupancy";
  Buildings.Controls.OBC.CDL.Reals.Limiter lim(uMax=dTMax, uMin=-dTMax) "The dial within its range";
  Buildings.Controls.OBC.CDL.Conversions.BooleanToReal gai "The dial counts while occupied";
  Buildings.Controls.OBC.CDL.Reals.Multiply adj "What the dial moves";
  Buildings.Controls.OBC.CDL.Reals.Add THeaAdj "Heating with the dial";
  Buildings.Controls.OBC.CDL.Reals.Add TCooAdj "Cooling with the dial";
  Buildings.Controls.OBC.CDL.Logical.TrueDelay win(delayTime=120) if have_winSen
    "A window is open for a while";
  Buildings.Controls.OBC.CDL.Logical.Sources.Constant noWin(k=false) if not have_winSen
    "No window is known to be open";
  Buildings.Controls.OBC.CDL.Reals.Sources.Constant fro(k=TFro) "Frost";
  Buildings.Controls.OBC.CDL.Reals.Switch THeaWin "Heating with the window";
  Buildings.Controls.OBC.CDL.Reals.AddParameter TLow(p=dTDea) "Least set point for cooling";
  Buildings.Controls.OBC.CDL.Reals.Max TCooMax "Cooling, apart from heating";

equation
  connect(uBut, but.u);
  connect(uOcc, occ.u1);
  connect(but.y, occ.u2);
  connect(occ.y, yOcc);
  connect(occ.y, uno.u);
  connect(tNexOcc, soo.u);
  connect(uno.y, warUp.u1);
  connect(soo.y, warUp.u2);
  connect(warUp.y, yWarUp);
  connect(occ.y, hea.u1);
  connect(warUp.y, hea.u2);
  connect(hea.y, THea.u);
  connect(occ.y, TCoo.u);
  connect(dTAdj, lim.u);
  connect(occ.y, gai.u);
  connect(lim.y, adj.u1);
  connect(gai.y, adj.u2);
  connect(THea.y, THeaAdj.u1);
  connect(adj.y, THeaAdj.u2);
  connect(TCoo.y, TCooAdj.u1);
  connect(adj.y, TCooAdj.u2);
  // One of the next two isn't there, so the input has one source.
  connect(win.y, THeaWin.u2);
  connect(noWin.y, THeaWin.u2);
  connect(uWin, win.u);
  connect(fro.y, THeaWin.u1);
  connect(THeaAdj.y, THeaWin.u3);
  connect(THeaWin.y, THeaSet);
  connect(THeaWin.y, TLow.u);
  connect(TLow.y, TCooMax.u1);
  connect(TCooAdj.y, TCooMax.u2);
  connect(TCooMax.y, TCooSet);
end ZoneSetPoints;
