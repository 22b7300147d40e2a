within Sequences;
block DuctPressure "Set point of the static pressure in a supply duct"
  Buildings.Controls.OBC.CDL.Interfaces.BooleanInput uFan "The supply fan runs";
  Buildings.Controls.OBC.CDL.Interfaces.IntegerInput nReq "Requests of the boxes for pressure";
  Buildings.Controls.OBC.CDL.Interfaces.RealOutput pSet(unit="Pa") "Set point";
protected
  TrimAndRespond tri(
    ini=120,
    low=25,
    hig=400,
    tri=-10,
    res=15,
    most=35,
    y(unit="Pa")) "Down by 10 Pa in each step, up by 15 Pa for each request that counts";
equation
  connect(uFan, tri.uFan);
  connect(nReq, tri.nReq);
  connect(tri.y, pSet);
end DuctPressure;
