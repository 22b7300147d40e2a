within Buildings.Controls.OBC.Site;
block Building "Zones of two floors that start one after the other when power is back"
  parameter Use use[nFlo,nZon]={{Use.office, Use.office, Use.meeting},
                                {Use.office, Use.meeting, Use.store}} "Use of each zone";
  parameter Real share[nFlo,nZon]={{0.5, 0.3, 0.2}, {0.6, 0.3, 0.1}} "Its share of the floor";
  CDL.Interfaces.RealInput TZon[nFlo,nZon](each unit="K") "Zone temperatures";
  CDL.Interfaces.BooleanInput uPow "There is power, and heating is wanted";
  CDL.Interfaces.BooleanOutput yHea[nFlo,nZon] "Zones that heat";
  CDL.Interfaces.IntegerOutput nHea "Number of zones that heat";
  CDL.Interfaces.RealOutput TMea(unit="K") "Mean temperature of the building";
  CDL.Interfaces.RealOutput dTMax(unit="K") "Greatest distance below a set point";
protected
  Zone zon[nFlo,nZon](use=use, dT={{0.5, 0.5, 1}, {0.5, 1, 2}});
  CDL.Reals.MultiSum flo[nFlo](each nin=nZon, k=share) "Mean temperature of a floor";
  CDL.Reals.Average mea;
  CDL.Reals.MultiMax max(nin=nFlo*nZon);
  CDL.Conversions.BooleanToInteger one[nFlo,nZon];
  CDL.Integers.MultiSum num(nin=nFlo*nZon);
equation
  connect(TZon, zon.TZon);
  connect(zon.yHea, yHea);
  connect(zon.yHea, one.u);
  connect(uPow, zon[1,1].uRel);
  for i in 1:nFlo loop
    for j in 1:nZon loop
      connect(TZon[i,j], flo[i].u[j]);
      connect(zon[i,j].dTLow, max.u[(i - 1)*nZon + j]);
      connect(one[i,j].y, num.u[(i - 1)*nZon + j]);
    end for;
    for j in 1:nZon - 1 loop
      connect(zon[i,j].yRel, zon[i,j + 1].uRel);
    end for;
  end for;
  for i in 2:nFlo loop
    connect(zon[i - 1,nZon].yRel, zon[i,1].uRel);
  end for;
  connect(flo[1].y, mea.u1);
  connect(flo[2].y, mea.u2);
  connect(mea.y, TMea);
  connect(max.y, dTMax);
  connect(num.y, nHea);
end Building;
