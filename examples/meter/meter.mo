block LoadShedding "Sheds loads by the mean power of a quarter of an hour"
  parameter Real fOne=0.9 "Stage 1 above this part of the limit";
  parameter Real fTwo=1 "Stage 2 above this part of the limit";
  parameter Real dF=0.05 "A stage ends this far below";
  Buildings.Controls.OBC.CDL.Interfaces.RealInput PEle(unit="kW") "Power of the building";
  Buildings.Controls.OBC.CDL.Interfaces.RealInput PLim(unit="kW") "Limit, as the utility gives it";
  Buildings.Controls.OBC.CDL.Interfaces.RealInput ECou(unit="kWh") "Energy that was ever counted";
  Buildings.Controls.OBC.CDL.Interfaces.RealOutput PMea(unit="kW") "Mean of a quarter of an hour";
  Buildings.Controls.OBC.CDL.Interfaces.RealOutput PMax(unit="kW") "Greatest mean so far";
  Buildings.Controls.OBC.CDL.Interfaces.RealOutput fLoa(unit="1") "Mean as a part of the limit";
  Buildings.Controls.OBC.CDL.Interfaces.IntegerOutput yShe "Stage of shedding, 0 to 2";
  Buildings.Controls.OBC.CDL.Interfaces.RealOutput EDis(unit="kWh") "Display of three digits";
  Buildings.Controls.OBC.CDL.Interfaces.IntegerOutput nDis "Display in whole kilowatt hours";
protected
  Buildings.Controls.OBC.CDL.Logical.Sources.Pulse ste(period=300) "Rises every five minutes";
  Buildings.Controls.OBC.CDL.Discrete.TriggeredMovingMean mea(n=3);
  Buildings.Controls.OBC.CDL.Logical.Sources.Pulse qua(period=900) "Rises every quarter";
  Buildings.Controls.OBC.CDL.Discrete.TriggeredMax gre;
  Buildings.Controls.OBC.CDL.Reals.Sources.Constant lea(k=10) "Least limit";
  Buildings.Controls.OBC.CDL.Reals.Max lim "The limit, never 0";
  Buildings.Controls.OBC.CDL.Reals.Divide loa;
  Buildings.Controls.OBC.CDL.Reals.Hysteresis one(uLow=fOne - dF, uHigh=fOne);
  Buildings.Controls.OBC.CDL.Reals.Hysteresis two(uLow=fTwo - dF, uHigh=fTwo);
  Buildings.Controls.OBC.CDL.Logical.TrueFalseHold holOne(
    trueHoldDuration=1800,
    falseHoldDuration=300);
  Buildings.Controls.OBC.CDL.Logical.TrueFalseHold holTwo(
    trueHoldDuration=900,
    falseHoldDuration=300);
  Buildings.Controls.OBC.CDL.Conversions.BooleanToInteger numOne;
  Buildings.Controls.OBC.CDL.Conversions.BooleanToInteger numTwo;
  Buildings.Controls.OBC.CDL.Integers.Add num;
  Buildings.Controls.OBC.CDL.Integers.Sources.Constant top(k=2);
  Buildings.Controls.OBC.CDL.Integers.Min sta;
  Buildings.Controls.OBC.CDL.Reals.Sources.Constant tho(k=1000);
  Buildings.Controls.OBC.CDL.Reals.Modulo dis "The display begins anew at 1000";
  Buildings.Controls.OBC.CDL.Conversions.RealToInteger who;
equation
  connect(PEle, mea.u);
  connect(ste.y, mea.trigger);
  connect(mea.y, PMea);
  connect(mea.y, gre.u);
  connect(qua.y, gre.trigger);
  connect(gre.y, PMax);
  connect(PLim, lim.u1);
  connect(lea.y, lim.u2);
  connect(mea.y, loa.u1);
  connect(lim.y, loa.u2);
  connect(loa.y, fLoa);
  connect(loa.y, one.u);
  connect(loa.y, two.u);
  connect(one.y, holOne.u);
  connect(two.y, holTwo.u);
  connect(holOne.y, numOne.u);
  connect(holTwo.y, numTwo.u);
  connect(numOne.y, num.u1);
  connect(numTwo.y, num.u2);
  connect(num.y, sta.u1);
  connect(top.y, sta.u2);
  connect(sta.y, yShe);
  connect(ECou, dis.u1);
  connect(tho.y, dis.u2);
  connect(dis.y, EDis);
  connect(dis.y, who.u);
  connect(who.y, nDis);
end LoadShedding;
