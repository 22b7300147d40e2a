block M
  Buildings.Controls.OBC.CDL.Interfaces.RealInput u;
  Buildings.Controls.OBC.CDL.Interfaces.BooleanOutput y;
equation
  connect(u, y);
end M;
