block M
  Buildings.Controls.OBC.CDL.Interfaces.BooleanInput u1;
  Buildings.Controls.OBC.CDL.Interfaces.BooleanInput u2;
  Buildings.Controls.OBC.CDL.Interfaces.BooleanOutput y;
  Buildings.Controls.OBC.CDL.Logical.Not n;
  Buildings.Controls.OBC.CDL.Logical.And a;
  Buildings.Controls.OBC.CDL.Logical.Or o;
equation
  connect(u1, n.u);
  connect(n.y, a.u1);
  connect(u2, a.u2);
  connect(u1, o.u1);
  connect(a.y, o.u2);
  connect(o.y, y);
end M;
