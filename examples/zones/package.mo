within Buildings.Controls.OBC;
package Site "What all files of this site share"
  constant Integer nFlo=2 "Number of floors";
  constant Integer nZon=3 "Zones on each floor";
  type Use = enumeration(
      office "Desks",
      meeting "Many people now and then",
      store "Nobody stays here") "What a zone is used for";
end Site;
