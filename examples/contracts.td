PRINT PACK RELATION {
  TUPLE {S 7, D [1:6]},
  TUPLE {S 7, D [7:12]},
  TUPLE {S 7, D [10:18]},
  TUPLE {S 9, D [3:4]},
  TUPLE {S 9, D [9:12]}
} ON (D);
