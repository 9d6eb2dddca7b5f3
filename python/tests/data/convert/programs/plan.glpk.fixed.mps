* Problem:    PLAN
* Class:      LP
* Rows:       7
* Columns:    8
* Non-zeros:  15
* Format:     Fixed MPS
*
NAME          PLAN
ROWS
 N  ROW0    
 L  CAPACITY
 G  DEMAND
 E  BALANCE
 E  BAND_UP
 E  BAND_DN
 E  LOWBAND
 E  HIGHBAND
COLUMNS
    COAL      ROW0                 2   CAPACITY             1
    COAL      DEMAND               1
    GAS       ROW0                 3   DEMAND               1
    GAS       BALANCE              1   BAND_UP          0.125
    WIND      ROW0                 6   DEMAND               1
    WIND      BALANCE             -1   BAND_DN          0.015
    STORE     CAPACITY            -1   LOWBAND              1
    STORE     HIGHBAND             2
    TRADE     ROW0                 1   BALANCE              1
    DEBT      ROW0              -0.5   HIGHBAND             1
    FIXED     DEMAND               1
    PLUS      DEMAND              -1
RHS
    RHS1      CAPACITY           100   DEMAND              10
    RHS1      BAND_UP              4   BAND_DN            1.5
    RHS1      LOWBAND              3   HIGHBAND            -3
RANGES
    RNG1      BAND_UP            2.5   BAND_DN            2.5
    RNG1      LOWBAND              4   HIGHBAND             6
BOUNDS
 LO BND1      COAL                 1
 UP BND1      COAL                 8
 UP BND1      GAS                  4
 LO BND1      STORE               -7
 FR BND1      TRADE   
 MI BND1      DEBT    
 UP BND1      DEBT                -1
 FX BND1      FIXED              2.5
ENDATA
