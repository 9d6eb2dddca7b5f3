* Problem:
* Class:      LP
* Rows:       5
* Columns:    6
* Non-zeros:  15
* Format:     Fixed MPS
*
NAME
ROWS
 N  ROW0    
 G  protein
 L  weight
 E  balance
 G  r.9
 L  fat
COLUMNS
    corn      ROW0                 3   protein            0.1
    corn      weight               1   balance              1
    corn      fat               0.04
    wheat     ROW0               2.5   protein          0.125
    wheat     weight               1   balance             -1
    oats      ROW0             -0.75   protein            0.2
    oats      weight               1   r.9                 -1
    oats      fat               0.05
    soy       ROW0                 1   weight               1
    soy       r.9                  1
    trade     weight              -1
    fixed     weight               1
RHS
    RHS1      protein             12   weight             100
    RHS1      r.9                 -5   fat                  4
BOUNDS
 UP BND1      corn                40
 LO BND1      wheat                2
 UP BND1      wheat               30
 LO BND1      oats                -3
 FX BND1      soy                1.5
 FR BND1      trade   
 MI BND1      fixed   
 UP BND1      fixed                7
ENDATA
