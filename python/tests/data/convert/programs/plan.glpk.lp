\* Problem: PLAN *\

Minimize
 COST: + 2 COAL + 3 GAS + 6 WIND + TRADE - 0.5 DEBT

Subject To
 CAPACITY: + COAL - STORE <= 100
 DEMAND: + COAL + GAS + WIND + FIXED - PLUS >= 10
 BALANCE: + GAS - WIND + TRADE = 0
 BAND_UP: + 0.125 GAS - ~r_4 = 4
 BAND_DN: + 0.015 WIND - ~r_5 = 1.5
 LOWBAND: + STORE - ~r_6 = 3
 HIGHBAND: + 2 STORE + DEBT - ~r_7 = -3

Bounds
 0 <= ~r_4 <= 2.5
 0 <= ~r_5 <= 2.5
 0 <= ~r_6 <= 4
 0 <= ~r_7 <= 6
 1 <= COAL <= 8
 0 <= GAS <= 4
 STORE >= -7
 TRADE free
 -Inf <= DEBT <= -1
 FIXED = 2.5

End
