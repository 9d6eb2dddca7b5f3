\* Problem: Unknown *\

Maximize
 profit: + 3 corn + 2.5 wheat - 0.75 oats + soy

Subject To
 protein: + 0.1 corn + 0.125 wheat + 0.2 oats >= 12
 weight: + corn + wheat + oats + soy - trade + fixed <= 100
 balance: + corn - wheat = 0
 r.9: - oats + soy >= -5
 fat: + 0.04 corn + 0.05 oats <= 4

Bounds
 0 <= corn <= 40
 2 <= wheat <= 30
 oats >= -3
 soy = 1.5
 trade free
 -Inf <= fixed <= 7

End
