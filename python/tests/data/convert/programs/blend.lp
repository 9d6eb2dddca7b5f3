\ a blend, with bounds of all kinds
Maximize
 profit: 3 corn + 2.5 wheat
   - 0.75 oats + soy
Subject To
 protein: 0.1 corn + 0.125 wheat + 2e-1 oats >= 12
 weight: corn + wheat + oats + soy - trade + fixed <= 100
 balance: corn - wheat = 0
 - oats + soy >= -5
 fat: 0.04 corn + .05 oats <= 4.
Bounds
 corn <= 40
 2 <= wheat <= 30
 oats >= -3
 soy = 1.5
 trade free
 -inf <= fixed <= 7
End
