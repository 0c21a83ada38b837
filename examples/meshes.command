pushout
