matches catalyst
