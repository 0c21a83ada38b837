run --fuel 1
