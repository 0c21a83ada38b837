run --fuel 2
