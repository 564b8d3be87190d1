"""layer1: one command over the proved programs, which do all the computing."""
