"""A second reading of the rules, apart from the program and its definitions: what a home's lines come to, for one source."""
