"""The desk: what the programs tools/table and tools/journey are made of. Python 3.11, standard library; docs/DESK.md is for its users."""
