"""What the programs of this folder share. Plain Python 3.9 or later, standard library only."""
