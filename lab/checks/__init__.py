"""What must hold of the program, and what is measured of it. Each command of lab/ is one of these modules."""
