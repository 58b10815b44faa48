"""What is started for a trial: the program, real servers and clients, an emulated machine, a network of its own, a sender in C."""
